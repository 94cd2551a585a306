// Each picture as a PNG file, and what it draws as a CSV file with its units, by a click; the files are called by the page's title.
const FINE = 2, HEAD = 44, LEGEND = 54, KEY = 16;  // times as fine as on the screen; px
const saved = {
  map: { head: () => byId("map-head").textContent, key: () => [], rows: mapRows },
  space: { head: () => `${byId("space-head").textContent} ${called(state.road)}: ${legendText()}`, key: () => [], rows: spaceRows },
  curves: { head: () => byId("cell").textContent, key: () => [], rows: curveRows },
  queues: { head: () => byId("queues-head").textContent, key: () => shown().queues.map((course, i) => [course.name, queueInk(i)]), rows: queueRows },
  signals: { head: () => `Signal at ${state.signal}`, key: () => [[byId("signals-key").textContent, paint("ink")]], rows: signalRows },
  "way-times": { head: () => "Mean time to the exit by the time of setting out", key: wayKey, rows: () => wayRows("minutes", "min") },
  "way-flows": { head: () => "Who sets out by the time of setting out", key: wayKey, rows: () => wayRows("flow", "vehicles/h") },
  "draw-bars": { head: () => byId("draws-head").textContent, key: planKey, rows: barRows },
  "draw-sum": { head: () => `${byId("draws-head").textContent}, summed`, key: planKey, rows: sumRows },
};
const inkOf = colour => colour.replace(/^var\(--(.*)\)$/, (_, name) => paint(name));
function wayKey() { return withWays.map(report => [data.names[report], inkOf(wayInk(report))]); }
function planKey() { return plansDrawn.map((plan, i) => [plan.name, inkOf(planInk(i))]); }
const plain = value => Number.isNaN(value) || value === null || value === undefined ? "" : +value.toPrecision(7);
const valueHead = () => `${state.against === null ? "" : "rise of "}${state.quantity} (${quantities[state.quantity].unit})`;
const spanOf = frame => [clockText(bounds[frame]), clockText(bounds[frame + 1])];
const placeUnit = data.units.place;

function mapRows() {
  const rows = shown().cells.map((cell, i) => [...spanOf(state.frame), cell.kind, placeText(cell, true), called(cell.road || ""),
    cell.road ? cell.from : "", cell.road ? cell.to : "", plain(value(state.quantity, i, state.frame))]);
  return [["begin", "end", "kind", "place", "road", `from (${placeUnit})`, `to (${placeUnit})`, valueHead()], ...rows];
}
function spaceRows() {
  const cells = cellsOfRoad(), rows = d3.range(frames).flatMap(frame => cells.map(cell => [...spanOf(frame), called(state.road),
    shown().cells[cell].from, shown().cells[cell].to, plain(value(state.quantity, cell, frame)), +isQueued(shown(), cell, frame)]));
  return [["begin", "end", "road", `from (${placeUnit})`, `to (${placeUnit})`, valueHead(), "in a queue (1 or 0)"], ...rows];
}
function curveRows() {
  const cell = chosen(), own = shown().cells[cell], names = curveNames();
  const heads = names.map(name => `${state.against === null ? "" : "rise of "}${whatOf(name, own)} (${unitOf(name, own)})`);
  return [["begin", "end", "place", ...heads], ...d3.range(frames).map(frame => [...spanOf(frame), placeText(own, true),
    ...names.map(name => plain(value(name, cell, frame)))])];
}
function queueRows() {
  const { queues } = shown();
  return [["begin", "end", ...queues.map(course => `${course.name} (m)`)],
    ...d3.range(frames).map(frame => [...spanOf(frame), ...queues.map(course => course.metres[frame])])];
}
function signalRows() {
  const unit = data.clock.known ? "s" : "steps";
  return [["greens", `from (${unit} of the cycle)`, `to (${unit} of the cycle)`, `cycle (${unit})`, "a cycle begins at"],
    ...signalsOfJunction().flatMap(({ name, greens, cycle, zero }) => greens.map(([begin, end]) => [name, begin, end, cycle, clockText(zero)]))];
}
function wayRows(measure, unit) {
  const ways = state.way === null ? waysShown() : [waysShown()[state.way]], lines = withWays.map(report => series(ways, report));
  return [["set out at", ...withWays.map(report => `${data.names[report]} (${unit})`)],
    ...data.ways.starts.map((start, i) => [clockText(start), ...lines.map(rows => plain(rows[i][measure]))])];
}
function barRows() {
  const { ends: limits } = data.draws;
  return [["delay from (vehicle-hours)", "delay to (vehicle-hours)", ...plansDrawn.map(plan => `${plan.name} (part of the draws)`)],
    ...limits.slice(1).map((end, i) => [plain(limits[i]), plain(end), ...plansDrawn.map(plan => plain(plan.shares[i]))])];
}
function sumRows() {
  return [["plan", "delay (vehicle-hours)", "draws with at most that (part)"], ...plansDrawn.flatMap(plan => plan.sum.map(row => [plan.name, ...row.map(plain)]))];
}
// Rows as CSV; a text that a spreadsheet would run as a formula stands behind an apostrophe, as in the tables of these tools.
const isRun = text => /^'*\s*[=+\-@\uff1d\uff0b\uff0d\uff20\t\r\n]/.test(text);
function csvText(rows) {
  const cell = entry => {
    const text = typeof entry === "string" && isRun(entry) ? `'${entry}` : String(entry);
    return /[",\n\r]/.test(text) ? `"${text.replace(/"/g, '""')}"` : text;
  };
  return rows.map(row => `${row.map(cell).join(",")}\n`).join("");
}
const MOST_NAME = 80;  // letters of a title
const fileName = (name, kind) => `${byId("title").textContent.replace(/[\\/:*?"<>|\s\x00-\x1f]+/g, " ").trim().slice(0, MOST_NAME) || "page"} - ${name}.${kind}`;
// The picture with the title, its head, the legend of its colours and the names of its lines.
function pictureOf(name) {
  const box = byId(name), { clientWidth: width, clientHeight: height } = box, own = box.querySelector("canvas"), svg = box.querySelector("svg");
  const top = HEAD + (own ? LEGEND : 0), key = saved[name].key(), sheet = document.createElement("canvas"), pen = sheet.getContext("2d");
  [sheet.width, sheet.height] = [width * FINE, (top + height + KEY * key.length + 6) * FINE];
  pen.scale(FINE, FINE);
  pen.fillStyle = paint("paper");
  pen.fillRect(0, 0, sheet.width, sheet.height);
  const write = (text, font, y, colour) => { pen.font = font; pen.fillStyle = colour; pen.fillText(text, 4, y, width - 8); };
  write(byId("title").textContent, "600 15px system-ui, sans-serif", 18, paint("ink"));
  write(saved[name].head(), "12px system-ui, sans-serif", 36, paint("ink"));
  if (own) {
    copyLegend(pen, HEAD);
    pen.drawImage(own, 0, top, width, height);
  }
  if (svg) copySvg(pen, svg, top);
  key.forEach(([text, colour], i) => write(text, "12px system-ui, sans-serif", top + height + KEY * (i + 1) - 4, colour));
  return sheet;
}
function copyLegend(pen, top) {
  const svg = byId("legend").querySelector("svg"), bar = svg.querySelector("rect"), ink = inks(), [left, wide] = [12, +bar.getAttribute("width")];
  for (let x = 0; x < wide; x++) {
    pen.fillStyle = ink(x / wide);
    pen.fillRect(left + x, top + 16, 1.5, 11);
  }
  copySvg(pen, svg, top);
}
// The shapes and texts of an svg as they look, on a canvas; the page's policy lets no picture of it be loaded.
function copySvg(pen, svg, top) {
  const home = svg.getScreenCTM().inverse();
  for (const one of svg.querySelectorAll("path, line, rect, circle, text")) {
    const look = getComputedStyle(one), { a, b, c, d, e, f } = home.multiply(one.getScreenCTM());
    if (look.visibility === "hidden" || look.display === "none" || look.fill.startsWith("url")) continue;
    pen.save();
    pen.translate(0, top);
    pen.transform(a, b, c, d, e, f);
    if (one.tagName === "text") copyText(pen, one, look);
    else copyShape(pen, one, look);
    pen.restore();
  }
}
function copyText(pen, one, look) {
  if (!one.getNumberOfChars()) return;
  const { x, y } = one.getStartPositionOfChar(0), text = [...one.childNodes].filter(node => node.nodeType === Node.TEXT_NODE).map(node => node.data).join("");
  pen.font = `${look.fontWeight} ${look.fontSize} ${look.fontFamily}`;
  pen.fillStyle = look.fill;
  pen.fillText(text, x, y, one.getComputedTextLength());
}
function copyShape(pen, one, look) {
  const shape = shapeOf(one);
  if (look.fill !== "none") {
    pen.globalAlpha = +look.fillOpacity;
    pen.fillStyle = look.fill;
    pen.fill(shape);
  }
  if (look.stroke === "none") return;
  pen.globalAlpha = +look.strokeOpacity;
  pen.strokeStyle = look.stroke;
  pen.lineWidth = parseFloat(look.strokeWidth);
  pen.setLineDash(look.strokeDasharray === "none" ? [] : look.strokeDasharray.split(/[ ,]+/).map(parseFloat));
  pen.stroke(shape);
}
function shapeOf(one) {
  const [number, shape] = [name => one[name].baseVal.value, new Path2D(one.tagName === "path" ? one.getAttribute("d") || "" : undefined)];
  if (one.tagName === "line") line(shape, number("x1"), number("y1"), number("x2"), number("y2"));
  if (one.tagName === "rect") shape.rect(number("x"), number("y"), number("width"), number("height"));
  if (one.tagName === "circle") shape.arc(number("cx"), number("cy"), number("r"), 0, 2 * Math.PI);
  return shape;
}
function download(content, name) {
  const link = Object.assign(document.createElement("a"), { href: URL.createObjectURL(content), download: name });
  link.click();
  setTimeout(() => URL.revokeObjectURL(link.href), 60000);
}
const takers = {
  PNG: name => pictureOf(name).toBlob(content => download(content, fileName(name, "png"))),
  CSV: name => download(new Blob([csvText(saved[name].rows())], { type: "text/csv" }), fileName(name, "csv")),
};
// Below each picture a button for each kind of file.
function addSavers() {
  for (const name of Object.keys(saved)) {
    const box = byId(name), holder = Object.assign(document.createElement("div"), { className: "saved" });
    const savers = Object.assign(document.createElement("div"), { className: "savers" });
    for (const kind of Object.keys(takers)) {
      const button = Object.assign(document.createElement("button"), { type: "button", textContent: kind, title: `Save ${kind}` });
      button.addEventListener("click", () => takers[kind](name));
      savers.append(button);
    }
    box.replaceWith(holder);
    holder.append(box, savers);
  }
}
