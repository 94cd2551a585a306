// The map: each road cell in the colour of its value, with names; it is zoomed and dragged.
let mapZoom = d3.zoomIdentity;
const everyPoint = data.networks.flatMap(network => network.cells.flatMap(cell => cell.line));
const extent = [0, 1].map(axis => d3.extent(everyPoint, point => point[axis]));
const EDGE = 24, LIT = 9;  // px; a cell of the chosen way is lit so much about it

// How many px a unit of the map takes before it is zoomed.
function fitted(width, height) {
  const spans = extent.map(([low, high]) => high - low || 1e-9);
  return Math.min((width - 2 * EDGE) / spans[0], (height - 2 * EDGE) / spans[1]);
}
function places(width, height) {
  const size = fitted(width, height), middle = extent.map(([low, high]) => (low + high) / 2);
  const place = ([x, y]) => mapZoom.apply([width / 2 + (x - middle[0]) * size, height / 2 - (y - middle[1]) * size]);
  const back = point => {
    const [x, y] = mapZoom.invert(point);
    return [(x - width / 2) / size + middle[0], middle[1] - (y - height / 2) / size];
  };
  return { place, back, size: size * mapZoom.k };
}
// As high as the map needs in its width, within bounds; a flat one has the whole width of a screen.
function fitMap() {
  const box = byId("map"), [width, height] = extent.map(([low, high]) => high - low || 1e-9);
  const flat = document.body.clientWidth * height / width < 120;
  box.closest(".panes").classList.toggle("flat", flat);
  box.style.height = `${Math.round(Math.max(flat ? 110 : 200, Math.min(state.printing ? 290 : 384, 60 + box.clientWidth * height / width)))}px`;
}
const widthOf = cell => (2 + 1.5 * (cell.lanes || 1)) * Math.min(3, Math.sqrt(mapZoom.k));
function trace(pen, place, cell, wide, style) {
  pen.beginPath();
  cell.line.forEach((point, i) => i ? pen.lineTo(...place(point)) : pen.moveTo(...place(point)));
  pen.lineWidth = wide;
  pen.strokeStyle = style;
  pen.stroke();
}
function drawMap() {
  const { pen, width, height } = canvas("map"), { place, back, size } = places(width, height), colour = colours();
  if (data.background) drawTiles(place, back, size, width, height);
  const { cells } = shown(), soft = paint("soft");
  pen.lineCap = "round";
  if (state.against !== null)  // what the other report alone has
    data.reports[state.against].cells.filter(cell => !shown().places.has(cell.name))
      .forEach(cell => trace(pen, place, cell, 2, paint("none")));
  for (const i of litCells()) trace(pen, place, cells[i], widthOf(cells[i]) + LIT, paint("other"));
  cells.forEach(cell => trace(pen, place, cell, widthOf(cell) + 1.5, soft));
  pen.lineCap = "butt";
  cells.forEach((cell, i) => trace(pen, place, cell, widthOf(cell), cell.kind === "road" ?
    colour(value(state.quantity, i, state.frame)) : soft));
  pen.lineCap = "round";
  trace(pen, place, cells[chosen()], 2, paint("ink"));
  drawMarks(pen, place);
  drawNames(pen, place, width, height);
}
// Signals as dots, green or red at the frame's beginning; closures as crosses, strong while they hold.
function drawMarks(pen, place) {
  const { cells, signals, closures } = shown(), time = bounds[state.frame], drawn = new Set();
  for (const signal of signals) {
    const line = cells[signal.at].line, [x, y] = place(line[line.length - 1]), green = signals.some(other => other.at === signal.at && isGreen(other, time));
    if (drawn.has(signal.at)) continue;
    drawn.add(signal.at);
    pen.beginPath();
    pen.arc(x, y, 4, 0, 2 * Math.PI);
    pen.fillStyle = paint(green ? "green" : "red");
    pen.fill();
    pen.lineWidth = 1.5;
    pen.strokeStyle = paint("paper");
    pen.stroke();
  }
  for (const closure of closures) {
    const [x, y] = place(middle(cells[closure.cells[Math.floor(closure.cells.length / 2)]].line));
    pen.beginPath();
    line(pen, x - 6, y - 6, x + 6, y + 6);
    line(pen, x - 6, y + 6, x + 6, y - 6);
    pen.lineWidth = 3;
    pen.strokeStyle = paint(time >= closure.begin && time < closure.end ? "red" : "soft");
    pen.stroke();
  }
}
// What is written beside closures before all other names, and beside signals behind them.
const closureNames = () => shown().closures.map(closure => {
  const { line: way } = shown().cells[closure.cells[Math.floor(closure.cells.length / 2)]];
  return { text: closureText(closure), point: middle(way), upright: upright(way), mark: true };
});
const signalNames = () => shown().signals.map(signal => {
  const { line: way } = shown().cells[signal.at];
  return { text: signalText(signal), point: way[way.length - 1], upright: upright(way) };
});
// The cell nearest to a point of the screen, and how far it is in px.
function nearest(x, y) {
  const box = byId("map"), { place } = places(box.clientWidth, box.clientHeight);
  let found = 0, least = Infinity;
  shown().cells.forEach((cell, i) => {
    for (let part = 1; part < cell.line.length; part++) {
      const away = distance([x, y], place(cell.line[part - 1]), place(cell.line[part]));
      if (away < least) [found, least] = [i, away];
    }
  });
  return { cell: found, away: least };
}
function distance([x, y], [x1, y1], [x2, y2]) {
  const along = [x2 - x1, y2 - y1], square = along[0] ** 2 + along[1] ** 2 || 1;
  const part = Math.max(0, Math.min(1, ((x - x1) * along[0] + (y - y1) * along[1]) / square));
  return Math.hypot(x1 + part * along[0] - x, y1 + part * along[1] - y);
}
