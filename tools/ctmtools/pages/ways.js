// The ways of a pair of gate and exit: who sets out on each and how long it takes; the cells of the chosen one are lit.
const WAY_INKS = ["mark", "other"], DASHES = [null, "6 3", "2 2", "8 2 2 2"];
const MOST_ROADS = 14;  // of a way, of which all are named; of a longer one those at its ends
const waysShown = () => data.ways.pairs[state.pair].ways;
const withWays = data.ways ? d3.range(data.reports.length).filter(report => data.ways.has[report]) : [];
const wayInk = report => `var(--${WAY_INKS[withWays.indexOf(report) % 2]})`;
const wayDash = report => DASHES[withWays.indexOf(report) % DASHES.length];
const vehiclesOn = (way, report) => way.of[report] ? d3.sum(way.of[report].vehicles) : 0;

// The mean minutes of some ways in a report, over all who take them.
function meanMinutes(ways, report) {
  let vehicles = 0, minutes = 0;
  for (const { of } of ways) (of[report] ? of[report].vehicles : []).forEach((count, i) => {
    vehicles += count;
    minutes += count * of[report].minutes[i];
  });
  return vehicles ? minutes / vehicles : null;
}
// Interval by interval the vehicles/h and the mean minutes of some ways in a report; what there isn't is NaN.
function series(ways, report) {
  return data.ways.starts.map((_, i) => {
    const own = ways.map(way => way.of[report]).filter(of => of && of.vehicles[i] !== null);
    const vehicles = d3.sum(own, of => of.vehicles[i]), minutes = d3.sum(own, of => of.vehicles[i] * of.minutes[i]);
    return { flow: own.length ? vehicles * 3600 / data.ways.widths[report] : NaN,
      minutes: vehicles ? minutes / vehicles : own.length ? own[0].minutes[i] : NaN };
  });
}
// The numbers of the chosen way's cells in the report that is shown, by their names where another report alone has the way.
function litCells() {
  const way = data.ways && state.way !== null ? waysShown()[state.way] : null;
  if (!way) return new Set();
  return once(`lit ${state.pair} ${state.way} ${state.report}`, () => {
    const report = way.of[state.report] ? state.report : way.of.findIndex(of => of);
    const numbers = way.of[report].cells.flatMap(([first, last]) => d3.range(first, last + 1));
    return new Set(numbers.map(number => shown().places.get(data.reports[report].cells[number].name)).filter(place => place !== undefined));
  });
}
function chooseWay(number) {
  state.way = number === state.way ? null : number;
  drawWays();
  drawMap();
  drawSpace();
  mark();
}
function roadsText(roads) {
  const half = MOST_ROADS / 2, names = roads.map(called);
  return (names.length > MOST_ROADS ? [...names.slice(0, half), "…", ...names.slice(-half)] : names).join(" › ");
}
// The columns: vehicles and minutes in each report, and of two reports what the second takes more.
function wayColumns() {
  const groups = [["vehicles", 0, vehiclesOf], ["mean, min", 2, meanMinutes]];
  return groups.flatMap(([group, digits, of]) => {
    const each = withWays.map(report => ({ group, head: data.names[report], digits, of: ways => of(ways, report) }));
    if (withWays.length !== 2 || of !== meanMinutes) return each;
    const more = ways => { const [a, b] = withWays.map(report => of(ways, report)); return a === null || b === null ? null : b - a; };
    return [...each, { group, head: "rise", digits, of: more }];
  });
}
const vehiclesOf = (ways, report) => d3.sum(ways, way => vehiclesOn(way, report));
function drawWayTable() {
  const table = d3.select("#pair-ways"), list = wayColumns(), several = withWays.length > 1;
  table.selectAll("*").remove();
  const head = table.append("thead"), top = head.append("tr");
  top.append("th").text(several ? "" : "by");
  if (several) {
    const second = head.append("tr");
    second.append("th").text("by");
    list.forEach((column, i) => {
      if (!i || column.group !== list[i - 1].group) top.append("th").attr("colspan", list.filter(({ group }) => group === column.group).length).text(column.group);
      second.append("th").text(column.head);
    });
  } else list.forEach(column => top.append("th").text(column.group));
  const rows = table.append("tbody").selectAll("tr").data(waysShown()).join("tr").attr("data-way", (_, i) => i)
    .attr("class", (_, i) => i === state.way ? "chosen" : null).on("click", function () { chooseWay(+this.dataset.way); });
  rows.selectAll("td").data(way => [roadsText(way.roads), ...list.map(column => told(column.of([way]), column.digits))]).join("td").text(text => text);
  const all = table.append("tfoot").append("tr").attr("class", "all");
  all.append("td").text("in all");
  list.forEach(column => all.append("td").text(told(column.of(waysShown()), column.digits)));
}
// The times by setting out, or the flow that sets out, of the chosen way, or of all ways of the pair together.
function drawSeries(name, measure, text) {
  const box = byId(name), width = box.clientWidth, height = box.clientHeight, x = timeScale(width), svg = cleared(name);
  const { starts, widths } = data.ways, ways = state.way === null ? waysShown() : [waysShown()[state.way]];
  const lines = withWays.map(report => ({ report, rows: series(ways, report).map(row => row[measure]) }));
  const y = d3.scaleLinear([0, d3.max(lines.flatMap(({ rows }) => rows.filter(row => !Number.isNaN(row)))) || 1], [height - edges.bottom, 20]).nice(4);
  svg.append("g").attr("transform", `translate(0,${height - edges.bottom})`).call(timeAxis(x, width / 80));
  svg.append("g").attr("transform", `translate(${edges.left},0)`).call(d3.axisLeft(y).ticks(4));
  lines.forEach(({ report, rows }) => svg.append("path").attr("class", "series").attr("fill", "none").attr("stroke", wayInk(report))
    .attr("stroke-width", 1.6).attr("stroke-dasharray", wayDash(report))
    .attr("d", rows.map((row, i) => Number.isNaN(row) ? "" : `${stepFrom(rows, i, x(starts[i]), y(row))}H${x(starts[i] + widths[report])}`).join("")));
  svg.append("text").attr("x", 2).attr("y", 11).text(text);
}
// Begins a step of a line, which goes on from the step before where that ends here.
function stepFrom(rows, i, x, y) {
  const { starts, widths } = data.ways, goesOn = i && !Number.isNaN(rows[i - 1]) && starts[i] - starts[i - 1] <= d3.min(widths.filter(width => width)) + 1e-6;
  return goesOn ? `L${x},${y}` : `M${x},${y}`;
}
function drawWayKey() {
  const key = d3.select("#ways-key");
  key.selectAll("*").remove();
  const { from, to } = data.ways.pairs[state.pair], what = state.way === null ? `all routes from ${called(from)} to ${called(to)}` : roadsText(waysShown()[state.way].roads);
  key.append("span").text(`By time of departure: ${what}`);
  if (withWays.length > 1) for (const report of withWays) {
    const entry = key.append("span");
    entry.append("svg").append("line").attr("x1", 1).attr("x2", 25).attr("y1", 7).attr("y2", 7).attr("stroke", wayInk(report))
      .attr("stroke-width", 2).attr("stroke-dasharray", wayDash(report));
    entry.append("span").text(data.names[report]);
  }
}
function drawWays() {
  if (!data.ways) return;
  drawWayTable();
  drawWayKey();
  drawSeries("way-times", "minutes", "mean time to the exit, min");
  drawSeries("way-flows", "flow", "departures, vehicles/h");
}
function fillPairs() {
  byId("ways").hidden = !data.ways;
  if (!data.ways) return;
  const most = pair => d3.max(withWays, report => d3.sum(pair.ways, way => vehiclesOn(way, report)));
  options("pair", data.ways.pairs.map((pair, i) => [i, `${called(pair.from)} to ${called(pair.to)}: ${told(most(pair), 0)} vehicles`]), taken => {
    Object.assign(state, { pair: +taken, way: null });
    show();
  });
  byId("ways-more").textContent = waysText();
}
const waysText = () => "A click on a route shows it in the map and in the diagram." +
  (data.ways.left_out ? ` ${told(data.ways.left_out, 0)} routes that fewer vehicles take are left out.` : "");
