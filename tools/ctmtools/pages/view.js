// What is shown follows from `state`: a report, or what it has more than another one, at a frame.
const state = { frame: data.opening.frame, quantity: "density", report: data.opening.report, against: null,
  road: data.opening.road, cell: data.opening.cell, measure: 1, pair: 0, way: null, signal: null, printing: false };
const dark = matchMedia("(prefers-color-scheme: dark)");
const isDark = () => dark.matches && !state.printing;
const byId = name => document.getElementById(name);
const shown = () => data.reports[state.report];
const cellsOfRoad = () => shown().roads[state.road];
// The number of the chosen cell in the report that is shown.
const chosen = () => shown().places.get(state.cell);

const views = [...data.names.map((name, i) => ({ report: i, against: null, name })),
  ...data.names.slice(1).map((name, i) => ({ report: i + 1, against: 0, name: `${name} less ${data.names[0]}` }))];
const viewName = () => views.find(view => view.report === state.report && view.against === state.against).name;

// What a reader calls a road, a gate or an exit.
const called = name => data.titles[name] || name;
// The street of an imported road, with which the map names it.
const HEADING = / (?:(?:north|south)(?:-(?:east|west))?|east|west)$/;
const streetOf = road => data.titles[road] ? called(road).split(",")[0].replace(HEADING, "") : road;
const rowName = name => name.startsWith("gate ") ? `gate ${called(name.slice(5))}` : called(name);

// For each cell of a report the number of the same cell in another, where that is the same part of a road.
function twinsOf(report, other) {
  return report.cells.map(cell => {
    const place = other.places.get(cell.name), twin = other.cells[place];
    const same = twin && twin.kind === cell.kind && twin.road === cell.road && twin.from === cell.from && twin.to === cell.to;
    return same ? place : undefined;
  });
}
const remembered = new Map();
function once(key, make) {
  if (!remembered.has(key)) remembered.set(key, make());
  return remembered.get(key);
}
const twins = () => once(`twins ${state.report}`, () => twinsOf(shown(), data.reports[state.against]));

// What is shown of a cell, over some frames; what there isn't is NaN.
function value(name, cell, first, last = first + 1) {
  const of = quantities[name].of, here = of(shown(), cell, first, last);
  if (state.against === null) return here;
  const twin = twins()[cell];
  return twin === undefined ? NaN : here - of(data.reports[state.against], twin, first, last);
}
// From the least to the greatest value on roads, for all frames and reports, or as far below 0 as above for a difference.
function range() {
  const key = `${state.quantity} ${state.against === null ? "" : state.report}`;
  return once(key, () => {
    if (state.against === null) return [0, Math.max(...data.reports.map(quantities[state.quantity].most)) || 1];
    let far = 0;
    shown().cells.forEach((cell, i) => {
      if (cell.kind !== "road" || twins()[i] === undefined) return;
      for (let frame = 0; frame < frames; frame++) far = Math.max(far, Math.abs(value(state.quantity, i, frame)) || 0);
    });
    return [-(far || 1), far || 1];
  });
}
// Takes the view on where the road or the cell that is chosen isn't in the report.
function settle() {
  const report = shown();
  if (!report.roads[state.road]) state.road = Object.keys(report.roads)[0];
  if (!report.places.has(state.cell)) state.cell = report.cells[report.roads[state.road][0]].name;
}
