// The end of the page of a report as a function: what the page that is live takes of it, and how it takes other data over.
const drawOwnSpace = drawSpace;
let spaceIsDrawn = () => {};
drawSpace = () => { drawOwnSpace(); spaceIsDrawn(); };  // also where it is zoomed

function takeFrames(report, fresh) {
  for (const name of ["density", "flow"])
    report[name] = { most: fresh[name].most, parts: new Uint16Array(fresh[name].text.buffer) };
  report.bits = fresh.queued;
  for (const name of ["limits", "closures", "signals", "queues"]) if (fresh[name]) report[name] = fresh[name];
}
// Another picture of the last report, which is laid out alike.
function takePicture(fresh) {
  takeFrames(data.reports[data.reports.length - 1], fresh);
  remembered.clear();
  drawLegend();
  drawMap();
  drawSpace();
  drawCurves();
  mark();
}
// Other data that are laid out alike, with their tables.
function takeAll(fresh) {
  data.reports.forEach((report, i) => takeFrames(report, fresh.reports[i]));
  Object.assign(roadsTable, fresh.tables.roads);
  Object.assign(data.tables, { ...fresh.tables, roads: roadsTable });
  for (const id of ["reports", "cells", "greens", "told"]) byId(id).replaceChildren();
  for (const id of ["title", "subtitle", "provenance", "notes"]) byId(id).textContent = fresh[id];
  remembered.clear();
  drawTables();
  show();
}
function takeState(kept) {
  Object.assign(state, kept);
  state.frame = Math.min(state.frame, frames - 1);
  settle();
  byId("quantity").value = state.quantity;
  byId("view").value = views.findIndex(view => view.report === state.report && view.against === state.against);
  fillRoads();
  drawTable();
  show();
}
return { state, takePicture, takeAll, takeState, stop, edges,
  viewName, viewNamed: name => views.find(view => view.name === name),
  scales: () => spaceScales(byId("space").clientWidth, byId("space").clientHeight),
  times: { begins, ends, known: data.clock.known }, clockText, whenSpaceIsDrawn: then => { spaceIsDrawn = then; } };
