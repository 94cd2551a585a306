// The page as a whole: drawn anew from `state`, which its controls change.
function mark() {
  const spaceBox = byId("space"), { x } = spaceScales(spaceBox.clientWidth, spaceBox.clientHeight);
  const then = timeScale(byId("curves").clientWidth - WIDE), time = (bounds[state.frame] + bounds[state.frame + 1]) / 2;
  const now = Math.max(edges.left, Math.min(spaceBox.clientWidth - edges.right, x(time)));
  d3.select("#now").attr("x1", now).attr("x2", now).attr("visibility", now === x(time) ? null : "hidden");
  d3.select("#then").attr("x1", then(time)).attr("x2", then(time));
  byId("slider").value = state.frame;
  byId("slider").setAttribute("aria-valuetext", data.times[state.frame]);
  byId("time").textContent = data.times[state.frame];
  const of = count > 1 ? `, ${viewName()}` : "";
  byId("map-head").textContent = `Map at ${data.times[state.frame]}: ${legendText()}${of}${data.schematic ? ", schematic" : ""}`;
  byId("space-head").textContent = `Time and place${of} on road`;
}
function show() {
  settle();
  byId("road").value = state.road;
  fitMap();
  drawLegend();
  drawMap();
  drawSpace();
  drawCurves();
  drawQueues();
  drawSignal();
  drawWays();
  drawDraws();
  fitTable();
  mark();
}
function at(frame) {
  state.frame = frame;
  drawMap();
  mark();
}
function choose(cell) {
  const own = shown().cells[cell];
  state.cell = own.name;
  if (own.road && shown().roads[own.road] && own.road !== state.road) chooseRoad(own.road, own.name);
  else show();
}
function chooseRoad(road, cell) {
  if (!road) return;
  if (road !== state.road) zoomSpace.transform(d3.select("#space svg"), d3.zoomIdentity);
  state.road = road;
  const cells = shown().roads[road];
  if (cell || !cells.includes(chosen())) state.cell = cell || shown().cells[cells[cells.length - 1]].name;
  drawTable();
  show();
}
function showSignal(approach) {
  state.signal = approach;
  drawSignal();
}
function options(id, entries, chosenNow) {
  byId(id).append(...entries.map(([key, text]) => new Option(text, key)));
  byId(id).addEventListener("change", event => chosenNow(event.target.value));
}
function fillRoads() {
  byId("road").replaceChildren(...Object.keys(shown().roads).map(road => new Option(called(road), road)));
  byId("road").value = state.road;
}
function see({ report, against }) {
  Object.assign(state, { report, against });
  settle();
  fillRoads();
  drawTable();
  show();
}
addSavers();
byId("logo").hidden = !data.logo;
if (data.logo) byId("logo").src = data.logo;
for (const id of ["title", "author", "subtitle", "provenance", "notes"]) byId(id).textContent = data[id];
const narrow = matchMedia("(max-width: 600px)");
const tellOrigin = () => { byId("origin").open = !narrow.matches; };
narrow.addEventListener("change", tellOrigin);
tellOrigin();
byId("slider").max = frames - 1;
byId("slider").addEventListener("input", event => at(+event.target.value));
byId("play").addEventListener("click", play);
byId("credit").textContent = data.background ? data.background.credit : "";
options("pace", PACES, taken => { pace = +taken; if (playing !== null) { stop(); play(); } });
byId("pace").value = pace;
options("quantity", Object.keys(quantities).map(name => [name, name]), taken => { state.quantity = taken; show(); });
options("view", views.map((view, i) => [i, view.name]), taken => see(views[taken]));
options("measure", roadsTable.measures.map((measure, i) => [i, headOf(measure)]).slice(1), taken => {
  state.measure = +taken;
  order.column = null;
  drawTable();
});
byId("view").value = state.report;
byId("road").addEventListener("change", event => chooseRoad(event.target.value));
byId("signal").addEventListener("change", event => showSignal(event.target.value));
byId("views").hidden = count < 2;
byId("measures").hidden = count < 3;
zoomable("map", byId("map").querySelector("canvas"), transform => { mapZoom = transform; drawMap(); });
const zoomSpace = zoomable("space", byId("space").querySelector("svg"), transform => { spaceZoom = transform; drawSpace(); mark(); });
watch("map", found => choose(found.cell));
watch("space", found => { state.frame = found.frame; choose(found.cell); });
watch("curves", found => at(found.frame));
dark.addEventListener("change", show);
addEventListener("resize", show);
addEventListener("beforeprint", toPaper);
addEventListener("afterprint", toScreen);
fillRoads();
fillPairs();
fillDraws();
drawTables();
show();
