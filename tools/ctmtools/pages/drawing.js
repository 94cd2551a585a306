// Canvases and svg as large as their boxes.
const edges = { left: 46, right: 18, top: 18, bottom: 24 };

// A canvas in the pixels of the screen, or finer for print; gives its context and its size.
function canvas(name) {
  const box = byId(name), sheet = box.querySelector("canvas"), sharp = state.printing ? 2 : devicePixelRatio || 1;
  const width = box.clientWidth, height = box.clientHeight;
  sheet.width = width * sharp;
  sheet.height = height * sharp;
  const pen = sheet.getContext("2d");
  pen.scale(sharp, sharp);
  return { pen, width, height };
}
function cleared(name) {
  const svg = d3.select(`#${name} svg`);
  svg.selectAll("*").remove();
  return svg;
}
// Zoom by wheel and buttons, and drag; two fingers on a touch screen, where one scrolls the page. Both ends stay inside.
function zoomable(name, element, changed) {
  const zoom = d3.zoom().scaleExtent([1, 80]).on("zoom", given => changed((given && given.transform ? given : d3.event).transform));
  zoom.filter(given => {
    const event = given && given.type ? given : d3.event;
    return !event.button && (!event.touches || event.touches.length > 1);
  });
  zoom.extent(() => [[0, 0], [byId(name).clientWidth, byId(name).clientHeight]]);
  zoom.translateExtent([[-Infinity, -Infinity], [Infinity, Infinity]]);
  const drawn = d3.select(element).call(zoom).style("touch-action", "pan-y").on("dblclick.zoom", null);
  byId(name).closest(".pane").querySelectorAll(".zooms button").forEach(button => button.addEventListener("click", () => {
    const factor = +button.dataset.zoom;
    if (factor) zoom.scaleBy(drawn, factor);
    else zoom.transform(drawn, d3.zoomIdentity);
  }));
  return zoom;
}
