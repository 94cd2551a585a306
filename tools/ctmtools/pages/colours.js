// The colours of values, and the legend that tells them.
const RISE = ["#3f8fc9", "#9cc9e8", "#ffffff", "#e58a3a", "#4d1400"];  // as in the pictures: a rise is dark in grey too
const RISE_DARK = ["#9fd0ff", "#3b7fc4", "#23262b", "#c9752b", "#ffcf9a"];
const paint = name => getComputedStyle(document.documentElement).getPropertyValue(`--${name}`).trim();

function inks() {
  if (state.against !== null) return d3.piecewise(d3.interpolateRgb, isDark() ? RISE_DARK : RISE);
  const ink = isDark() ? part => d3.interpolateInferno(0.2 + 0.8 * part) : part => d3.interpolateYlOrRd(0.1 + 0.9 * part);
  return state.quantity === "speed" ? part => ink(1 - part) : ink;
}
// The colour of a value, from a table, since a large report has a million of them to draw.
function colours() {
  const [low, high] = range(), ink = inks(), table = d3.range(256).map(i => ink(i / 255)), none = paint("none");
  return value => Number.isNaN(value) ? none :
    table[Math.max(0, Math.min(255, Math.round((value - low) / (high - low) * 255)))];
}

function drawLegend() {
  const box = byId("legend"), svg = d3.select("#legend svg"), width = box.clientWidth, ink = inks();
  const scale = d3.scaleLinear(range(), [12, width - 22]);
  svg.selectAll("*").remove();
  const fill = svg.append("defs").append("linearGradient").attr("id", "fill");
  d3.range(0, 1.01, 0.05).forEach(part => fill.append("stop").attr("offset", part).attr("stop-color", ink(part)));
  svg.append("text").attr("x", 12).attr("y", 11).text(legendText());
  svg.append("rect").attr("x", 12).attr("y", 16).attr("width", width - 34).attr("height", 11).attr("fill", "url(#fill)")
    .attr("stroke", "var(--line)");
  svg.append("g").attr("transform", "translate(0,27)").call(d3.axisBottom(scale).ticks(Math.min(6, width / 60)).tickSize(4));
  drawKey();
}
function legendText() {
  const what = `${state.quantity}, ${quantities[state.quantity].unit}`;
  return state.against === null ? what : `rise of ${what}`;
}
// What the outlines and the grey mean.
function drawKey() {
  const key = d3.select("#key"), slow = `queue, slower than ${Math.round(100 * data.slow)}% of free flow`;
  const entries = state.against === null ? [["outline", slow]] :
    [["outline dashed", `queue, ${data.names[state.against]}`], ["outline", `queue, ${data.names[state.report]}`]];
  if (state.quantity === "speed" || state.against !== null) entries.push(["none", state.against === null ? "no vehicles" :
    "not in both, or no vehicles"]);
  key.selectAll("*").remove();
  for (const [look, text] of entries) {
    const entry = key.append("span");
    entry.append("svg").append("rect").attr("x", 1.5).attr("y", 1.5).attr("width", 22).attr("height", 10)
      .attr("fill", look === "none" ? "var(--none)" : "none").attr("stroke", look === "none" ? "none" : "var(--ink)")
      .attr("stroke-dasharray", /dashed/.test(look) ? "4 2.5" : null);
    entry.append("span").text(text);
  }
}
