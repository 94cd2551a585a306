// The curves of the chosen cell: what is shown of it over time, and its flow.
const WIDE = 40;  // px more at the right, for the axis there

function curveNames() {
  const first = state.quantity === "flow" || shown().cells[chosen()].kind !== "road" ? "density" : state.quantity;
  return [first, "flow"];
}
// Steps from frame to frame, since a value holds for its whole frame.
function curve(name, x, y) {
  const rows = d3.range(frames + 1).map(frame => value(name, chosen(), Math.min(frame, frames - 1)));
  return d3.line().defined(row => !Number.isNaN(row)).curve(d3.curveStepAfter).x((_, frame) => x(bounds[frame])).y(row => y(row))(rows);
}
function drawCurve(svg, name, i, x, width, height) {
  const rows = d3.range(frames).map(frame => value(name, chosen(), frame)).filter(row => !Number.isNaN(row));
  const y = d3.scaleLinear([Math.min(0, d3.min(rows) || 0), Math.max(1e-6, d3.max(rows) || 1)], [height - edges.bottom, 20]).nice(5);
  const ink = i ? "var(--other)" : "var(--mark)", axis = i ? d3.axisRight(y) : d3.axisLeft(y);
  const cell = shown().cells[chosen()], what = whatOf(name, cell);
  svg.append("g").attr("transform", `translate(${i ? width - WIDE - edges.right : edges.left},0)`).call(axis.ticks(5));
  svg.append("path").attr("class", "curve").attr("fill", "none").attr("stroke", ink).attr("stroke-width", 1.6)
    .attr("stroke-dasharray", i ? "5 3" : null).attr("d", curve(name, x, y));
  svg.append("text").attr("x", i ? width - 4 : 2).attr("y", 11).attr("text-anchor", i ? "end" : "start")
    .text(`${state.against === null ? "" : "rise of "}${what}, ${unitOf(name, cell)}`).style("fill", ink);
}
function drawCurves() {
  const box = byId("curves"), width = box.clientWidth, height = box.clientHeight, x = timeScale(width - WIDE);
  const svg = cleared("curves");
  svg.append("g").attr("transform", `translate(0,${height - edges.bottom})`).call(timeAxis(x, width / 80));
  curveNames().forEach((name, i) => drawCurve(svg, name, i, x, width, height));
  svg.append("line").attr("id", "then").attr("y1", 18).attr("y2", height - edges.bottom).attr("stroke", "var(--soft)");
  byId("cell").textContent = `${placeText(shown().cells[chosen()], true)}: ${viewName()}`;
}
// Where a cell is, in words.
function placeText(cell, long) {
  if (cell.kind !== "road") return `${cell.kind} ${called(cell.name)}`;
  if (cell.place || cell.junction) return cell.place || cell.junction;
  const way = `${data.units.place} ${+cell.from.toFixed(3)} to ${+cell.to.toFixed(3)}`;
  if (data.titles[cell.road]) return `${called(cell.road)}, ${way}`;
  return cell.road ? `${long ? "Cell " : ""}${cell.name}, road ${cell.road}, ${way}` : `Cell ${cell.name}`;
}
