// The draws: how the delays of each plan are distributed and the sum of that, and what is told of them.
const DRAW_INKS = ["mark", "other", "ink"];
const plansDrawn = data.draws ? data.draws.plans : [];
const planInk = plan => `var(--${DRAW_INKS[plan % DRAW_INKS.length]})`;
const planDash = plan => DASHES[plan % DASHES.length];
const percentText = part => `${+(100 * part).toFixed(1)}%`;

// Axes of delays and of parts of the draws up to a greatest one, and a line for each plan.
function drawParts(name, most, ticks, text, line) {
  const box = byId(name), width = box.clientWidth, height = box.clientHeight, svg = cleared(name), { ends } = data.draws;
  const x = d3.scaleLinear([ends[0], ends[ends.length - 1]], [edges.left, width - edges.right]);
  const y = d3.scaleLinear([0, most], [height - edges.bottom, 20]);
  const levels = svg.append("g").attr("transform", `translate(${edges.left},0)`).call((ticks ? d3.axisLeft(y).tickValues(ticks) : d3.axisLeft(y).ticks(4)).tickFormat(percentText));
  if (ticks) levels.selectAll(".tick line").attr("x2", width - edges.left - edges.right).attr("stroke-opacity", 0.4);
  svg.append("g").attr("transform", `translate(0,${height - edges.bottom})`).call(d3.axisBottom(x).ticks(width / 80));
  plansDrawn.forEach((plan, i) => {
    if (!plan.sum.length) return;
    svg.append("path").attr("class", "series").attr("fill", "none").attr("stroke", planInk(i)).attr("stroke-width", 1.6)
      .attr("stroke-dasharray", planDash(i)).attr("d", line(plan, x, y));
  });
  svg.append("text").attr("x", 2).attr("y", 11).text(text);
  return { svg, x, y };
}
// The outline of a plan's bars.
function barsLine({ shares }, x, y) {
  const { ends } = data.draws;
  return `M${x(ends[0])},${y(0)}${shares.map((share, i) => `V${y(share)}H${x(ends[i + 1])}`).join("")}V${y(0)}`;
}
// The steps up to the part of the draws that have at most a delay.
function sumLine({ sum }, x, y) {
  const { ends } = data.draws;
  return `M${x(ends[0])},${y(0)}${sum.map(([delay, part]) => `H${x(delay)}V${y(part)}`).join("")}H${x(ends[ends.length - 1])}`;
}
function drawDraws() {
  if (!data.draws) return;
  const { percents } = data.draws, parts = percents.map(percent => percent / 100);
  drawParts("draw-bars", 1.05 * d3.max(plansDrawn, plan => d3.max(plan.shares)), null, "draws in a bar, by delay in vehicle-hours", barsLine);
  const { svg, x, y } = drawParts("draw-sum", 1.02, [0, ...parts], "draws with at most a delay in vehicle-hours", sumLine);
  plansDrawn.forEach((plan, i) => plan.at.forEach((delay, place) => svg.append("circle").attr("class", "percentile").attr("r", 3)
    .attr("cx", x(delay)).attr("cy", y(parts[place])).attr("fill", planInk(i))));
}
// The name of a plan, behind its line in the drawings where there are several.
function planHead(cell, plan, i) {
  if (plansDrawn.length > 1) {
    cell.append("svg").append("line").attr("x1", 1).attr("x2", 25).attr("y1", 7).attr("y2", 7).attr("stroke", planInk(i))
      .attr("stroke-width", 2).attr("stroke-dasharray", planDash(i));
  }
  cell.append("span").text(plan.name);
}
function fillDraws() {
  byId("draws").hidden = !data.draws;
  if (!data.draws) return;
  const { head, columns: heads, compared } = data.draws, table = d3.select("#draw-figures");
  byId("draws-head").textContent = head;
  table.append("thead").append("tr").selectAll("th").data(heads).join("th").text(text => text);
  plansDrawn.forEach((plan, i) => {
    const body = table.append("tbody");
    planHead(body.append("tr").attr("class", "plan").append("th").attr("colspan", heads.length), plan, i);
    body.selectAll("tr.row").data(plan.rows).join("tr").attr("class", "row").selectAll("td").data(row => row).join("td").text(text => text);
    body.selectAll("tr.line").data(plan.lines).join("tr").attr("class", "line").append("td").attr("colspan", heads.length).text(text => text);
  });
  d3.select("#draws-told").selectAll("p").data(compared).join("p").text(line => line);
}
