// The speed limit of a cell at a time, NaN where there is none.
function limitAt(report, cell, time) {
  const found = report.limits.find(limit => limit.begin <= time && time < limit.end && limit.cells.includes(cell));
  return found ? found.speed : NaN;
}
// What the pointer is over: place, time, and the values there.
function tipRows(cell, frame) {
  const own = shown().cells[cell], compared = state.against !== null;
  const names = Object.keys(quantities).filter(name => own.kind === "road" || name === "density" || name === "flow");
  const columns = [...(compared ? [[state.against, twins()[cell]]] : []), [state.report, cell]];
  const rows = names.map(name => {
    const { digits, of } = quantities[name], what = whatOf(name, own);
    const values = columns.map(([report, place]) => place === undefined ? NaN : of(data.reports[report], place, frame, frame + 1));
    if (!compared) return [what, `${told(values[0], digits)} ${unitOf(name, own)}`];
    return [`${what}, ${unitOf(name, own)}`, ...[...values, values[1] - values[0]].map(one => told(one, digits))];
  });
  const limits = columns.map(([report, place]) => limitAt(data.reports[report], place, (bounds[frame] + bounds[frame + 1]) / 2));
  if (limits.some(limit => !Number.isNaN(limit))) {
    const [what, texts] = [compared ? `speed limit, ${data.units.speed}` : "speed limit", limits.map(limit => told(limit, 1))];
    rows.push(compared ? [what, ...texts, ""] : [what, `${texts[0]} ${data.units.speed}`]);
  }
  return compared ? [["", ...columns.map(([report]) => data.names[report]), "rise"], ...rows] : rows;
}
function showTip(event, cell, frame) {
  const tip = byId("tip"), own = shown().cells[cell];
  tip.replaceChildren(Object.assign(document.createElement("b"), { textContent: placeText(own) }), ` at ${data.times[frame]}`);
  const rows = d3.select(tip).append("table").selectAll("tr").data(tipRows(cell, frame)).join("tr")
    .attr("class", row => row[0] ? null : "heads");
  rows.selectAll("td").data(row => row).join("td").text(text => text);
  tip.hidden = false;
  const { width, height } = tip.getBoundingClientRect();
  tip.style.left = `${Math.max(4, Math.min(event.clientX + 14, innerWidth - width - 4))}px`;
  tip.style.top = `${event.clientY + 18 + height > innerHeight ? Math.max(4, event.clientY - height - 12) : event.clientY + 18}px`;
}
function hideTip() { byId("tip").hidden = true; }
const NEAR = 14;  // px

// The cell and the frame under the pointer in a drawing; undefined where there is none.
const under = {
  map(left, top) {
    const found = nearest(left, top);
    return found.away <= NEAR ? { cell: found.cell, frame: state.frame } : undefined;
  },
  space: atSpace,
  curves(left) {
    const time = timeScale(byId("curves").clientWidth - WIDE).invert(left);
    return time >= begins && time <= ends ? { cell: chosen(), frame: frameAt(time) } : undefined;
  },
};
function watch(name, clicked) {
  const box = byId(name);
  const found = event => {
    const { left, top } = box.getBoundingClientRect();
    return under[name](event.clientX - left, event.clientY - top);
  };
  box.addEventListener("pointermove", event => {
    const at = found(event);
    if (at) showTip(event, at.cell, at.frame);
    else hideTip();
  });
  box.addEventListener("pointerleave", hideTip);
  box.addEventListener("click", event => {
    const at = found(event);
    if (!at) return;
    clicked(at);
    showTip(event, at.cell, at.frame);  // also where a finger taps
  });
}
