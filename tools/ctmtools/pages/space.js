// Density, flow or speed over time and place on a road, with queues outlined as in the pictures; it is zoomed and dragged.
let spaceZoom = d3.zoomIdentity;
const LIT_BAR = 5;  // px

// The kilometres at which the cells of the road begin, and the last one's end.
function boundaries() {
  const cells = cellsOfRoad().map(i => shown().cells[i]);
  return [...cells.map(cell => cell.from), cells[cells.length - 1].to];
}
function spaceScales(width, height) {
  const kms = boundaries(), y = d3.scaleLinear([kms[0], kms[kms.length - 1]], [height - edges.bottom, edges.top]);
  return { x: spaceZoom.rescaleX(timeScale(width)), y: spaceZoom.rescaleY(y), kms };
}
// What the rows of pixels from the top down show: a cell each, those of one cell together.
function bands(y, kms, height) {
  const cells = cellsOfRoad(), found = [];
  for (let top = edges.top; top < height - edges.bottom; top++) {
    const km = y.invert(top + 0.5), cell = cells[d3.bisectRight(kms, km) - 1];
    if (cell === undefined) continue;
    if (found.length && found[found.length - 1].cell === cell) found[found.length - 1].height++;
    else found.push({ cell, top, height: 1 });
  }
  return found;
}
// Pixel by pixel, in each column the mean over its time, so that a large report takes no longer than a small one.
function drawValues(pen, x, y, kms, width, height) {
  const shownBands = bands(y, kms, height), colour = colours();
  for (let left = edges.left; left < width - edges.right; left++) {
    const [begin, end] = [x.invert(left), x.invert(left + 1)];
    if (end <= begins || begin >= ends) continue;
    const first = frameAt(begin), last = Math.max(first + 1, frameAt(end));
    for (const band of shownBands) {
      pen.fillStyle = colour(value(state.quantity, band.cell, first, last));
      pen.fillRect(left, band.top, 1, band.height);
    }
  }
}
// The outline of the cells of a report that stand in a queue: a line where one does and its neighbour doesn't.
function outline(pen, report, cells, x, y, kms) {
  const queued = (row, frame) => cells[row] !== undefined && frame >= 0 && frame < frames && isQueued(report, cells[row], frame);
  pen.beginPath();
  for (let row = 0; row <= cells.length; row++)
    for (let frame = 0; frame <= frames; frame++) {
      const here = queued(row, frame);
      if (frame < frames && here !== queued(row - 1, frame)) line(pen, x(bounds[frame]), y(kms[row]), x(bounds[frame + 1]), y(kms[row]));
      if (row < cells.length && here !== queued(row, frame - 1)) line(pen, x(bounds[frame]), y(kms[row]), x(bounds[frame]), y(kms[row + 1]));
    }
  pen.stroke();
}
function line(pen, x1, y1, x2, y2) {
  pen.moveTo(x1, y1);
  pen.lineTo(x2, y2);
}
function drawOutlines(pen, x, y, kms, width, height) {
  const cells = cellsOfRoad();
  pen.save();
  pen.beginPath();
  pen.rect(edges.left, edges.top, width - edges.left - edges.right, height - edges.top - edges.bottom);
  pen.clip();
  pen.lineWidth = 1;
  pen.strokeStyle = paint("ink");
  if (state.against !== null) {
    pen.setLineDash([4, 2.5]);
    outline(pen, data.reports[state.against], cells.map(cell => twins()[cell]), x, y, kms);
    pen.setLineDash([]);
  }
  outline(pen, shown(), cells, x, y, kms);
  const within = [edges.left, edges.top, width - edges.right, height - edges.bottom];
  const names = [...drawSpans(pen, shown().closures, cells, x, y, kms), ...drawReds(pen, cells, x, y, kms, within),
    ...drawSpans(pen, shown().limits, cells, x, y, kms)];
  marksDrawn = [];
  penOfNames(pen);
  for (const { text, places, colour } of names) {
    const wide = pen.measureText(text).width, [box] = freeBoxes(places.map(([left, top]) => [Math.max(left, within[0] + 2), top, wide + 4]), marksDrawn, within);
    if (!box) continue;
    marksDrawn.push({ text, box });
    writeName(pen, text, box, colour);
  }
  pen.restore();
}
let marksDrawn = [];  // the texts in the diagram, with their boxes
// Where and when closures and speed limits hold on the road: outlined, with what is written beside them.
function drawSpans(pen, spans, cells, x, y, kms) {
  return spans.flatMap(span => {
    const own = new Set(span.cells), rows = d3.range(cells.length).filter(row => own.has(cells[row])), limit = span.speed !== undefined;
    return rows.filter(row => !own.has(cells[row - 1])).map(first => {
      let last = first;
      while (own.has(cells[last + 1])) last++;
      const [left, right, top, foot] = [x(span.begin), x(span.end), y(kms[last + 1]), y(kms[first])];
      pen.setLineDash(limit ? [1.5, 2.5] : [6, 2]);
      pen.lineWidth = limit ? 1 : 1.5;
      pen.strokeStyle = paint(limit ? "ink" : "red");
      pen.strokeRect(left, top, right - left, foot - top);
      const text = limit ? `${span.speed} ${data.units.speed}, ${clockText(span.begin)} to ${clockText(span.end)}` : closureText(span);
      return { text, colour: limit ? "ink" : "red", places: [[left + 4, top + 3], [left + 4, top - LETTER - 3], [left + 4, foot + 3]] };
    });
  });
}
// The reds of the signals of a road at their stop lines, where there is room for a cycle, else where they stand.
const LEAST_CYCLE = 4;  // px
function drawReds(pen, cells, x, y, kms, [left, top, right]) {
  const found = [];
  pen.setLineDash([]);
  for (const place of new Set(shown().signals.map(signal => signal.at))) {
    const row = cells.indexOf(place), signals = shown().signals.filter(signal => signal.at === place);
    if (row < 0) continue;
    const { cycle, zero } = signals[0], level = y(kms[row + 1]);
    const reds = Math.abs(x(begins + cycle) - x(begins)) < LEAST_CYCLE ? [[begins, ends]] : redsOf(signals, cycle, zero, x.invert(left), x.invert(right));
    pen.beginPath();
    for (const [begin, end] of reds) line(pen, x(begin), level, x(end), level);
    pen.lineWidth = 3;
    pen.strokeStyle = paint("red");
    pen.stroke();
    found.push({ text: signalText(signals[0]), colour: "ink", places: [[left + 4, level + 4], [left + 4, level - LETTER - 5], [right - 130, level + 4]] });
  }
  return found;
}
// The spans between two times in which none of some signals with one cycle is green.
function redsOf(signals, cycle, zero, low, high) {
  const greens = d3.merge(signals.map(signal => signal.greens)).sort((a, b) => a[0] - b[0]), found = [];
  for (let start = zero + Math.floor((Math.max(low, begins) - zero) / cycle) * cycle; start < Math.min(high, ends); start += cycle) {
    let from = 0;
    for (const [begin, end] of [...greens, [cycle, cycle]]) {
      if (begin > from) found.push([start + from, start + begin]);
      from = Math.max(from, end);
    }
  }
  return found.map(([begin, end]) => [Math.max(begin, begins), Math.min(end, ends)]).filter(([begin, end]) => end > begin);
}
// A bar beside the cells of the chosen way.
function drawLit(pen, y, kms) {
  const lit = litCells();
  pen.fillStyle = paint("other");
  cellsOfRoad().forEach((cell, row) => {
    const [top, foot] = [y(kms[row + 1]), y(kms[row])].map(at => Math.max(edges.top, Math.min(pen.canvas.clientHeight - edges.bottom, at)));
    if (lit.has(cell)) pen.fillRect(edges.left - LIT_BAR, top, LIT_BAR, foot - top);
  });
}
function drawSpace() {
  const { pen, width, height } = canvas("space"), { x, y, kms } = spaceScales(width, height);
  drawValues(pen, x, y, kms, width, height);
  drawOutlines(pen, x, y, kms, width, height);
  drawLit(pen, y, kms);
  const svg = cleared("space");
  svg.append("g").attr("transform", `translate(0,${height - edges.bottom})`).call(timeAxis(x, width / 80));
  svg.append("g").attr("transform", `translate(${edges.left},0)`).call(d3.axisLeft(y).ticks(6));
  svg.append("text").attr("x", 2).attr("y", 12).text(`${data.units.place}, direction of travel upward`);
  svg.append("line").attr("id", "now").attr("y1", edges.top).attr("y2", height - edges.bottom).attr("stroke", "var(--other)")
    .attr("stroke-width", 1.5);
}
// The cell and the frame at a point of the diagram; undefined outside of it.
function atSpace(left, top) {
  const box = byId("space"), { x, y, kms } = spaceScales(box.clientWidth, box.clientHeight);
  const cell = cellsOfRoad()[d3.bisectRight(kms, y.invert(top)) - 1], time = x.invert(left);
  const inside = left >= edges.left && left <= box.clientWidth - edges.right && time >= begins && time <= ends;
  return cell === undefined || !inside ? undefined : { cell, frame: frameAt(time) };
}
