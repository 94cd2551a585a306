// Names on the map: closures, then roads and gates with the most delay first, each where it stands over no other and over few lines.
// Those that find no room are left out until one zooms in.
const LETTER = 11, GRAIN = 6;  // px: the height of a name, and how finely lines are heeded
const MOST_CROSSED = 4;  // grains of lines over which a name may stand
const SAME = 180;  // px between two names of one street
let namesDrawn = [];  // on the map, with their boxes

const upright = line => Math.abs(line[line.length - 1][1] - line[0][1]) > Math.abs(line[line.length - 1][0] - line[0][0]);
function middle(line) {
  if (line.length > 2) return line[Math.floor(line.length / 2)];
  return [(line[0][0] + line[1][0]) / 2, (line[0][1] + line[1][1]) / 2];
}
// The name of a gate or an exit, with the vehicles that wait in it.
function endText(cell, number) {
  const waiting = cell.kind === "gate" && state.against === null ? waits(shown(), number, state.frame) : 0;
  const name = data.titles[cell.name] ? `${cell.kind} ${called(cell.name)}` : cell.name;
  return waiting >= 0.5 ? `${name}: ${told(waiting, 0)} waiting` : name;
}
// What is named, with the point beside which its name stands.
function named(report) {
  const delays = new Map(roadsTable.rows.map(row => [row.name, row.of[state.report] ? row.of[state.report][DELAY] : 0]));
  const ends = report.cells.map((cell, i) => ({ cell, i })).filter(({ cell }) => cell.kind !== "road").map(({ cell, i }) => ({
    text: endText(cell, i), point: cell.line[cell.kind === "gate" ? 0 : cell.line.length - 1], upright: upright(cell.line),
    delay: delays.get(`gate ${cell.name}`) || 0 }));
  const roads = Object.entries(report.roads).map(([road, cells]) => {
    const { line } = report.cells[cells[Math.floor(cells.length / 2)]];
    return { text: streetOf(road), point: middle(line), upright: upright(line), delay: delays.get(road) || 0 };
  });
  return [...roads, ...ends].sort((a, b) => b.delay - a.delay);
}
// Where a name may stand about its point: above, below, right, left of it, beside an upright line right and left first.
function boxes({ point, upright: stands }, place, wide) {
  const [x, y] = place(point), away = 7;
  const over = [wide / 2, 0, wide].flatMap(left => [[x - left, y - away - LETTER], [x - left, y + away]]);
  const beside = [[x + away, y - LETTER / 2], [x - away - wide, y - LETTER / 2]];
  return (stands ? [...beside, ...over] : [...over, ...beside]).map(([left, top]) => [left, top, wide + 4]);
}
// The grains of the map over which lines lead.
function grains(place, width, height) {
  const found = new Set();
  for (const { line } of shown().cells)
    for (let part = 1; part < line.length; part++) {
      const [one, two] = [place(line[part - 1]), place(line[part])];
      const count = Math.min(2000, Math.ceil(Math.hypot(two[0] - one[0], two[1] - one[1]) / GRAIN) + 1);
      for (let i = 0; i <= count; i++) {
        const [x, y] = [0, 1].map(axis => one[axis] + (two[axis] - one[axis]) * i / count);
        if (x >= 0 && y >= 0 && x <= width && y <= height) found.add(grain(x, y));
      }
    }
  return found;
}
const grain = (x, y) => Math.floor(x / GRAIN) * 10000 + Math.floor(y / GRAIN);
function crossed([left, top, wide], lines) {
  let count = 0;
  for (let x = left; x <= left + wide; x += GRAIN)
    for (let y = top; y <= top + LETTER; y += GRAIN) count += lines.has(grain(x, y));
  return count;
}
const overlap = (one, two) => one[0] < two[0] + two[2] && two[0] < one[0] + one[2] && one[1] < two[1] + LETTER + 2 &&
  two[1] < one[1] + LETTER + 2;
// Those of some boxes that lie within a drawing and over none of the names that stand there.
const freeBoxes = (tried, drawn, [left, top, right, bottom]) => tried.filter(box => box[0] >= left && box[1] >= top &&
  box[0] + box[2] <= right + 4 && box[1] + LETTER <= bottom && !drawn.some(other => overlap(box, other.box)));
function penOfNames(pen) {
  pen.font = `${LETTER}px system-ui, sans-serif`;
  pen.textBaseline = "top";
  pen.lineJoin = "round";
  pen.setLineDash([]);
}
function writeName(pen, text, [left, top], colour) {
  pen.lineWidth = 3;
  pen.strokeStyle = paint("paper");
  pen.strokeText(text, left, top);
  pen.fillStyle = paint(colour);
  pen.fillText(text, left, top);
}
function drawNames(pen, place, width, height) {
  const lines = grains(place, width, height);
  namesDrawn = [];
  penOfNames(pen);
  for (const name of [...closureNames(), ...named(shown()), ...signalNames()]) {
    const [x, y] = place(name.point);
    if (namesDrawn.some(other => other.text === name.text && Math.hypot(other.at[0] - x, other.at[1] - y) < SAME)) continue;
    const free = freeBoxes(boxes(name, place, pen.measureText(name.text).width), namesDrawn, [0, 0, width, height]);
    const best = d3.scan(free, (a, b) => crossed(a, lines) - crossed(b, lines)), box = free[best];
    if (!box || crossed(box, lines) > MOST_CROSSED && !name.mark) continue;
    namesDrawn.push({ text: name.text, box, at: [x, y] });
    writeName(pen, name.text, box, name.mark ? "mark" : "ink");
  }
}
