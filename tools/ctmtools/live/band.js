// The stop lines of a road over time and distance: their greens, and the band of those who drive through all of them at free flow.
import { durationOf, kmOf } from "./units.js";

const WIDTH = 300, HEIGHT = 170, LEFT = 34, BELOW = 18, BAR = 6, CYCLES = 2;  // of the diagram, in its own units
const HOUR = 3600;  // seconds

export class Band {
  constructor(box, socket) { Object.assign(this, { box, socket, roads: [], chosen: null, held: null, count: 0, step: 1 }); }

  take({ fields }) {
    this.step = durationOf((fields.find(field => field.key === "step") || {}).value) || 1;
    this.roads = roadsOf(fields);
    if (this.held && !this.roads.some(road => road.name === this.held.road)) this.held = null;
    this.draw();
  }
  // The road that is looked at: the one that was chosen, else the one with most stop lines.
  road() { return this.roads.find(road => road.name === this.chosen) || this.roads[0]; }

  draw() {
    this.box.hidden = !this.roads.length;
    if (!this.roads.length) return;
    const road = this.held ? this.held.now : this.road();
    const parts = d3.select(this.box).selectAll(".part").data(["select", "svg", "p"]).join(enter => enter.append(part =>
      part === "svg" ? document.createElementNS("http://www.w3.org/2000/svg", part) : document.createElement(part)).attr("class", "part"));
    const [select, svg, line] = parts.nodes().map(node => d3.select(node));
    select.attr("aria-label", "Road with a green band").property("hidden", this.roads.length < 2)
      .on("change", () => { this.chosen = select.property("value"); this.draw(); })
      .selectAll("option").data(this.roads, one => one.name).join("option").text(one => one.name).property("selected", one => one.name === road.name);
    svg.attr("viewBox", `0 0 ${WIDTH} ${HEIGHT}`).style("height", `${HEIGHT}px`)
      .on("pointermove", () => this.move(d3.event)).on("pointerup pointercancel", () => { this.held = null; });
    const bands = bandsOf(road), x = d3.scaleLinear([0, CYCLES * road.cycle], [LEFT, WIDTH]);
    const y = d3.scaleLinear(d3.extent(road.lines, one => one.at), [HEIGHT - BELOW - BAR, BAR]);
    svg.selectAll("g.axis").data([0]).join("g").attr("class", "axis").attr("transform", `translate(0,${HEIGHT - BELOW})`).call(d3.axisBottom(x).ticks(5).tickFormat(time => `${time} s`));
    drawBands(svg, road, bands, x, y);
    this.drawLines(svg, road, x, y);
    const wide = bands.length ? Math.max(...bands.map(([from, to]) => to - from)) : 0;
    line.attr("role", "status").text(`${road.name}: green band of ${round(wide)} s in a cycle of ${round(road.cycle)} s, at ${round(road.speed)} km/h`);
  }
  drawLines(svg, road, x, y) {
    const owner = this;
    const rows = svg.selectAll("g.line").data(road.lines, one => `${one.key} ${one.number}`).join(enter => {
      const group = enter.append("g").attr("class", "line").attr("tabindex", 0).attr("role", "img");
      group.append("line").attr("stroke", "var(--mark)");
      group.append("text").attr("x", 0);
      group.append("g").attr("class", "greens");
      return group;
    });
    rows.attr("data-line", one => `${one.key} ${one.number}`).attr("aria-label", one => `green at ${round(one.at)} km from ${round(one.begin)} s for ${round(one.green)} s`)
      .on("pointerdown", function (one) { owner.hold(d3.event, this, road, one); }).on("keydown", one => this.key(d3.event, road, one));
    rows.select("line").attr("x1", LEFT).attr("x2", WIDTH).attr("y1", one => y(one.at)).attr("y2", one => y(one.at));
    rows.select("text").attr("y", one => y(one.at) + 3).text(one => `${round(one.at)} km`);
    rows.select(".greens").selectAll("rect").data(one => d3.range(-1, CYCLES).map(k => [one, one.begin + k * road.cycle]).filter(([, begin]) => begin + one.green > 0))
      .join("rect").attr("class", "green").attr("y", ([one]) => y(one.at) - BAR / 2).attr("height", BAR)
      .attr("x", ([, begin]) => x(Math.max(0, begin))).attr("width", ([one, begin]) => x(Math.min(CYCLES * road.cycle, begin + one.green)) - x(Math.max(0, begin)));
  }
  hold(event, element, road, line) {
    event.preventDefault();
    element.focus();
    this.held = { road: road.name, before: road, now: road, line, x: event.clientX, group: `band ${this.count += 1}` };
    this.box.querySelector("svg").setPointerCapture(event.pointerId);
  }
  move(event) {
    if (!this.held) return;
    const { before, line, x, group } = this.held, pixels = (WIDTH - LEFT) * this.box.querySelector("svg").getScreenCTM().a;
    const by = (event.clientX - x) / pixels * CYCLES * before.cycle / Math.max(1, behind(line));
    const moved = movedLine(before, line, Math.round(by / this.step) * this.step);
    this.held.now = moved.road;
    this.socket.drag({ do: "change", patches: [moved.patch], group });
    this.draw();
  }
  key(event, road, line) {
    const by = { ArrowLeft: -1, ArrowRight: 1 }[event.key] * this.step;
    if (Number.isNaN(by)) return;
    event.preventDefault();
    const moved = movedLine(road, line, by);
    this.socket.send({ do: "change", patches: [moved.patch], group: `keys ${line.key}` });
    this.roads = this.roads.map(one => one.name === road.name ? moved.road : one);  // before the answer, since the next key may come first
    this.draw();
  }
}
// So many lines follow each other by one offset up to this one; none where it turns green at a moment of its own.
const behind = line => line.several && !line.greens ? line.number : 0;
// A road one of whose lines turns green so much later, and the patch that makes it so. Of lines that follow each other the first
// moves all, and each other one the offset between them.
function movedLine(road, line, by) {
  const { key, number, several, greens } = line, later = value => modulo(value + by, road.cycle);
  const name = greens ? "greens" : several && !behind(line) ? "first_green" : "offset";
  const value = greens ? greens.map((one, i) => i === number ? later(one) : one) : later(line[name]);
  const lines = road.lines.map(one => one.key === key ? lineOf({ ...one, [name]: value }) : one);
  return { road: { ...road, lines }, patch: [`${key}.${greens ? "offset" : name}`, value] };
}
// Roads with two stop lines or more whose signals have one cycle and run all the time, those with most lines first.
function roadsOf(fields) {
  const tables = new Map(), roads = new Map();
  for (const { key, table, name, value } of fields)
    if (/^signals\.\d+$/.test(table)) tables.set(table, { ...tables.get(table), key: table, [name]: value });
    else if (name === "free_flow_speed") roads.set(key, parseFloat(value));
  const all = [...tables.values()].filter(table => table.road && table.at && !table.start && !table.end && !table.actuated).flatMap(linesOf);
  const found = [...new Set(all.map(line => line.road))].map(name => {
    const lines = all.filter(line => line.road === name).sort((one, other) => one.at - other.at);
    return { name, lines, cycle: lines[0].cycle, speed: roads.get(`roads.${name}.free_flow_speed`) || roads.get("lane.free_flow_speed") };
  });
  return found.filter(({ lines, cycle, speed }) => lines.length > 1 && cycle > 0 && speed > 0 && lines.every(line => line.cycle === cycle))
    .sort((one, other) => other.lines.length - one.lines.length);
}
function linesOf(table) {
  const listed = text => /^\[/.test(text || "") ? text.slice(1, -1).split(",") : null, places = listed(table.at), greens = listed(table.offset);
  const [cycle, green, first_green, offset] = ["cycle", "green", "first_green", "offset"].map(name => durationOf(table[name]) || 0);
  return (places || [table.at]).map((place, number) => lineOf({ key: table.key, road: table.road, several: Boolean(places), number, at: kmOf(place), cycle, green,
    first_green, offset, greens: greens && greens.map(durationOf) })).filter(line => Number.isFinite(line.at) && line.green > 0 && Number.isFinite(line.begin));
}
// A line with when it turns green: at a moment of its own, or each an offset behind the one before it.
function lineOf(line) {
  const begin = line.greens ? line.greens[line.number] : line.first_green + line.offset * (line.several ? line.number : 1);
  return { ...line, begin: modulo(begin, line.cycle) };
}
// The spans of a cycle at the first line from which all later lines are green too when they are reached at free flow. Their ends
// may lie past the cycle.
export function bandsOf(road) {
  const { cycle, lines } = road, ways = lines.map(line => (line.at - lines[0].at) / road.speed * HOUR);
  let open = [[0, cycle]];
  lines.forEach((line, i) => {
    const begin = modulo(line.begin - ways[i], cycle);
    const greens = line.green >= cycle ? [[0, cycle]] : [[begin - cycle, begin + line.green - cycle], [begin, begin + line.green]];
    open = open.flatMap(([from, to]) => greens.map(([one, two]) => [Math.max(from, one), Math.min(to, two)]).filter(([one, two]) => two - one > 1e-9));
  });
  const last = open.find(([, to]) => Math.abs(to - cycle) < 1e-9), early = open.find(([from]) => from < 1e-9);
  return last && early && last !== early ? [...open.filter(one => one !== last && one !== early), [last[0], cycle + early[1]]] : open;
}
function drawBands(svg, road, bands, x, y) {
  const first = road.lines[0].at, last = road.lines[road.lines.length - 1].at, way = (last - first) / road.speed * HOUR;
  const shown = bands.flatMap(([from, to]) => d3.range(-2, CYCLES).map(k => [from + k * road.cycle, to + k * road.cycle]));
  const room = svg.selectAll("clipPath").data([0]).join(enter => { const clip = enter.append("clipPath").attr("id", "live-band-room"); clip.append("rect"); return clip; });
  room.select("rect").attr("x", LEFT).attr("width", WIDTH - LEFT).attr("height", HEIGHT);
  const at = (time, place) => `${x(time)},${y(place)}`;
  svg.selectAll("polygon.band").data(shown).join(enter => enter.insert("polygon", "g").attr("class", "band").attr("clip-path", "url(#live-band-room)"))
    .attr("points", ([from, to]) => `${at(from, first)} ${at(to, first)} ${at(to + way, last)} ${at(from + way, last)}`);
}
const modulo = (value, by) => (value % by + by) % by;
const round = value => `${+value.toFixed(2)}`;
