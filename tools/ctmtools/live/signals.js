// The signals of a study as a diagram: of each its cycle as a bar, and the green in it, which are moved and widened.
import { durationOf } from "./units.js";

const WIDTH = 300, ROW = 22, BAR = 12, EDGE = 6;  // of the diagram, in its own units
const ROOM = 1.2;  // of the longest cycle, so that it can be dragged longer

export class Signals {
  constructor(box, socket) { Object.assign(this, { box, socket, all: [], held: null, count: 0, step: 1, wide: 1 }); }

  take({ fields }) {
    const found = new Map();
    for (const { key, table, name, value } of fields) {
      if (key === "step") this.step = durationOf(value) || 1;
      if (!/^signals\.\d+$/.test(table)) continue;
      if (!found.has(table)) found.set(table, { key: table });
      found.get(table)[name] = value;
    }
    this.all = [...found.values()].map(signalOf).filter(signal => signal.cycle > 0 && signal.green > 0);
    if (this.held && !this.all.some(signal => signal.key === this.held.now.key)) this.held = null;
    this.draw();
  }
  draw() {
    this.box.hidden = !this.all.length;
    if (!this.all.length) return;
    const height = ROW * this.all.length, svg = d3.select(this.box).selectAll("svg").data([0]).join("svg");
    svg.attr("viewBox", `0 0 ${WIDTH} ${height}`).attr("preserveAspectRatio", "xMinYMin").style("height", `${height}px`)
      .on("pointermove", () => this.move(d3.event)).on("pointerup pointercancel", () => { this.held = null; });
    if (!this.held) this.wide = ROOM * d3.max(this.all, signal => signal.cycle);
    const rows = svg.selectAll("g").data(this.all.map(signal => this.held && this.held.now.key === signal.key ? this.held.now : signal), signal => signal.key)
      .join(enter => this.enter(enter));
    const x = d3.scaleLinear([0, this.wide], [0, WIDTH]);
    rows.each((signal, i, nodes) => place(d3.select(nodes[i]), signal, i, x));
  }
  enter(enter) {
    const group = enter.append("g").attr("data-key", signal => signal.key).attr("tabindex", 0).attr("role", "img"), owner = this;
    group.append("rect").attr("class", "cycle").attr("fill", "var(--line)");
    for (const part of ["first", "second"]) group.append("rect").attr("class", `green ${part}`);
    for (const part of ["rim", "edge"]) group.append("rect").attr("class", part);
    group.append("text").attr("x", 2);
    group.on("pointerdown", function (signal) { owner.hold(d3.event, this, signal); });
    group.on("keydown", signal => this.key(d3.event, signal));
    return group;
  }
  hold(event, element, signal) {
    event.preventDefault();
    element.focus();
    const part = event.target.getAttribute("class");
    this.held = { before: signal, now: signal, what: { edge: "green", rim: "cycle" }[part] || "begin", x: event.clientX, group: `signal ${this.count += 1}` };
    this.box.querySelector("svg").setPointerCapture(event.pointerId);
  }
  move(event) {
    if (!this.held) return;
    const { before, what, x, group } = this.held, pixels = WIDTH * this.box.querySelector("svg").getScreenCTM().a;
    this.held.now = changed(before, what, Math.round((event.clientX - x) / pixels * this.wide / this.step) * this.step, this.step);
    this.socket.drag({ do: "change", patches: [patchOf(this.held.now, what)], group });
    this.draw();
  }
  // Left and right move the green, with Shift they end it earlier or later; up and down change the cycle.
  key(event, signal) {
    const by = { ArrowLeft: -1, ArrowRight: 1, ArrowDown: -1, ArrowUp: 1 }[event.key] * this.step;
    if (Number.isNaN(by)) return;
    event.preventDefault();
    const what = /Up|Down/.test(event.key) ? "cycle" : event.shiftKey ? "green" : "begin", now = changed(signal, what, by, this.step);
    this.socket.send({ do: "change", patches: [patchOf(now, what)], group: `keys ${signal.key}` });
    this.all = this.all.map(one => one.key === signal.key ? now : one);  // before the answer, since the next key may come first
    this.draw();
  }
}
// Of several stop lines `first_green` is moved, which is the first one's; of one it is its offset.
function signalOf(entry) {
  const several = /^\[/.test(entry.at || ""), [first, offset] = [entry.first_green, several ? 0 : entry.offset].map(text => durationOf(text) || 0);
  return { ...entry, several, cycle: durationOf(entry.cycle), green: durationOf(entry.green), begin: first + offset, rest: several ? 0 : first };
}
function changed(signal, what, by, step) {
  if (what === "cycle") return { ...signal, cycle: Math.max(step, signal.green, signal.cycle + by) };
  if (what === "green") return { ...signal, green: Math.max(step, Math.min(signal.cycle, signal.green + by)) };
  return { ...signal, begin: modulo(signal.begin + by, signal.cycle) };
}
function patchOf(signal, what) {
  if (what !== "begin") return [`${signal.key}.${what}`, signal[what]];
  return [`${signal.key}.${signal.several ? "first_green" : "offset"}`, modulo(signal.begin - signal.rest, signal.cycle)];
}
const modulo = (value, by) => (value % by + by) % by;
function place(group, signal, row, x) {
  const begin = modulo(signal.begin, signal.cycle), end = begin + signal.green, top = row * ROW + ROW - BAR - 1;
  const put = (name, from, to) => group.select(name).attr("x", from).attr("y", top).attr("width", Math.max(0, to - from)).attr("height", BAR);
  put(".cycle", 0, x(signal.cycle));
  put(".first", x(begin), x(Math.min(end, signal.cycle)));
  put(".second", 0, x(Math.max(0, end - signal.cycle)));
  const edge = x(modulo(end, signal.cycle) || signal.cycle);
  put(".edge", edge - EDGE, edge + EDGE);
  put(".rim", x(signal.cycle), x(signal.cycle) + 2 * EDGE);
  const told = `${signal.key}, ${signal.road || ""}: green ${+signal.green.toFixed(2)} s from ${+begin.toFixed(2)} s of ${+signal.cycle.toFixed(2)} s`;
  group.attr("aria-label", told).select("text").attr("y", top - 1).text(told);
}
