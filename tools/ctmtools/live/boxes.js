// Closures, openings and speed limits as boxes over time and place: drawn, moved and widened by pointer or by keys.
import { clockOf, kmOf, secondsOf } from "./units.js";

const KINDS = { closures: { name: "closure", value: "lanes", first: 1, unit: "lanes closed" },
  openings: { name: "opening", value: "lanes", first: 1, unit: "lanes opened" },
  speed_limits: { name: "speed limit", value: "speed", first: 60, unit: "km/h" } };
const SIDE = 5, LEAST = 4;  // px: how near to a side one takes hold of it, and the least of a box that is drawn
const MINUTE = 60;

export class Boxes {
  constructor(view, socket) {
    Object.assign(this, { view, socket, all: [], held: null, kind: null, count: 0, focused: null });
    view.whenSpaceIsDrawn(() => this.draw());
  }
  take({ fields, version }) {
    const found = new Map();
    for (const { table, name, value } of fields) {
      const [kind, number, more] = table.split(".");
      if (!KINDS[kind] || !number || more) continue;
      if (!found.has(table)) found.set(table, { key: table, kind });
      found.get(table)[name] = value;
    }
    this.version = version;
    this.all = [...found.values()];
    if (this.held && this.held.key && !found.has(this.held.key)) this.held = null;
    if (this.view.page) this.draw();
  }
  // The box in km and in seconds of the picture's clock; what it doesn't say is the road's or the study's.
  placed(box) {
    const { times } = this.view.page, { kms } = this.view.page.scales();
    const or = (value, other) => Number.isNaN(value) ? other : value;
    return { ...box, from: or(kmOf(box.from), kms[0]), to: or(kmOf(box.to), kms[kms.length - 1]),
      start: or(secondsOf(box.start, times.begins), times.begins), end: or(secondsOf(box.end, times.begins), times.ends) };
  }
  draw() {
    const { page } = this.view, space = document.getElementById("space");
    if (!page || !space || !page.times.known) return;
    this.toolbar(space);
    let svg = space.querySelector("#live-boxes");
    if (!svg) svg = this.begin(space);
    const { x, y } = page.scales(), [width, height] = [space.clientWidth, space.clientHeight], { edges } = page;
    d3.select(svg).select("clipPath rect").attr("x", edges.left).attr("y", edges.top).attr("width", Math.max(0, width - edges.left - edges.right))
      .attr("height", Math.max(0, height - edges.top - edges.bottom));
    const shown = this.all.filter(box => box.road === page.state.road).map(box => this.held && this.held.key === box.key ? this.held.now : this.placed(box));
    if (this.held && !this.held.key) shown.push(this.held.now);
    const groups = d3.select(svg).select("g.all").selectAll("g.box").data(shown, box => box.key || "new");
    groups.exit().remove();
    const all = groups.enter().append("g").call(added => this.enter(added)).merge(groups);
    all.each((box, i, nodes) => place(nodes[i], box, x, y));
    if (this.focused) {
      const wanted = svg.querySelector(`g.box[data-key="${this.focused}"]`);
      if (wanted) { wanted.focus(); this.focused = null; }
    }
  }
  begin(space) {
    const svg = d3.select(space).append("svg").attr("id", "live-boxes");
    svg.append("clipPath").attr("id", "live-clip").append("rect");
    svg.append("g").attr("class", "all").attr("clip-path", "url(#live-clip)");
    svg.node().addEventListener("pointerdown", event => { if (this.kind && event.target === svg.node()) this.drawNew(event, svg.node()); });
    for (const type of ["click", "pointermove"]) svg.node().addEventListener(type, event => { if (this.held || type === "click") event.stopPropagation(); });
    svg.node().addEventListener("pointermove", event => this.move(event));
    for (const type of ["pointerup", "pointercancel"]) svg.node().addEventListener(type, () => this.release());
    if (this.held) svg.node().setPointerCapture(this.held.pointer);  // the page was drawn anew as a whole while it is dragged
    return svg.node();
  }
  enter(added) {
    added.attr("class", box => `box ${box.kind}`).attr("data-key", box => box.key).attr("tabindex", 0).attr("role", "img");
    added.append("rect").attr("class", "body");
    for (const side of ["start", "end"]) added.append("rect").attr("class", "side time").attr("data-side", side);
    for (const side of ["from", "to"]) added.append("rect").attr("class", "side place").attr("data-side", side);
    added.append("text");
    const owner = this;
    added.on("pointerdown", function (box) { owner.hold(d3.event, this, box); });
    added.on("keydown", function (box) { owner.key(d3.event, box); });
  }
  at(event) {
    const space = document.getElementById("space").getBoundingClientRect(), { x, y, kms } = this.view.page.scales();
    return { time: x.invert(event.clientX - space.left), km: y.invert(event.clientY - space.top), kms };
  }
  hold(event, element, box) {
    event.preventDefault();
    element.focus();
    this.held = { key: box.key, side: event.target.dataset.side || "all", first: this.at(event), before: box, now: box, pointer: event.pointerId,
      group: `box ${this.count += 1} ${box.key}` };
    document.getElementById("live-boxes").setPointerCapture(event.pointerId);
  }
  drawNew(event, svg) {
    const { time, km, kms } = this.at(event), { begins } = this.view.page.times;
    const box = { kind: this.kind, road: this.view.page.state.road, [KINDS[this.kind].value]: KINDS[this.kind].first,
      from: nearest(km, kms), to: nearest(km, kms), start: snapped(time, begins), end: snapped(time, begins) };
    this.held = { key: undefined, side: "new", first: { time, km, x: event.clientX, y: event.clientY }, before: box, now: box, pointer: event.pointerId };
    svg.setPointerCapture(event.pointerId);
  }
  move(event) {
    if (!this.held) return;
    const { side, first, before, key, group } = this.held, { time, km, kms } = this.at(event);
    const { begins, ends } = this.view.page.times, by = Math.round((time - first.time) / MINUTE) * MINUTE;
    if (side === "new") this.held.now = between(before, first, { time, km }, kms, this.view.page.times);
    else if (side === "all") this.held.now = movedBy(before, by, nearest(before.from + km - first.km, kms) - before.from, kms, begins, ends);
    else this.held.now = widened(before, side, side === "start" || side === "end" ? snapped(time, begins) : nearest(km, kms), begins, ends);
    if (key) this.socket.drag({ do: "change", patches: patchesOf(key, this.held.now, before), group });
    this.draw();
  }
  release() {
    const { held } = this;
    if (!held) return;
    this.held = null;
    if (held.key) this.show(held.key, textsOf(held.now));
    else {
      this.add(held.now);
      this.draw();
    }
  }
  // Shows what is said to the server before it answers.
  show(key, values) {
    this.all = this.all.map(box => box.key === key ? { ...box, ...values } : box);
    this.draw();
  }
  add(box) {
    if (box.to <= box.from || box.end <= box.start) return;
    const { kind, road } = box, { value } = KINDS[kind], { from, to, start, end } = textsOf(box);
    this.socket.send({ do: "change", patches: [[`${kind}.+`, { road, from, to, start, end, [value]: box[value] }]] });
    this.focused = `${kind}.${this.all.filter(other => other.kind === kind).length + 1}`;
    this.choose(null);
  }
  // Arrows move a box, with Shift they widen it; plus and minus change its lanes or speed; Delete takes it away.
  key(event, box) {
    const { kms } = this.view.page.scales(), { begins, ends } = this.view.page.times;
    const time = { ArrowLeft: -MINUTE, ArrowRight: MINUTE }[event.key] || 0, cells = { ArrowDown: -1, ArrowUp: 1 }[event.key] || 0;
    const sign = { "+": 1, "-": -1 }[event.key];
    if (event.key === "Delete") this.socket.send({ do: "change", patches: [[box.key, null]] });
    else if (sign) this.changeValue(box, sign);
    else if (time || cells) {
      const step = index => kms[Math.max(0, Math.min(kms.length - 1, d3.bisectLeft(kms, index - 1e-6) + cells))];
      const wider = time ? widened(box, "end", box.end + time, begins, ends) : widened(box, "to", step(box.to), begins, ends);
      const now = event.shiftKey ? wider : movedBy(box, time, step(box.from) - box.from, kms, begins, ends);
      this.socket.send({ do: "change", patches: patchesOf(box.key, now, box), group: `keys ${box.key}` });
      this.show(box.key, textsOf(now));
    } else return;
    event.preventDefault();
    event.stopPropagation();
  }
  changeValue(box, sign) {
    const { value } = KINDS[box.kind], by = value === "speed" ? 10 : 1, now = Math.max(by, parseFloat(box[value]) + sign * by);
    this.socket.send({ do: "change", patches: [[`${box.key}.${value}`, now]], group: `keys ${box.key} ${value}` });
    this.show(box.key, { [value]: now });
  }
  toolbar(space) {
    if (document.getElementById("live-draws")) return;
    const bar = Object.assign(document.createElement("p"), { id: "live-draws" });
    bar.setAttribute("role", "toolbar");
    bar.append("Draw a ");
    for (const [kind, { name }] of Object.entries(KINDS)) {
      const button = Object.assign(document.createElement("button"), { type: "button", textContent: name });
      button.dataset.kind = kind;
      button.addEventListener("click", event => event.detail ? this.choose(this.kind === kind ? null : kind) : this.addInTheMiddle(kind));
      bar.append(button, " ");
    }
    space.before(bar);
    this.choose(this.kind);
  }
  choose(kind) {
    this.kind = kind;
    document.querySelectorAll("#live-draws button").forEach(button => button.setAttribute("aria-pressed", button.dataset.kind === kind));
    const svg = document.getElementById("live-boxes");
    if (svg) svg.classList.toggle("draws", kind !== null);
  }
  // By keyboard alone a box begins in the middle of the picture, and is moved and widened from there.
  addInTheMiddle(kind) {
    const { kms } = this.view.page.scales(), { begins, ends } = this.view.page.times, middle = Math.floor(kms.length / 2);
    const start = snapped((2 * begins + ends) / 3, begins), end = Math.min(ends, snapped((begins + 2 * ends) / 3, begins));
    this.add({ kind, road: this.view.page.state.road, from: kms[middle - 1], to: kms[middle], start, end, [KINDS[kind].value]: KINDS[kind].first });
  }
}
const nearest = (km, kms) => kms.reduce((best, one) => Math.abs(one - km) < Math.abs(best - km) ? one : best);
const snapped = (time, begins) => begins + Math.round((time - begins) / MINUTE) * MINUTE;
function between(box, one, two, kms, { begins, ends }) {
  const times = [one.time, two.time].map(time => Math.max(begins, Math.min(ends, snapped(time, begins)))).sort((a, b) => a - b);
  const places = [one.km, two.km].map(km => nearest(km, kms)).sort((a, b) => a - b);
  return { ...box, start: times[0], end: times[1], from: places[0], to: places[1] };
}
function movedBy(box, time, km, kms, begins, ends) {
  const by = Math.max(begins - box.start, Math.min(ends - box.end, time)), way = Math.max(kms[0] - box.from, Math.min(kms[kms.length - 1] - box.to, km));
  return { ...box, start: box.start + by, end: box.end + by, from: box.from + way, to: nearest(box.to + way, kms) };
}
function widened(box, side, value, begins, ends) {
  const now = { ...box, [side]: value };
  if (side === "start" || side === "end") now[side] = Math.max(begins, Math.min(ends, value));
  return now.start < now.end && now.from < now.to ? now : box;
}
const rounded = km => +km.toFixed(6);
const textsOf = box => ({ from: rounded(box.from), to: rounded(box.to), start: clockOf(box.start), end: clockOf(box.end) });
function patchesOf(key, now, before) {
  const [texts, old] = [textsOf(now), textsOf(before)];
  return Object.keys(texts).filter(name => texts[name] !== old[name] || name === "from" || name === "start").map(name => [`${key}.${name}`, texts[name]]);
}
function place(group, box, x, y) {
  const [left, right, top, foot] = [x(box.start), x(box.end), y(box.to), y(box.from)], { unit, value } = KINDS[box.kind];
  const put = (rect, ...[a, b, wide, high]) => rect.attr("x", a).attr("y", b).attr("width", Math.max(0, wide)).attr("height", Math.max(0, high));
  const drawn = d3.select(group), [wide, high] = [Math.max(LEAST, right - left), Math.max(LEAST, foot - top)];
  put(drawn.select(".body"), left, top, wide, high);
  put(drawn.select("[data-side=start]"), left - SIDE, top, 2 * SIDE, high);
  put(drawn.select("[data-side=end]"), right - SIDE, top, 2 * SIDE, high);
  put(drawn.select("[data-side=to]"), left + SIDE, top - SIDE, wide - 2 * SIDE, 2 * SIDE);
  put(drawn.select("[data-side=from]"), left + SIDE, foot - SIDE, wide - 2 * SIDE, 2 * SIDE);
  const told = box[value] === undefined ? "" : `${box[value]} ${unit}`;
  drawn.select("text").attr("x", left + 4).attr("y", top + 12).text(told);
  drawn.attr("aria-label", `${KINDS[box.kind].name}, ${told}, km ${rounded(box.from)} to ${rounded(box.to)}, ${clockOf(box.start)} to ${clockOf(box.end)}`);
}
