// Steps of flow over time, whose heights are dragged. A drag keeps its elements, whatever comes from the server meanwhile.
const WIDTH = 300, HEIGHT = 96, EDGE = 6;  // of the picture, in its own units
const HEADROOM = 1.3, EMPTY = 100, FINE = 10;  // vehicles/h where no flow is yet, and to which a dragged one is rounded

export class Curve {
  constructor(key, socket, change) {
    Object.assign(this, { key, socket, change, rows: [], held: null, count: 0 });
    this.element = document.createElementNS("http://www.w3.org/2000/svg", "svg");
    this.element.setAttribute("viewBox", `0 0 ${WIDTH} ${HEIGHT}`);
    this.element.setAttribute("preserveAspectRatio", "none");
    this.element.dataset.key = key;
    const heed = { pointerdown: event => this.hold(event), pointermove: event => this.move(event), pointerup: () => this.release(),
      pointercancel: () => this.release() };
    for (const [type, then] of Object.entries(heed)) this.element.addEventListener(type, then);
  }
  // Takes the rows of the study, in which a drag changes one flow.
  take(rows) {
    this.rows = rows;
    if (this.held && this.held.row >= rows.length) this.held = null;
    this.draw();
  }
  hold(event) {
    const row = event.target.dataset.row;
    if (row === undefined) return;
    event.preventDefault();
    this.held = { row: +row, flow: this.rows[row][2], most: this.most, group: `curve ${this.key} ${this.count += 1}` };
    this.element.setPointerCapture(event.pointerId);
  }
  move(event) {
    if (!this.held) return;
    const box = this.element.getBoundingClientRect(), part = 1 - (event.clientY - box.top) / box.height;
    this.held.flow = String(Math.max(0, Math.round(part * this.most / FINE) * FINE));
    this.change(this.shown(), this.held.group);
    this.draw();
  }
  release() {
    this.held = null;
    if (this.socket.settled) this.draw();
  }
  shown() {
    const { held } = this;
    return held ? this.rows.map(([start, end, flow], row) => [start, end, row === held.row ? held.flow : flow]) : this.rows;
  }
  draw() {
    const spans = this.shown().map(([start, end, flow], row) => ({ row, start: seconds(start), end: seconds(end), flow: parseFloat(flow),
      text: `${start} ${end} ${flow}, ${this.key}` }));
    this.most = this.held ? this.held.most : HEADROOM * (d3.max(spans, span => span.flow) || EMPTY);
    const x = d3.scaleLinear([d3.min(spans, span => span.start), d3.max(spans, span => span.end)], [0, WIDTH]);
    const y = d3.scaleLinear([0, this.most], [HEIGHT, 0]);
    const steps = d3.select(this.element).selectAll("g").data(spans.filter(({ start, end }) => !Number.isNaN(x(start) + x(end))), span => span.row)
      .join(enter => begun(enter.append("g")));
    for (const part of ["body", "grip"])
      steps.select(`.${part}`).attr("x", span => x(span.start)).attr("width", span => Math.max(0, x(span.end) - x(span.start)));
    steps.select(".body").attr("y", span => y(span.flow)).attr("height", span => HEIGHT - y(span.flow));
    steps.select(".grip").attr("y", span => y(span.flow) - EDGE).select("title").text(span => span.text);
  }
}
// A step has a grip along its top.
function begun(steps) {
  steps.append("rect").attr("class", "body").attr("fill", "var(--other)").attr("fill-opacity", 0.4);
  steps.append("rect").attr("class", "grip").attr("data-row", span => span.row).attr("height", 2 * EDGE).append("title");
  return steps;
}
function seconds(text) {
  const parts = String(text).split(":").map(Number);
  return parts.length > 1 ? parts[0] * 3600 + parts[1] * 60 + (parts[2] || 0) : NaN;
}
