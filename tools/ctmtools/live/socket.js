// The way to the server: messages as they come, orders as they go. Of what is dragged the newest alone waits to be sent.
const AGAIN = 2000;  // ms after which a lost server is looked for again

export class Socket {
  constructor(heed, lost) {
    Object.assign(this, { heed, lost, waiting: null, unanswered: false });
    this.connect();
  }
  connect() {
    this.socket = new WebSocket(`${location.href.replace(/^http/, "ws").replace(/[#?].*/, "")}socket`);
    this.socket.binaryType = "arraybuffer";
    this.socket.addEventListener("open", () => { this.unanswered = false; this.lost(false); });
    this.socket.addEventListener("message", event => this.came(typeof event.data === "string" ? JSON.parse(event.data) : unpacked(event.data)));
    this.socket.addEventListener("close", () => { this.lost(true); setTimeout(() => this.connect(), AGAIN); });
  }
  came(message) {
    if (message.kind === "study" || message.kind === "refused") {
      this.unanswered = false;
      this.sendWaiting();
    }
    this.heed(message);
  }
  send(order) {
    if (this.socket.readyState === WebSocket.OPEN) this.socket.send(JSON.stringify(order));
  }
  // Whether all that was dragged is answered.
  get settled() { return !this.waiting && !this.unanswered; }

  // An order that a newer one may overtake.
  drag(order) {
    this.waiting = order;
    if (!this.unanswered) this.sendWaiting();
  }
  sendWaiting() {
    if (!this.waiting) return;
    this.send(this.waiting);
    [this.waiting, this.unanswered] = [null, true];
  }
}
// A message with arrays: the length of its head, the head, and behind it the arrays, which it names by place and length.
function unpacked(buffer) {
  const length = new DataView(buffer).getUint32(0, true), behind = 4 + length;
  const head = JSON.parse(new TextDecoder().decode(new Uint8Array(buffer, 4, length)));
  const bytes = ([place, count]) => new Uint8Array(buffer.slice(behind + place, behind + place + count));
  for (const report of [...(head.reports || []), ...(head.report ? [head.report] : [])]) {
    for (const name of ["density", "flow"]) report[name].text = bytes(report[name].text);
    report.queued = bytes(report.queued);
  }
  return head;
}
