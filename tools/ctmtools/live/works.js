// Long work on the study: begun by a button, with a bar of how much is done and a way to stop it; a plan that it gives stands with the others.
const NAMES = ["assign", "draw", "optimise"];

export class Works {
  constructor(box, socket) {
    this.box = box;
    this.buttons = NAMES.map(name => this.button(name, { do: "begin", name }, socket));
    this.stop = this.button("Stop", { do: "stop" }, socket);
    this.bar = document.createElement("progress");
    this.told = document.createElement("span");
    this.lines = document.createElement("pre");
    this.told.setAttribute("role", "status");
    box.append(...this.buttons, this.stop, this.bar, this.told, this.lines);
    this.take({ running: false, told: "" });
  }
  button(text, order, socket) {
    const found = Object.assign(document.createElement("button"), { type: "button", textContent: text });
    found.dataset.work = text.toLowerCase();
    found.addEventListener("click", () => socket.send(order));
    return found;
  }
  take({ name, done, of, told, lines, running }) {
    for (const button of this.buttons) button.disabled = running;
    for (const part of [this.stop, this.bar]) part.hidden = !running;
    if (running) Object.assign(this.bar, { max: of, value: done });
    this.told.textContent = name ? ` ${name}: ${told}` : "";
    this.lines.textContent = (lines || []).join("\n");
    this.lines.hidden = !this.lines.textContent;
  }
}
