// Rows of start, end and flow: a table into which columns are pasted, and a curve over time.
import { Curve } from "./curve.js";

const NAMES = ["start", "end", "flow"];
const numberOf = text => text.trim() !== "" && Number.isFinite(+text) ? +text : text;
const valued = rows => rows.length ? rows.map(row => row.map(entry => numberOf(String(entry)))) : 0;

export class RowsField {
  constructor({ key, name, unit }, socket) {
    Object.assign(this, { key, socket, element: document.createElement("div") });
    this.element.dataset.rows = key;
    this.curve = new Curve(key, socket, (rows, group) => socket.drag({ do: "change", patches: [[key, valued(rows)]], group }));
    const table = Object.assign(document.createElement("table"), { className: "rows" });
    this.body = table.createTBody();
    const add = Object.assign(document.createElement("button"), { type: "button", textContent: "Add a row" });
    add.addEventListener("click", () => {
      const rows = this.typed(), [, end, flow] = rows[rows.length - 1];
      this.change([...rows, [end, end, flow]]);
    });
    this.element.append(Object.assign(document.createElement("span"), { textContent: `${name}, ${unit}` }), this.curve.element, table, add);
  }
  take(rows) {
    while (this.body.rows.length > rows.length) this.body.deleteRow(-1);
    while (this.body.rows.length < rows.length) this.addRow(this.body.rows.length);
    rows.forEach((row, i) => this.inputs(this.body.rows[i]).forEach((input, j) => put(input, String(row[j]))));
    this.curve.take(rows);
  }
  addRow(i) {
    const line = this.body.insertRow();
    NAMES.forEach((name, j) => {
      const input = document.createElement("input");
      Object.assign(input.dataset, { key: `${this.key}.${i}.${j}`, shown: "" });
      input.setAttribute("aria-label", `${this.key}, row ${i + 1}, ${name}`);
      input.addEventListener("change", () => this.change(this.typed()));
      input.addEventListener("paste", event => this.paste(event, i, j));
      line.insertCell().append(input);
    });
    const away = Object.assign(document.createElement("button"), { type: "button", textContent: "\u2212" });
    away.setAttribute("aria-label", `Remove row ${i + 1} of ${this.key}`);
    away.addEventListener("click", () => this.change(this.typed().filter((_, at) => at !== i)));
    line.insertCell().append(away);
  }
  inputs(line) { return [...line.querySelectorAll("input")]; }
  typed() { return [...this.body.rows].map(line => this.inputs(line).map(input => input.value)); }

  change(rows) { this.socket.send({ do: "change", patches: [[this.key, valued(rows)]] }); }

  // Columns of a spreadsheet, from the cell on into which they are pasted; more rows than there are make new ones. They stand here at
  // once, so that what is dragged next is one of them.
  paste(event, i, j) {
    const lines = event.clipboardData.getData("text").split(/\r?\n/).filter(line => line.trim());
    const cells = lines.map(line => line.split(/\t|;/).map(entry => plainNumber(entry.trim())));
    if (cells.length < 2 && (cells[0] || []).length < 2) return;
    event.preventDefault();
    const rows = this.typed(), taken = cells.filter(row => row.some(entry => /\d/.test(entry)));  // heads are left out
    taken.forEach((row, down) => {
      const own = rows[i + down] || (rows[i + down] = [...rows[rows.length - 1]]);
      row.forEach((entry, right) => { if (j + right < NAMES.length) own[j + right] = entry; });
    });
    this.take(rows);
    this.change(rows);
  }
}
// Shows a value in a field, but where another one is typed into it.
export function put(input, value) {
  if (document.activeElement !== input || input.dataset.shown === input.value) input.value = value;
  input.dataset.shown = value;
}
// A number with a decimal comma, or with commas between thousands, as a number has it here.
function plainNumber(text) {
  if (/^\d{1,3}(,\d{3})+(\.\d+)?$/.test(text)) return text.replaceAll(",", "");
  return /^-?\d+,\d+$/.test(text) ? text.replace(",", ".") : text;
}
