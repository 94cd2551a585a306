// The study as a form: a group for each table, a field with its unit for each key; each is typed by keyboard alone.
import { put, RowsField } from "./rows.js";

const LISTS = ["closures", "openings", "speed_limits", "signals", "links", "merges", "diverges", "on_ramps", "off_ramps", "meters", "junctions"];
const NAMED = ["roads", "gates", "exits"];
const hasRows = field => field.rows !== undefined && field.rows.every(row => row.length === 3);

export class Form {
  constructor(box, socket) {
    Object.assign(this, { box, socket, keys: "", fields: [], known: {}, rows: new Map() });
  }
  // Takes the fields of a study; one that is typed into keeps what stands there.
  take({ fields, known }) {
    Object.assign(this, { fields, known });
    const keys = JSON.stringify(fields.map(field => [field.key, hasRows(field)]));
    if (keys !== this.keys) this.build(keys);
    for (const field of fields) this.fill(field);
  }
  // Groups and fields that stay keep their elements, with what is typed, focused or dragged in them.
  build(keys) {
    this.keys = keys;
    const groups = d3.select(this.box).selectAll(":scope > fieldset").data(this.groups(), ({ table }) => table)
      .join(enter => enter.append(({ table }) => this.group(table)));
    groups.each(({ table, fields }, i, boxes) => this.fillGroup(boxes[i], table, fields));
  }
  groups() {
    const found = new Map();
    for (const field of this.fields) found.set(field.table, [...(found.get(field.table) || []), field]);
    return [...found].map(([table, fields]) => ({ table, fields }));
  }
  group(table) {
    const box = document.createElement("fieldset");
    box.dataset.table = table;
    box.append(Object.assign(document.createElement("legend"), { textContent: table || "study" }),
      Object.assign(document.createElement("div"), { className: "fields" }), document.createElement("p"));
    return box;
  }
  fillGroup(box, table, fields) {
    const [kind, part] = table.split("."), foot = box.querySelector("p");
    d3.select(box).select(".fields").selectAll(":scope > *").data(fields, field => `${field.key} ${hasRows(field)}`)
      .join(enter => enter.append(field => this.begun(field)), update => update,
        left => left.filter((_, i, rows) => !rows[i].contains(document.activeElement)).remove());
    const more = this.more(table, kind, fields), wanted = more ? [more] : [];
    if (part && (LISTS.includes(kind) || NAMED.includes(kind)) && table.split(".").length === 2) wanted.push(this.remover(table));
    foot.replaceChildren(...wanted);
  }
  begun(field) {
    if (!hasRows(field)) return this.field(field);
    this.rows.set(field.key, new RowsField(field, this.socket));
    return this.rows.get(field.key).element;
  }
  field({ key, name, unit }) {
    const label = Object.assign(document.createElement("label"), { className: "field" });
    const input = document.createElement("input");
    input.dataset.key = key;
    input.setAttribute("aria-label", unit ? `${key}, ${unit}` : key);
    input.addEventListener("change", () => this.socket.send({ do: "type", key, text: input.value }));
    input.addEventListener("keydown", event => this.step(event, input, key));
    label.append(Object.assign(document.createElement("span"), { textContent: name.replaceAll("_", " ") }), input,
      Object.assign(document.createElement("span"), { className: "unit", textContent: unit }));
    return label;
  }
  fill(field) {
    if (hasRows(field)) this.rows.get(field.key).take(field.rows);
    const input = this.input(field.key);
    if (!input) return;
    put(input, field.value);
    input.closest("label").querySelector(".unit").textContent = field.unit;
  }
  input(key) { return this.box.querySelector(`input[data-key="${CSS.escape(key)}"]`); }

  // Up and down change a number by one of its last digit.
  step(event, input, key) {
    if (!["ArrowUp", "ArrowDown"].includes(event.key) || !/^-?\d+(\.\d+)?$/.test(input.value)) return;
    event.preventDefault();
    const digits = (input.value.split(".")[1] || "").length, by = (event.key === "ArrowUp" ? 1 : -1) * 10 ** -digits;
    input.value = (+input.value + by).toFixed(digits);
    input.dataset.shown = input.value;
    this.socket.drag({ do: "change", patches: [[key, +input.value]], group: `step ${key}` });
  }
  // A list of the keys that the table may have and hasn't.
  more(table, kind, fields) {
    const names = (this.known[kind] || []).filter(name => !fields.some(field => field.name === name));
    if (!names.length || table.split(".").length > 2) return null;
    const list = document.createElement("select");
    list.setAttribute("aria-label", `Add to ${table || "the study"}`);
    list.append(new Option("add …", ""), ...names.map(name => new Option(name.replaceAll("_", " "), name)));
    list.addEventListener("change", () => this.begin(list, table));
    return list;
  }
  begin(list, table) {
    const key = table ? `${table}.${list.value}` : list.value, name = list.value;
    const row = d3.select(list.closest("fieldset")).select(".fields").append(() => this.field({ key, name, unit: "" })).datum({ key }).node();
    list.value = "";
    this.keys = "";  // the next study takes it in, or away
    row.querySelector("input").focus();
  }
  remover(table) {
    const button = Object.assign(document.createElement("button"), { type: "button", textContent: `Remove ${table}` });
    button.addEventListener("click", () => this.socket.send({ do: "change", patches: [[table, null]] }));
    return button;
  }
  // Marks the field that a fault speaks of, or the nearest above it.
  mark(fault) {
    this.box.querySelectorAll("[aria-invalid]").forEach(input => input.removeAttribute("aria-invalid"));
    this.box.querySelectorAll(".live-wrong").forEach(line => line.remove());
    if (!fault || !fault.key) return;
    const [place, input] = this.placeOf(fault.key);
    if (!place) return;
    if (input) input.setAttribute("aria-invalid", "true");
    place.append(Object.assign(document.createElement("span"), { className: "live-wrong", textContent: fault.line }));
  }
  placeOf(key) {
    const ofLane = key.startsWith("roads.") && !this.input(key) && this.input(`lane.${key.split(".").pop()}`);  // which holds for all roads
    if (ofLane) return [ofLane.closest("label"), ofLane];
    for (let names = key.split("."); names.length; names = names.slice(0, -1)) {
      const at = names.join("."), input = this.input(at);
      if (input) return [input.closest("label") || input.closest("fieldset"), input];
      const box = this.box.querySelector(`[data-rows="${CSS.escape(at)}"], fieldset[data-table="${CSS.escape(at)}"]`);
      if (box) return [box, null];
    }
    return [this.box.querySelector("fieldset"), null];
  }
}
