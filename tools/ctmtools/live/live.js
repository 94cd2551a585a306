// The page that is live: what the server tells is shown, and what is changed here is told to the server. It has no state of its own
// but what is looked at.
import { Band } from "./band.js";
import { Boxes } from "./boxes.js";
import { Form } from "./form.js";
import { ReportView } from "./report_view.js";
import { Signals } from "./signals.js";
import { Socket } from "./socket.js";
import { Works } from "./works.js";

const part = name => document.getElementById(`live-${name}`);
const DIGITS = 2;
const told = value => value === null || value === undefined ? "–" : value.toLocaleString("en", { maximumFractionDigits: DIGITS });
let study = null, fault = null;

const socket = new Socket(message => heed[message.kind](message), lost => {
  part("answer").textContent = lost ? "The server has ended, or can't be reached; what is changed here now is lost." : "";
});
const view = new ReportView(part("report"), part("template"));
const form = new Form(part("form"), socket), boxes = new Boxes(view, socket), signals = new Signals(part("signals"), socket);
const band = new Band(part("band"), socket);
const works = new Works(part("works").querySelector("div"), socket);

const heed = {
  study(message) {
    study = message;
    document.title = `${message.saved ? "" : "• "}${message.name}`;
    form.take(message);
    form.mark(fault);
    boxes.take(message);
    signals.take(message);
    band.take(message);
    showStudy(message);
  },
  page(message) { view.take(message); boxes.draw(); document.body.dataset.drawn = message.version; },
  picture(message) { view.takePicture(message.report); document.body.dataset.drawn = message.version; },
  line: showDifference,
  plans: showPlans,
  fault(message) {
    fault = message.fault;
    form.mark(fault);
    showFault();
    showTold(message.told);
    if (fault) view.isOfBefore();
    if (fault) document.body.dataset.drawn = message.version;
  },
  refused(message) {
    part("answer").textContent = message.line;
    if (study) heed.study(study);
    form.mark({ key: message.key || message.of, line: message.line });
  },
  work(message) { works.take(message); },
  written(message) { part("answer").textContent = message.line; },
};
const DISK = { same: "", changed: "was changed on the disk meanwhile", gone: "is no longer on the disk" };
function showStudy({ name, saved, disk, undo, redo, text, unreadable }) {
  part("name").textContent = name;
  part("state").textContent = [saved ? "saved" : "not saved", DISK[disk]].filter(Boolean).join("; ");
  part("undo").disabled = !undo;
  part("redo").disabled = !redo;
  part("save").disabled = saved && disk === "same";
  for (const button of ["over", "anew"]) part(button).hidden = disk !== "changed";
  if (document.activeElement !== part("text") || part("text").value === part("text").dataset.shown) part("text").value = text;
  part("text").dataset.shown = text;
  if (unreadable) part("as-text").open = true;
}
function showFault() {
  part("fault").hidden = !fault;
  part("fault").textContent = fault ? `${fault.line}. What is shown is of before.` : "";
}
function showTold(lines) {
  const [box, head] = [part("warnings").querySelector("div"), part("warnings").querySelector("summary")];
  part("warnings").hidden = !lines.length;
  head.textContent = `${lines.length} ${lines.length === 1 ? "remark" : "remarks"} on the study`;
  box.replaceChildren(...lines.map(line => Object.assign(document.createElement("p"), { textContent: line })));
}
function showDifference({ against, rows }) {
  const texts = rows.map(([name, unit, base, own]) => against === null || base === null || own === null ? `${name} ${told(own)} ${unit}` :
    `${name} ${told(base)} → ${told(own)} ${unit} (${own >= base ? "+" : "−"}${told(Math.abs(own - base))}${base ? `, ${own >= base ? "+" : "−"}${told(100 * Math.abs(own / base - 1))} %` : ""})`);
  const head = against === null ? [] : [`Against “${against}”:`];
  part("difference").replaceChildren(...[...head, ...texts].map(text => Object.assign(document.createElement("span"), { textContent: text })));
}
function showPlans({ heads, rows }) {
  const table = d3.select(part("plan-table"));
  table.selectAll("*").remove();
  table.append("thead").append("tr").selectAll("th").data(["plan", ...heads, ""]).join("th").text(head => head);
  const lines = table.append("tbody").selectAll("tr").data(rows).join("tr");
  lines.append("td").text(row => row.name);
  lines.each((row, i, nodes) => d3.select(nodes[i]).selectAll("td.figure").data(row.values || [row.fault]).join("td").attr("class", "figure")
    .text(value => typeof value === "string" ? value : told(value)));
  const last = lines.filter((_, i) => i < rows.length - 1).append("td");
  for (const [what, text] of [["take", "Go on from it"], ["forget", "Forget"]])
    last.append("button").attr("type", "button").text(text).on("click", row => socket.send({ do: what, name: row.name }));
  part("against").replaceChildren(...rows.slice(0, -1).map(row => new Option(row.name, row.name)));
  if (study) part("against").value = study.against;
}
// New tables, with values that a study may have at once.
const first = kind => (study.fields.find(field => field.table.startsWith(`${kind}.`)) || { table: "." }).table.split(".")[1];
const free = (kind, letter) => d3.range(1, 1000).map(i => `${letter}${i}`).find(name => !study.fields.some(field => field.table === `${kind}.${name}`));
const PART = () => ({ road: first("roads"), from: 0 });
const NEW = {
  closure: () => ["closures.+", { ...PART(), lanes: 1 }], opening: () => ["openings.+", { ...PART(), lanes: 1 }],
  "speed limit": () => ["speed_limits.+", { ...PART(), speed: 60 }], signal: () => ["signals.+", { road: first("roads"), cycle: 60, green: 30 }],
  road: () => [`roads.${free("roads", "r")}`, { length: 1, lanes: 1 }],
  gate: () => [`gates.${free("gates", "g")}`, { into: free("roads", "r"), demand: 600 }],
  exit: () => [`exits.${free("exits", "x")}`, { from: free("roads", "r") }],
  link: () => ["links.+", { from: first("roads"), into: free("roads", "r") }],
  merge: () => ["merges.+", { from: [first("roads"), free("roads", "r")], into: free("roads", "r"), priorities: [1, 1] }],
  diverge: () => ["diverges.+", { from: first("roads"), into: [free("roads", "r"), free("roads", "r")], shares: [1, 1] }],
};
// A ramp is a road of its own with its gate or exit.
const RAMPS = {
  "on-ramp": () => { const name = free("roads", "ramp"); return [[`roads.${name}`, { length: 0.5, lanes: 1 }], [`gates.on-${name}`, { into: name, demand: 600 }],
    ["on_ramps.+", { road: first("roads"), ramp: name, at: 1, priorities: [4, 1] }]]; },
  "off-ramp": () => { const name = free("roads", "ramp"); return [[`roads.${name}`, { length: 0.5, lanes: 1 }], [`exits.off-${name}`, { from: name }],
    ["off_ramps.+", { road: first("roads"), ramp: name, at: 1, shares: [9, 1] }]]; },
};
part("kind").append(...[...Object.keys(NEW), ...Object.keys(RAMPS)].map(name => new Option(name, name)));
part("add").addEventListener("click", () => {
  const kind = part("kind").value;
  socket.send({ do: "change", patches: RAMPS[kind] ? RAMPS[kind]() : [NEW[kind]()] });
});
const orders = { undo: { do: "undo" }, redo: { do: "redo" }, save: { do: "save" }, over: { do: "save", over: true }, anew: { do: "anew" } };
for (const [name, order] of Object.entries(orders)) part(name).addEventListener("click", () => tellNow(order));
document.querySelectorAll("[data-write]").forEach(button => button.addEventListener("click", () => tellNow({ do: "write", what: button.dataset.write })));
part("keep").addEventListener("click", () => tellNow({ do: "keep", name: part("plan-name").value }));
part("against").addEventListener("change", () => tellNow({ do: "against", name: part("against").value }));
part("take-text").addEventListener("click", () => tellNow({ do: "text", text: part("text").value }));
// What is typed into a field and not yet told comes before the order.
function tellNow(order) {
  part("answer").textContent = "";
  socket.send(order);
}
addEventListener("keydown", event => {
  const key = event.key.toLowerCase();
  if (!(event.ctrlKey || event.metaKey) || !["s", "z", "y"].includes(key)) return;
  const field = event.target.closest && event.target.closest("input, textarea");
  const typing = field && field.dataset.shown !== undefined && field.value !== field.dataset.shown;
  if (key !== "s" && (typing || field && field.id === "live-text")) return;  // the field's own undoing
  event.preventDefault();
  if (typing && field.dataset.key) field.dispatchEvent(new Event("change"));
  tellNow(key === "s" ? orders.save : key === "y" || event.shiftKey ? orders.redo : orders.undo);
});
