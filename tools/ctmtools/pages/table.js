// The tables: roads, junctions and gates, sorted by the column whose head was clicked; reports; cells that differ.
const order = { column: null, rising: false };
const roadsTable = data.tables.roads, DELAY = 1, LENGTH = 0;
const count = data.reports.length;

const figure = (row, report, measure) => row.of[report] ? row.of[report][measure] : null;
// What the second report has more; what a report lacks has no delay.
const rise = row => (figure(row, 1, DELAY) || 0) - (figure(row, 0, DELAY) || 0);
const headOf = ({ name, unit }) => unit ? `${name}, ${unit}` : name;
const digitsOf = unit => unit === "km" ? 3 : 2;
// The columns: a figure of each report, grouped by figure; of more than two reports one figure alone.
function columns() {
  const measures = roadsTable.measures.map((measure, i) => ({ ...measure, i }));
  const same = [...roadsTable.rows, { of: roadsTable.total }].every(row => new Set(row.of.filter(Boolean).map(own => own[LENGTH])).size < 2);
  const shownMeasures = count > 2 ? measures.filter(({ i }) => i === state.measure || i === LENGTH && same) : measures;
  return shownMeasures.flatMap(measure => {
    const { i } = measure, digits = digitsOf(measure.unit), group = headOf(measure);
    if (count === 1) return [{ group, digits, of: row => figure(row, 0, i), total: 0, i }];
    if (i === LENGTH && same) return [{ group, digits, of: row => d3.max(row.of, own => own && own[LENGTH]), total: 0, i }];
    const each = data.names.map((head, report) => ({ group, head, digits, of: row => figure(row, report, i), total: report, i }));
    return count === 2 && i === DELAY ? [...each, { group, head: "rise", digits, of: rise, i }] : each;
  });
}
function sorted(rows, by) {
  const key = by ? by.of : row => rowName(row.name);
  const falls = (a, b) => d3.descending(key(a), key(b)), rises = (a, b) => d3.ascending(key(a), key(b));
  const lacks = row => key(row) === null || key(row) === undefined;
  return rows.slice().sort((a, b) => lacks(a) - lacks(b) || (order.rising ? rises(a, b) : falls(a, b)));
}
function headCell(row, text, place, span) {
  const cell = row.append("th").attr("colspan", span || null);
  if (place === undefined) return cell.text(text);
  cell.attr("aria-sort", place === order.column ? (order.rising ? "ascending" : "descending") : null)
    .append("button").attr("type", "button").text(text).on("click", () => {
      order.rising = place === order.column ? !order.rising : place === -1;
      order.column = place;
      drawTable();
    });
  return cell;
}
function drawHead(table, list) {
  const head = table.append("thead"), top = head.append("tr");
  if (count === 1) {
    headCell(top, "road", -1);
    return list.forEach((column, i) => headCell(top, column.group, i));
  }
  const second = head.append("tr");
  headCell(top, "");
  headCell(second, "road", -1);
  list.forEach((column, i) => {
    if (!i || column.group !== list[i - 1].group) headCell(top, column.group, undefined, list.filter(other => other.group === column.group).length);
    headCell(second, column.head || "", i);
  });
}
function drawTable() {
  const list = columns();
  if (order.column === null) order.column = list.findIndex(column => column.i === (count > 2 ? state.measure : DELAY));
  const rows = sorted(roadsTable.rows, list[order.column]);
  const table = d3.select("#roads");
  table.selectAll("*").remove();
  drawHead(table, list);
  const drawn = table.append("tbody").selectAll("tr").data(rows).join("tr").attr("data-road", row => shown().roads[row.name] ? row.name : null)
    .attr("class", row => row.name === state.road ? "chosen" : null).on("click", function () { chooseRoad(this.dataset.road); });
  drawn.selectAll("td").data(row => [rowName(row.name), ...list.map(column => told(column.of(row), column.digits))]).join("td").text(text => text);
  const all = table.append("tfoot").append("tr").attr("class", "all");
  all.append("td").text("in all");
  const total = { of: roadsTable.total };
  list.forEach(column => all.append("td").text(told(column.of(total), column.digits)));
  fitTable();
}
// Closer together where the columns don't find room side by side; on a narrow screen the table is moved instead.
const NARROW = 600;  // px
function fitTable() {
  const table = byId("roads"), room = table.parentElement.clientWidth;
  table.classList.remove("tight");
  table.classList.toggle("tight", room >= NARROW && table.scrollWidth > room);
}
// A plain table: heads, and rows of a name and numbers.
function drawPlain(id, { columns: heads, rows }) {
  const table = d3.select(`#${id}`);
  table.append("thead").append("tr").selectAll("th").data(heads).join("th").text(head => head);
  table.append("tbody").selectAll("tr").data(rows).join("tr").selectAll("td").data(row => row).join("td")
    .text((entry, i) => i && typeof entry !== "string" ? told(entry, 2) : entry);
}
// For each report a head and a plain table of what is lost at fixed greens.
function drawGreens() {
  const greens = data.tables.greens, boxes = d3.select("#greens").selectAll("div").data(greens).join("div");
  boxes.append("h2").text(green => green.head);
  boxes.append("div").attr("class", "scroll").append("table").attr("id", (_, i) => `greens-${i}`);
  greens.forEach((green, i) => drawPlain(`greens-${i}`, green));
}
// For each report the tables of its approaches and movements, which fold; the first one is open.
function drawApproaches() {
  const tables = data.tables.approaches, boxes = d3.select("#approaches").selectAll("details").data(tables).join("details");
  boxes.property("open", (_, i) => !i);
  boxes.append("summary").append("h2").text(table => table.head);
  boxes.append("div").attr("class", "scroll").append("table").attr("id", (_, i) => `approaches-${i}`);
  tables.forEach((table, i) => drawPlain(`approaches-${i}`, table));
  d3.selectAll("#approaches tbody tr").filter(row => data.reports.some(report => report.signals.some(signal => signal.approach === row[0])))
    .attr("data-signal", row => row[0]).on("click", function () { showSignal(this.dataset.signal); });
}
function drawTables() {
  drawTable();
  drawApproaches();
  drawGreens();
  const { reports, cells, told: lines } = data.tables;
  byId("compared").hidden = !reports;
  if (reports) drawPlain("reports", reports);
  d3.select("#told").selectAll("p").data(lines).join("p").text(line => line);
  byId("differing").hidden = !cells || !cells.rows.length;
  if (!cells) return;
  drawPlain("cells", cells);
  byId("cells-head").textContent = `The greatest changes of delay, ${cells.rows.length} of ${cells.count} cells that differ`;
}
