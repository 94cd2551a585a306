// In print: A4, in the colours of paper; the first page has the drawings, the second the cell and the table, a third the draws.
const MILLIMETRE = 96 / 25.4, PAGE = (297 - 28) * MILLIMETRE - 8;  // px of a page within its margins
const MOST_SPACE = 480, LINE = 30;  // px
const MOST_WAYS_PRINTED = 6;  // so many ways at least have room

function height(element) { return element.getBoundingClientRect().height; }
const topOf = name => byId(name).getBoundingClientRect().top;
// By how much the second page is too long.
const tooLong = () => byId("notes").getBoundingClientRect().bottom - topOf("of-cell") - PAGE + LINE;
// Has the diagram fill the first page, and leaves out what finds no room on the second: the cells, the signal, and then rows of greens and of roads.
function fitPages() {
  const over = topOf("of-cell") - document.body.getBoundingClientRect().top - PAGE;
  byId("space").style.height = `${Math.max(90, Math.min(MOST_SPACE, height(byId("space")) - over))}px`;
  for (const id of ["differing", "of-signals"]) byId(id).classList.toggle("late", tooLong() > 0);
  leaveOut([...document.querySelectorAll("#pair-ways tbody tr")].slice(MOST_WAYS_PRINTED - 1), late => tellWays(`${late} more routes are left out here.`));
  leaveOut([...document.querySelectorAll("#greens tbody tr")], late => { byId("greens-more").textContent = `${late} more rows are left out here.`; });
  leaveOut([...document.querySelectorAll("#roads tbody tr")], late => { byId("more").textContent = `${late} more rows are left out here.`; });
}
// Leaves the last rows out, as many as the page is too long, and tells how many.
function leaveOut(rows, tell) {
  let late = 0;
  for (let over = tooLong(); over > 0 && late < rows.length - 1; over = tooLong()) {
    const wanted = Math.min(rows.length - 1, late + Math.ceil(over / height(rows[0])));
    for (; late < wanted; late++) rows[rows.length - 1 - late].classList.add("late");
    tell(late);
  }
}
let originShown;
const tellWays = text => { byId("ways-more").textContent = text; };
function toPaper() {
  state.printing = true;
  originShown = byId("origin").open;
  byId("origin").open = true;
  document.documentElement.classList.add("printing");
  byId("notes").after(byId("draws"));
  tellWays("");
  show();
  fitPages();
  drawSpace();
  mark();
}
function toScreen() {
  state.printing = false;
  byId("origin").open = originShown;
  document.documentElement.classList.remove("printing");
  byId("tabled").before(byId("draws"));
  byId("space").style.height = "";
  byId("more").textContent = byId("greens-more").textContent = "";
  if (data.ways) tellWays(waysText());
  document.querySelectorAll("#roads tr.late, #greens tr.late, #pair-ways tr.late, #differing, #of-signals").forEach(row => row.classList.remove("late"));
  show();
}
