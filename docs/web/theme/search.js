// A search over SECTIONS, of which each is [page, name, title, text]: those that have all words, the titles first.
const box = document.getElementById("search");
const found = document.getElementById("found");
const pages = document.querySelector(".pages");

// The list of pages stands open beside a wide page, and is opened by a click on a narrow one.
const wide = matchMedia("(min-width: 62rem)");
const show = () => { pages.open = wide.matches; };
wide.addEventListener("change", show);
show();

const lower = SECTIONS.map(([, , title, text]) => [title.toLowerCase(), text.toLowerCase()]);

function score(number, words) {
  const [title, text] = lower[number];
  if (!words.every((word) => title.includes(word) || text.includes(word))) return 0;
  return 1 + 10 * words.filter((word) => title.includes(word)).length;
}

function excerpt(text, word) {
  const at = Math.max(0, text.toLowerCase().indexOf(word) - 40);
  return `${at ? "… " : ""}${text.slice(at, at + 140)}${at + 140 < text.length ? " …" : ""}`;
}

function row([page, name, title, text], word) {
  const link = document.createElement("a");
  link.href = `${TOP}/${page}${name ? `#${name}` : ""}`;
  link.textContent = title;
  const place = document.createElement("small");
  place.textContent = `${page.replace(/\.html$/, "")}: ${excerpt(text, word)}`;
  const item = document.createElement("li");
  item.append(link, place);
  return item;
}

function search() {
  const words = box.value.toLowerCase().split(/\s+/).filter(Boolean);
  const rows = words.length ? SECTIONS.map((section, number) => [score(number, words), section]) : [];
  const best = rows.filter(([points]) => points).sort(([one], [other]) => other - one).slice(0, 30);
  found.replaceChildren(...best.map(([, section]) => row(section, words[0])));
  if (words.length && !best.length) found.textContent = "Nothing has all of these words.";
  found.hidden = !words.length;
}

box.addEventListener("input", search);
box.addEventListener("keydown", (event) => {
  if (event.key === "Enter") found.querySelector("a")?.click();
  if (event.key === "Escape") { box.value = ""; search(); }
});
found.addEventListener("click", () => { found.hidden = true; });
