"use strict";
const byId = (id) => document.getElementById(id);
const each = (selector, change) => document.querySelectorAll(selector).forEach(change);
const page = { told: JSON.parse(byId("told").textContent), chosen: null };

function lines(kind, texts) {
  const list = document.createElement(kind);
  for (const text of texts) {
    const item = document.createElement(kind === "ul" ? "li" : "div");
    item.textContent = text;
    list.append(item);
  }
  return list;
}

function highlight(activity) {
  page.chosen = activity;
  each(".chosen", (one) => one.classList.remove("chosen"));
  each(`[data-a="${activity}"]`, (one) => one.classList.add("chosen"));
  each(".lag", (one) => one.classList.toggle("shown", one.dataset.ends.split(" ").includes(activity)));
}

function choose(activity) {
  highlight(activity);
  const told = page.told[activity], head = document.createElement("p");
  head.textContent = `${told.name}:` + (told.lags.length ? "" : " no lags of its own.");
  byId("lags").replaceChildren(head, lines("div", told.card), lines("ul", told.lags));
}

function pick(row) {
  each("[data-a][tabindex='0']", (one) => one.tabIndex = -1);
  each(`[data-a="${row.dataset.a}"]`, (one) => one.tabIndex = 0);
  choose(row.dataset.a);
  document.dispatchEvent(new CustomEvent("chosen", { detail: row.dataset.a }));
}

function reachable() {
  const chosen = page.chosen === null ? null : document.querySelector(`.line[data-a="${page.chosen}"]`);
  each("[data-a]", (one) => one.tabIndex = -1);
  for (const body of ["lines", "rows"]) {
    const row = byId(body).querySelector(chosen ? `[data-a="${page.chosen}"]` : "[data-a]");
    if (row) row.tabIndex = 0;
  }
}

function card(row, x, y) {
  const told = row && page.told[row.dataset.a], place = byId("card");
  place.hidden = !told;
  if (!told) return;
  place.replaceChildren(lines("div", [told.name, ...told.card]));
  place.style.left = `${Math.max(0, Math.min(x + 14, innerWidth - place.offsetWidth - 8))}px`;
  place.style.top = `${y + 18 + place.offsetHeight < innerHeight ? y + 18 : Math.max(0, y - place.offsetHeight - 12)}px`;
}

function seen(line, bar) {
  const chart = byId("chart"), place = chart.getBoundingClientRect();
  chart.scrollLeft += bar.getBoundingClientRect().left - place.left - line.cells[0].offsetWidth - 60;
  chart.scrollTop += line.getBoundingClientRect().top - place.top - place.height / 2;
}

document.addEventListener("click", (event) => {
  const row = event.target.closest("[data-a]");
  if (!row) return;
  pick(row);
  const line = document.querySelector(`.line[data-a="${row.dataset.a}"]`);
  const bar = line && line.querySelector(".bar, .critical, .unknown, .past, .left, .was");
  if (bar && row.classList.contains("activity")) seen(line, bar);
});
document.addEventListener("pointermove", (event) => {
  card(event.target.closest && event.target.closest(".line[data-a]"), event.clientX, event.clientY);
});
document.addEventListener("focusin", (event) => {
  const row = event.target.closest("[data-a]"), place = row && row.getBoundingClientRect();
  if (row) card(row, place.left + row.cells[0].offsetWidth + 10, place.top); else card(null);
});
document.addEventListener("keydown", (event) => {
  const row = event.target.closest("[data-a]"), step = { ArrowDown: 1, ArrowUp: -1 }[event.key];
  if (event.key === "Escape") card(null);
  if (!row) return;
  if (event.key === "Enter") pick(row);
  if (!step) return;
  event.preventDefault();
  const rows = [...row.parentElement.querySelectorAll("[data-a]")], next = rows[rows.indexOf(row) + step];
  if (!next) return;
  pick(next);
  next.focus();
});
function sortBy(head, way) {
  const body = byId("rows"), key = (row) => row.cells[head.cellIndex].dataset.key;
  each("#heads th", (other) => other.removeAttribute("aria-sort"));
  head.setAttribute("aria-sort", way === 1 ? "ascending" : "descending");
  const order = (one, other) => one - other || one.localeCompare(other, "en", { numeric: true });
  body.append(...[...body.rows].sort((a, b) => way * order(key(a), key(b))));
}

function sorted(event) {
  const head = event.target.closest("#heads th");
  if (head) sortBy(head, head.ariaSort === "ascending" ? -1 : 1);
}
byId("heads").addEventListener("click", sorted);
byId("heads").addEventListener("keydown", (event) => { if (event.key === "Enter") sorted(event); });
reachable();
