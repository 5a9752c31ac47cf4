const watch = { version: 0, zoom: 1, told: "", chosen: "", seen: {}, asking: null };

function parsed(markup) {
  const made = document.createElement("template");
  made.innerHTML = markup;
  return made.content.firstElementChild;
}

function update(body, rows) {
  const old = new Map([...body.rows].map((row) => [row.dataset.key, row]));
  let place = body.firstElementChild;
  for (const [key, markup] of rows) {
    let row = old.get(key);
    old.delete(key);
    if (!row || row.markup !== markup) {
      const made = Object.assign(parsed(markup), { markup }), was = row;
      made.dataset.key = key;
      if (was) was.replaceWith(made);
      if (was && place === was) place = made;
      row = made;
    }
    if (row === place) place = place.nextElementSibling; else body.insertBefore(row, place);
  }
  for (const row of old.values()) row.remove();
}

function keyed(body, key) {
  return key ? [...byId(body).rows].find((row) => row.dataset.key === key) : null;
}

function rechoose() {
  const row = keyed("lines", watch.chosen);
  if (!row) return;
  const told = JSON.stringify(page.told[row.dataset.a]);
  if (told !== watch.told) choose(row.dataset.a); else highlight(row.dataset.a);
  watch.told = told;
}

function draw(state) {
  const focus = document.activeElement.closest("tbody [data-a]"), body = focus && focus.parentElement.id;
  const key = focus && focus.dataset.key, head = document.querySelector("#heads th[aria-sort]");
  const name = head && head.textContent, way = head && head.ariaSort === "ascending" ? 1 : -1;
  page.told = state.told;
  for (const [id, markup] of Object.entries(state.parts)) {
    if (watch.seen[id] !== markup) byId(id).innerHTML = watch.seen[id] = markup;
  }
  for (const [id, rows] of Object.entries(state.tables)) update(byId(id), rows);
  const column = [...byId("heads").children].find((one) => one.textContent === name);
  if (column) sortBy(column, way);
  byId("proof").classList.toggle("open", !state.shortest);
  rechoose();
  reachable();
  const again = focus && !focus.isConnected && keyed(body, key);
  if (again) again.focus({ preventScroll: true });
}

function listed(id, texts) {
  const text = JSON.stringify(texts);
  if (watch.seen[id] === text) return;
  watch.seen[id] = text;
  byId(id).replaceChildren(...texts.map((one) => Object.assign(document.createElement("p"), { textContent: one })));
}

function told(id, head, parts) {
  byId(id).hidden = !head;
  byId(id).firstElementChild.textContent = head;
  byId(id).lastElementChild.replaceChildren(...parts);
}

function moved(state) {
  const parts = [];
  for (const [kind, moves] of state.moved) {
    const head = Object.assign(document.createElement("h3"), { textContent: kind });
    parts.push(head, lines("ul", moves.map(([name, text]) => `${name}: ${text}`)));
  }
  told("moved", state.heads.join("; "), parts);
}

function show(state) {
  const begun = performance.now();
  watch.version = state.version;
  byId("line").textContent = state.open ? state.line : "plan watch has ended. The plan stays on this page.";
  byId("stop").disabled = !state.busy;
  listed("faults", state.faults);
  listed("why", state.why);
  told("notes", state.notes.length ? `Notes: ${state.notes.length}` : "", [lines("ul", state.notes)]);
  byId("plans").replaceChildren(...state.plans.map(([number, text]) => new Option(text, number, false, number === state.shown)));
  byId("chart").classList.toggle("stale", state.faults.length > 0);
  if (state.shown) {
    draw(state);
    moved(state);
  }
  requestAnimationFrame(() => Object.assign(document.body.dataset, {
    version: state.version, shown: state.shown, milliseconds: Math.round(performance.now() - begun),
  }));
  return state.open;
}

async function follow() {
  for (;;) {
    watch.asking = new AbortController();
    try {
      const answer = await fetch(`state?after=${watch.version}&zoom=${watch.zoom}`, { signal: watch.asking.signal });
      if (!answer.ok) throw new Error(await answer.text());
      if (answer.status === 200 && !show(await answer.json())) return;
    } catch (fault) {
      if (fault.name === "AbortError") continue;
      byId("line").textContent = `plan watch does not answer (${fault.message}). The plan stays on this page.`;
      await new Promise((then) => setTimeout(then, 1000));
    }
  }
}

function zoomed(zoom) {
  watch.zoom = Math.min(16, Math.max(0.25, zoom));
  watch.version = 0;
  watch.asking.abort();
}

async function order(name, number) {
  byId("said").textContent = "…";
  try {
    const answer = await fetch(name, { method: "POST", body: JSON.stringify(number) });
    byId("said").textContent = await answer.text();
  } catch { byId("said").textContent = "plan watch does not answer."; }
}

for (const name of ["keep", "stop"]) byId(name).addEventListener("click", () => order(name, 0));
byId("try").addEventListener("click", () => order("whatif", byId("change").value));
byId("change").addEventListener("keydown", (event) => { if (event.key === "Enter") byId("try").click(); });
byId("back").addEventListener("click", () => order("back", Number(byId("plans").value)));
byId("print").addEventListener("click", () => print());
byId("in").addEventListener("click", () => zoomed(watch.zoom * 2));
byId("out").addEventListener("click", () => zoomed(watch.zoom / 2));
document.addEventListener("chosen", (event) => {
  const row = document.querySelector(`.line[data-a="${event.detail}"]`);
  watch.chosen = row ? row.dataset.key : "";
  watch.told = JSON.stringify(page.told[event.detail]);
});
follow();
