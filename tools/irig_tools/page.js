// The page: the list, the place that is selected, the script, and what keys and buttons do.

const list = byId("list");
const shown = byId("shown");
const lines = byId("lines");
let selected = null;
let waves = null;

const view = new View(byId("strip"), 0, held.length, Math.min(held.length, 20 * held.interval), (now) => {
  paintStrip(now, selected);
  const words = `${seconds(Math.round(now.start))} to ${seconds(Math.round(now.end))}`;
  byId("range").textContent = words;
  const made = held.changes ? `, ${held.changes.count} stretches changed` : "";
  now.picture.setAttribute("aria-label", `${places.length} places of damage${made}; shown are ${words}`);
  paintOverview();
});

// The whole recording again below the strip, with a frame round what the strip shows.
const frame = draw("rect", {y: 0.5, height: 15, class: "shown-part"});
let overview = {width: 0};

function paintOverview() {
  const picture = byId("overview");
  if (overview.width !== view.width) {
    overview = {start: 0, end: held.length, width: view.width, x: View.prototype.x};
    picture.replaceChildren(bars(overview, 4, 8, 3), frame);
  }
  const left = overview.x(view.start);
  frame.setAttribute("x", left - 1);
  frame.setAttribute("width", overview.x(view.end) - left + 2);
  picture.classList.toggle("idle", view.end - view.start >= held.length);
}

view.click = (time, y) => {
  const change = held.changes && y >= UNDER ? changeAt(view, time) : null;
  if (change) { pick(change); return; }
  const far = (place) => Math.max(place.at - time, time - place.end, 0);
  const near = places.reduce((best, place) => best && far(best) <= far(place) ? best : place, null);
  if (near && far(near) * view.width < 12 * (view.end - view.start)) select(near);
};

places.forEach((place, index) => {
  const state = !isMended ? "" : isLeft(place) ? "left to you" : held.changes ? "repaired" : "repair";
  const item = make("li", {role: "option", id: `item-${index + 1}`, "aria-selected": "false", class: isLeft(place) ? "" : "done"},
    make("span", {class: "count"}, String(index + 1)), make("span", {class: "title"}, place.title),
    make("span", {class: "state" + (isLeft(place) ? " open" : "")}, state),
    make("span", {class: "where"}, seconds(place.at) + (place.frame ? ", " + place.frame : "")));
  item.addEventListener("click", () => select(place));
  item.addEventListener("dblclick", () => open(place));
  list.append(item);
});

function select(place) {
  if (!place || place === selected) return;
  if (selected) itemOf(selected).setAttribute("aria-selected", "false");
  selected = place;
  const item = itemOf(place);
  item.setAttribute("aria-selected", "true");
  list.setAttribute("aria-activedescendant", item.id);
  reveal(list, item);
  writeAddress(`#place-${places.indexOf(place) + 1}`);
  showPlace(place);
  showLines(place);
  const half = (view.end - view.start) / 2;
  if (place.end < view.start || place.at > view.end) view.show(place.at - half, place.at + half);
  view.ask();
}

// A page that has no address of its own cannot have a fragment either: then there is none.
function writeAddress(fragment) {
  try { history.replaceState(null, "", fragment); } catch (refused) { return; }
}

// Shows a stretch that was changed with its frame in the strip, and its place of damage.
function pick(change) {
  if (picked) byId(`change-${stretches.indexOf(picked) + 1}`).setAttribute("aria-selected", "false");
  picked = change;
  const item = byId(`change-${stretches.indexOf(change) + 1}`);
  item.setAttribute("aria-selected", "true");
  item.closest("details").open = true;
  byId("changes").setAttribute("aria-activedescendant", item.id);
  reveal(byId("changes"), item);
  select(placeOf(change));
  writeAddress(`#changed-${stretches.indexOf(change) + 1}`);
  const start = change.frame === null ? change.start : Math.min(change.frame, change.start);
  view.show(start - 2 * held.interval, Math.max(change.end, start + held.frame) + 2 * held.interval);
  view.ask();
}

const pickStep = (far) => {
  const index = stretches.indexOf(picked) + far;
  if (stretches.length) pick(stretches[Math.min(stretches.length - 1, Math.max(0, index))]);
};

// Scrolls a list so that an item of it is seen.
function reveal(list, item) {
  const above = item.getBoundingClientRect().top - list.getBoundingClientRect().top + list.scrollTop;
  const below = above + item.offsetHeight;
  if (above < list.scrollTop) list.scrollTop = above;
  if (below > list.scrollTop + list.clientHeight) list.scrollTop = below - list.clientHeight;
}

const itemOf = (place) => list.children[places.indexOf(place)];

function showPlace(place) {
  byId("place-title").textContent = `${places.indexOf(place) + 1}. ${place.title}`;
  showSteps();
  const {picture, facts} = shownPlace(place);
  picture.setAttribute("tabindex", "0");
  shown.replaceChildren(...facts, picture, make("div", {class: "scroll"}, table(place)));
  const [start, end] = place.window;
  const least = Math.min(end - start, held.interval / 5);
  waves = new View(picture, start, end, least, (now) => paintWave(now, place));
  waves.now();
}

// Which of the buttons lead to a place.
function showSteps() {
  const rows = listed();
  byId("previous").disabled = !rows.some((place) => place.at < selected.at);
  byId("next").disabled = !rows.some((place) => place.at > selected.at);
}

// The list with all places, or with those that are left.
function filter() {
  list.classList.toggle("open-only", byId("open-only").checked);
  if (selected) showSteps();
  view.ask();
}

// The script, with the lines of the place marked.
function showLines(place) {
  byId("copied").textContent = "";
  byId("copy-part").disabled = !place || !linesOf(place).length;
  if (!place || !place.part) {
    lines.replaceChildren(held.script.join("\n"));
    return;
  }
  const [start, end] = [place.part[0], place.part[0] + place.part[1]];
  const mark = make("mark", {}, linesOf(place).join("\n"));
  lines.replaceChildren(held.script.slice(0, start).join("\n"), mark, held.script.slice(end).join("\n"));
  lines.scrollTop = mark.offsetTop - lines.offsetTop - 40;
}

// Shows a place in the strip, and goes on reading at its heading.
function open(place) {
  select(place);
  locate();
  byId("place-title").focus();
}

function locate() {
  const wide = Math.max(held.frame, 4 * (selected.end - selected.at));
  const middle = (selected.at + selected.end) / 2;
  view.show(middle - 2 * wide, middle + 2 * wide);
}

const step = (far) => {
  const rows = listed();
  const before = rows.filter((place) => place.at <= selected.at).length - 1;
  const at = rows.indexOf(selected) < 0 && far < 0 ? before + 1 : before;
  select(rows[Math.min(rows.length - 1, Math.max(0, (rows.includes(selected) ? rows.indexOf(selected) : at) + far))]);
};

list.addEventListener("keydown", (event) => {
  const high = list.firstChild ? list.firstChild.offsetHeight : 40;
  const page = Math.max(1, Math.floor(list.clientHeight / high) - 1);
  const deeds = {
    ArrowDown: () => step(1), ArrowUp: () => step(-1), PageDown: () => step(page), PageUp: () => step(-page),
    Home: () => step(-places.length), End: () => step(places.length), Enter: () => open(selected),
  };
  if (!deeds[event.key] || !places.length) return;
  event.preventDefault();
  deeds[event.key]();
});
byId("strip").addEventListener("keydown", (event) => {
  if (!places.length || !["ArrowUp", "ArrowDown", "Enter"].includes(event.key)) return;
  event.preventDefault();
  if (event.key === "Enter") open(selected); else step(event.key === "ArrowUp" ? -1 : 1);
});
byId("place").addEventListener("keydown", (event) => { if (event.key === "Escape") list.focus(); });

// Copies by the clipboard; if the browser does not allow it, the words are selected for the user to copy.
async function copy(words, from, said = byId("copied")) {
  try {
    await navigator.clipboard.writeText(words);
    said.textContent = "Copied.";
  } catch (refused) {
    const range = document.createRange();
    range.selectNodeContents(from);
    getSelection().removeAllRanges();
    getSelection().addRange(range);
    const done = document.execCommand("copy");
    said.textContent = done ? "Copied." : "Selected: press Ctrl and C.";
  }
}

for (const [name, deed] of Object.entries({
  earlier: () => view.move(-0.25), later: () => view.move(0.25), whole: () => view.whole(),
  in: () => view.zoom(0.5), out: () => view.zoom(2), previous: () => step(-1), next: () => step(1), locate,
  "copy-all": () => copy(held.script.join("\n") + "\n", lines),
  "copy-part": () => copy(linesOf(selected).join("\n") + "\n", lines.querySelector("mark") || lines),
})) byId(name).addEventListener("click", deed);

function fromAddress() {
  const [, name, index] = /^#(place|changed)-([0-9]+)$/.exec(location.hash) || [];
  select(places[name === "place" ? index - 1 : 0] || places[0]);
  if (name === "changed" && stretches[index - 1]) pick(stretches[index - 1]);
}

// The list of what was changed, if a repair was made.
function showChanges() {
  const said = byId("copied-changes");
  listChanges(pick);
  byId("strip").classList.add("with-changes");
  byId("copy-changes").addEventListener("click", () => copy(held.changes.lines.join("\n") + "\n", byId("changes"), said));
  byId("copy-command").addEventListener("click", () => copy(held.changes.command + "\n", byId("command"), said));
  byId("changes").addEventListener("keydown", (event) => {
    const deeds = {ArrowDown: 1, ArrowUp: -1, Home: -stretches.length, End: stretches.length};
    if (!deeds[event.key]) return;
    event.preventDefault();
    pickStep(deeds[event.key]);
  });
}

byId("open-count").textContent = held.left;
byId("filter").hidden = !places.some(isLeft);
byId("open-only").addEventListener("change", filter);
byId("more").textContent = held.more ? `${held.more} more places are not on this page.` : "";
byId("script").hidden = !held.script.length;
byId("desk").classList.toggle("plain", !held.script.length);
showLines(null);
byId("place").classList.toggle("none", !places.length);
if (DAY) byId("strip").classList.add("with-day");
if (held.changes) showChanges();
addEventListener("hashchange", fromAddress);
addEventListener("beforeprint", fillPaper);
addEventListener("afterprint", () => byId("paper").replaceChildren());
fromAddress();
view.now();
