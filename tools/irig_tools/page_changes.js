// What a repair changed, as irig_diff prints it: marks below the strip, and the list of its lines.

const MARKS = 22;       // height of the marks below the strip

// The stretches of the lines, each with the last frame that a comment before it names, if it begins in this frame. A stretch in
// a frame with the same report has none.
function readChanges({lines, levels}) {
  const found = [];
  let [frame, about] = [null, ""];
  for (const line of lines) {
    const ends = /^invert ([0-9]+) ([0-9]+)$/.exec(line);
    if (!ends) {
      const begins = [...line.matchAll(/frame [0-9]+ at ([0-9]+): /g)].pop();
      [frame, about] = [begins ? Number(begins[1]) : null, line];
      continue;
    }
    const level = levels[found.length];
    const start = Number(ends[1]);
    const isInFrame = frame !== null && start < frame + 100 * held.interval;
    found.push({start, end: Number(ends[2]), level: level % 2, kept: Math.floor(level / 2), line,
      frame: isInFrame ? frame : null, about: isInFrame ? about : ""});
  }
  return found;
}

// The stretches without lines: one by one, or several together.
function readRest(words) {
  const found = [];
  let last = 0;
  for (const [, gap, sign, length, highs, lows] of words.matchAll(/([0-9a-z]+)([-+*])([0-9a-z]+)(?:\.([0-9a-z]+)\.([0-9a-z]+))?/g)) {
    const start = last + number(gap);
    last = start + number(length);
    const counts = sign === "*" ? [number(highs), number(lows)] : sign === "+" ? [1, 0] : [0, 1];
    counts.forEach((count, level) => { if (count) found.push({start, end: last, level, count}); });
  }
  return found;
}

const stretches = held.changes ? readChanges(held.changes) : [];
const drawn = held.changes ? [...stretches, ...readRest(held.changes.rest)] : [];
const rowHigh = held.changes ? MARKS : 0;
let picked = null;      // the stretch that is looked at

function wordsOf({start, end, level, kept}) {
  const edges = kept ? `; ${kept} ${kept === 1 ? "edge" : "edges"} in it ${kept === 1 ? "stays" : "stay"}` : "";
  return (level ? "high → low" : "low → high") + `, ${end - start} µs${edges}`;
}

// What a mark says to the mouse.
function titleOf(change) {
  if (!change.line) return `from ${change.start} to ${change.end}, not in the list`;
  return `${change.line}: ${wordsOf(change)}${change.about ? "\n" + change.about : ""}`;
}

const countOf = (of) => of.reduce((sum, change) => sum + (change.count || 1), 0);

// The stretches in sight of one kind of mark, those on the same pixels as one.
function marksOf(view, level) {
  const found = [];
  for (const change of drawn) {
    if (change.level !== level || change.end < view.start || change.start > view.end) continue;
    const left = Math.max(SIDE, Math.floor(view.x(change.start)));
    const right = Math.min(view.width - SIDE + 2, Math.max(left + 2, view.x(change.end)));
    const last = found[found.length - 1];
    if (last && left < last.right + 1) {
      last.right = Math.max(last.right, right);
      last.of.push(change);
    } else found.push({left, right, of: [change]});
  }
  return found;
}

// A mark for each stretch: up if it is high now, down if it is low now. All are drawn, also those that are not listed.
function changeMarks(view, top) {
  const made = draw("g", {class: "changes"});
  if (!held.changes) return made;
  const middle = top + MARKS / 2;
  for (const level of [0, 1]) {
    for (const {left, right, of} of marksOf(view, level)) {
      const count = countOf(of);
      const words = count === 1 ? titleOf(of[0]) : `${count} stretches, the first: ${titleOf(of[0])}`;
      made.append(draw("rect", {x: left, y: level ? middle : top + 2, width: right - left, height: MARKS / 2 - 2,
        class: level ? "now-low" : "now-high"}, draw("title", {}, words)));
    }
  }
  made.append(draw("path", {d: `M${SIDE} ${middle}H${view.width - SIDE}`}));
  if (picked && picked.end >= view.start && picked.start <= view.end) {
    made.append(draw("path", {d: `M${view.x((picked.start + picked.end) / 2).toFixed(1)} ${top - 4}v${MARKS + 8}`, class: "needle"}));
  }
  return made;
}

// The stretch whose mark is at a time, if one is.
function changeAt(view, time) {
  const far = (change) => Math.max(change.start - time, time - change.end, 0);
  const near = stretches.reduce((best, change) => best && far(best) <= far(change) ? best : change, null);
  return near && far(near) * view.width < 8 * (view.end - view.start) ? near : null;
}

// The place of damage that a stretch is in, or next to.
function placeOf(change) {
  const near = held.interval;
  return places.find((place) => place.at - near <= change.end && change.start <= place.end + near);
}

// The lines as irig_diff prints them, by the place they are in: neighbours of one place are a group.
function groupsOfLines() {
  const groups = [];
  let [waiting, index] = [[], 0];
  for (const line of held.changes.lines) {
    const change = stretches[index];
    const isStretch = change && line === change.line;
    waiting.push({line, change, number: isStretch ? index + 1 : 0});
    if (!isStretch) continue;
    const place = placeOf(change);
    if (!groups.length || groups[groups.length - 1].place !== place) groups.push({place, rows: [], of: []});
    const last = groups[groups.length - 1];
    last.rows.push(...waiting);
    last.of.push(change);
    [waiting, index] = [[], index + 1];
  }
  if (waiting.length && !groups.length) groups.push({rows: [], of: []});
  if (waiting.length) groups[groups.length - 1].rows.push(...waiting);
  return groups;
}

// What the head of a group says.
function headOf({place, of}) {
  const where = place ? `${places.indexOf(place) + 1}. ${place.title}` : "In no place of damage";
  const long = of.reduce((sum, {start, end}) => sum + end - start, 0);
  return `${where}: ${of.length} ${of.length === 1 ? "stretch" : "stretches"}, ${long} µs`;
}

// The lines, folded. A line of a frame leads to its first stretch.
function listChanges(pick) {
  for (const group of groupsOfLines()) {
    const lines = make("ol", {role: "group"});
    for (const {line, change, number} of group.rows) {
      const item = make("li", {}, make("code", {}, line));
      if (number) {
        for (const [key, value] of [["role", "option"], ["id", `change-${number}`], ["aria-selected", "false"]]) {
          item.setAttribute(key, value);
        }
        item.append(make("span", {class: "how"}, wordsOf(change)));
      } else {
        item.setAttribute("role", "presentation");
        item.className = "in-frame";
      }
      if (change) item.addEventListener("click", () => pick(change));
      lines.append(item);
    }
    byId("changes").append(make("details", {}, make("summary", {}, headOf(group)), lines));
  }
}

// On paper: what was counted, and the command that prints the lines.
function changesOnPaper() {
  const section = byId("changed");
  const facts = [...section.querySelectorAll("p:not(.hint), #command")].map((part) => part.cloneNode(true));
  facts.forEach((part) => part.removeAttribute("id"));
  return make("article", {class: "wide"}, make("h3", {}, "What was changed"), ...facts);
}
