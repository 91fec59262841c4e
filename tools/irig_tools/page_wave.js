// The waveforms of a place, before and after the repair, and the table of their pulses.

const HIGH = 30;        // height of a pulse in pixels
const ROW = 84;         // height of a waveform with its labels

const edges = (wave) => wave.filter((pulse) => pulse.kind).flatMap((pulse) => [pulse.rise, pulse.fall]);

// The line of a waveform whose low level is at the floor, with at most four edges on a pixel.
function outline(wave, view, floor) {
  let level = 0;
  const drawn = [];
  for (const time of edges(wave)) {
    if (time <= view.start) { level = 1 - level; continue; }
    if (time >= view.end) break;
    const x = view.x(time);
    if (drawn.length >= 4 && Math.floor(drawn[drawn.length - 4]) === Math.floor(x)) drawn.pop();
    else drawn.push(x);
  }
  let path = `M${SIDE} ${floor - HIGH * level}`;
  for (const x of drawn) {
    level = 1 - level;
    path += `H${x.toFixed(2)}V${floor - HIGH * level}`;
  }
  return draw("path", {d: path + `H${view.width - SIDE}`, class: "wave"});
}

// How many pixels an interval takes.
function roomOf(view) {
  return (view.width - 2 * SIDE) * held.interval / (view.end - view.start);
}

// The class of each pulse above it and its width below it, as far as there is room.
function labels(wave, view, floor) {
  const made = draw("g");
  const room = roomOf(view);
  let lastSign = -99;
  let lastWidth = -99;
  for (const {rise, fall, kind, count} of wave) {
    if (fall <= view.start || rise >= view.end) continue;
    const left = view.x(Math.max(rise, view.start));
    const right = view.x(Math.min(fall, view.end));
    const x = (left + right) / 2;
    if (!kind) {
      const box = {x: left, y: floor - HIGH, width: right - left, height: HIGH, class: "hidden-part"};
      made.append(draw("rect", box));
      const words = right - left > 150 ? count + " pulses not shown" : "";
      made.append(draw("text", {x, y: floor - HIGH / 2 + 4}, words));
      continue;
    }
    if (room >= 9 && x - lastSign >= 9) {
      const place = {x: x.toFixed(1), y: floor - HIGH - 5, class: kind === "B" ? "bad" : ""};
      made.append(draw("text", place, SIGNS[kind]));
      lastSign = x;
    }
    if (room >= 40 && x - lastWidth >= 40 && rise > view.start && fall < view.end) {
      made.append(draw("text", {x: x.toFixed(1), y: floor + 14, class: "faint"}, String(fall - rise)));
      lastWidth = x;
    }
  }
  return made;
}

// The stretches in which two waveforms differ.
function differences(before, after) {
  const sides = [edges(before), edges(after)];
  const times = [...new Set([...sides[0], ...sides[1]])].sort((a, b) => a - b);
  const found = [];
  const passed = [0, 0];
  times.forEach((time, index) => {
    for (const side of [0, 1]) if (sides[side][passed[side]] === time) passed[side] += 1;
    if ((passed[0] + passed[1]) % 2 && index + 1 < times.length) found.push([time, times[index + 1]]);
  });
  return found;
}

// What a reader has to look at: what a repair changes, or the damage if that is not known in full.
function tints(place, view, bottom) {
  const made = draw("g");
  const full = place.after && [...place.before, ...place.after].every((pulse) => pulse.kind);
  const found = full ? differences(place.before, place.after) : [[place.at, place.end]];
  for (const [start, end] of found) {
    if (end < view.start || start > view.end) continue;
    const left = view.x(Math.max(start, view.start));
    const wide = view.x(Math.min(end, view.end)) - left;
    const least = Math.max(3, wide);
    const x = left - (least - wide) / 2;
    made.append(draw("rect", {x, y: 6, width: least, height: bottom - 6, class: "tint"}));
  }
  return made;
}

// What the recording is, next to what was made of it, or could be.
const asItIs = held.changes ? "as it was" : "as it is";

// What the numbers below pulses are, or how to get to see the classes.
function hint(view) {
  if (roomOf(view) >= 40) return ", widths in µs";
  return roomOf(view) < 9 && view.least ? "; zoom in to see the classes" : "";
}

function paintWave(view, place) {
  const rows = [[asItIs + hint(view), place.before]];
  if (place.after) rows.push(["after the repair", place.after]);
  const bottom = 6 + ROW * rows.length;
  view.picture.setAttribute("height", bottom + AXIS);
  view.picture.replaceChildren(tints(place, view, bottom), axis(view, 6, bottom));
  rows.forEach(([name, wave], row) => {
    const floor = 6 + ROW * (row + 1) - 22;
    view.picture.append(outline(wave, view, floor), labels(wave, view, floor),
      draw("text", {x: SIDE, y: floor - HIGH - 20, class: "faint row"}, name));
  });
}

// Which classes a waveform has, for readers who cannot see it.
function classesOf(wave) {
  const words = wave.map((pulse) => pulse.kind ? SIGNS[pulse.kind] : `(${pulse.count} not shown)`);
  return words.join(" ") || "no pulse";
}

function describe(place) {
  const before = `Classes ${asItIs}: ` + classesOf(place.before);
  return place.after ? before + ". After the repair: " + classesOf(place.after) : before;
}

// The pulses before and after as one list, each with what becomes of it.
function changes(place) {
  const order = (one, two) => one.rise - two.rise || one.fall - two.fall;
  const after = place.after || place.before;
  const found = [];
  let [left, right] = [0, 0];
  while (left < place.before.length || right < after.length) {
    const [one, two] = [place.before[left], after[right]];
    const side = !two ? -1 : !one ? 1 : order(one, two);
    found.push(side < 0 ? ["−", "taken away", one] : side > 0 ? ["+", "new", two] : ["", "kept", one]);
    if (side <= 0) left += 1;
    if (side >= 0) right += 1;
  }
  return found;
}

function table(place) {
  const head = ["", "Rise, µs", "Fall, µs", "Width, µs", "Class"];
  const body = make("tbody");
  for (const [sign, deed, {rise, fall, kind, count}] of changes(place)) {
    const first = make("td", {title: deed}, sign || "\u00a0", make("span", {class: "unseen"}, deed));
    const rest = kind ? [rise, fall, fall - rise, NAMES[kind]] : ["", "", "", count + " pulses not shown"];
    body.append(make("tr", {class: sign === "+" ? "new" : sign ? "gone" : kind === "B" ? "bad" : ""},
      first, ...rest.map((words) => make("td", {}, String(words)))));
  }
  const cells = head.map((words) => make("th", {scope: "col"}, words));
  return make("table", {}, make("thead", {}, make("tr", {}, ...cells)), body);
}
