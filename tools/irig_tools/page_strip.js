// Pictures that zoom: what they share, and the strip of the whole recording.

const SIDE = 10;        // pixels at the left and the right of a picture

// A stretch of time that is shown in a picture. It zooms by wheel, drag and keys.
class View {
  constructor(picture, start, end, least, paint) {
    Object.assign(this, {picture, start, end, first: start, last: end, least, paint, asked: false, width: 0});
    picture.addEventListener("wheel", (event) => this.wheel(event), {passive: false});
    picture.addEventListener("pointerdown", (event) => this.drag(event));
    picture.addEventListener("keydown", (event) => this.key(event));
    new ResizeObserver(() => { this.width = 0; this.ask(); }).observe(picture);
  }

  x(time) { return SIDE + (this.width - 2 * SIDE) * (time - this.start) / (this.end - this.start); }

  time(x) { return this.start + (this.end - this.start) * (x - SIDE) / Math.max(1, this.width - 2 * SIDE); }

  show(start, end) {
    const wide = Math.min(this.last - this.first, Math.max(this.least, end - start));
    const from = Math.min(this.last - wide, Math.max(this.first, (start + end - wide) / 2));
    [this.start, this.end] = [from, from + wide];
    this.ask();
  }

  zoom(factor, at = (this.start + this.end) / 2) {
    const wide = Math.min(this.last - this.first, Math.max(this.least, (this.end - this.start) * factor));
    const start = at - (at - this.start) * wide / (this.end - this.start);
    this.show(start, start + wide);
  }

  move(share) {
    const far = (this.end - this.start) * share;
    this.show(this.start + far, this.end + far);
  }

  whole() { this.show(this.first, this.last); }

  ask() {
    if (this.asked) return;
    this.asked = true;
    requestAnimationFrame(() => { this.asked = false; this.now(); });
  }

  now() {
    this.width = this.width || this.picture.clientWidth || 720;
    this.paint(this);
  }

  // A wheel that can zoom out no more scrolls the page.
  wheel(event) {
    if (event.deltaY > 0 && this.end - this.start >= this.last - this.first) return;
    event.preventDefault();
    const at = event.clientX - this.picture.getBoundingClientRect().left;
    if (Math.abs(event.deltaX) > Math.abs(event.deltaY)) this.move(event.deltaX / this.width);
    else this.zoom(Math.pow(1.0015, event.deltaY), this.time(at));
  }

  // A press that does not move is a click, at a time.
  drag(event) {
    if (event.button) return;
    const [from, start, end] = [event.clientX, this.start, this.end];
    let moved = false;
    const follow = (now) => {
      moved = moved || Math.abs(now.clientX - from) > 3;
      const far = (now.clientX - from) * (end - start) / Math.max(1, this.width - 2 * SIDE);
      if (moved) this.show(start - far, end - far);
    };
    const stop = (now) => {
      this.picture.removeEventListener("pointermove", follow);
      const box = this.picture.getBoundingClientRect();
      if (!moved && this.click) this.click(this.time(now.clientX - box.left), now.clientY - box.top);
    };
    this.picture.setPointerCapture(event.pointerId);
    this.picture.addEventListener("pointermove", follow);
    this.picture.addEventListener("pointerup", stop, {once: true});
  }

  key(event) {
    const deeds = {
      "+": () => this.zoom(0.5), "=": () => this.zoom(0.5), "-": () => this.zoom(2), "0": () => this.whole(),
      Home: () => this.whole(), ArrowLeft: () => this.move(-0.2), ArrowRight: () => this.move(0.2),
    };
    if (!deeds[event.key] || event.ctrlKey || event.metaKey || event.altKey) return;
    event.preventDefault();
    deeds[event.key]();
  }
}

const DAY = held.clock.length ? 14 : 0;         // pixels of the row with the time of day
const AXIS = 40 + DAY;                          // and of the whole axis of a waveform

// The marks of time below a picture, and a line up to the top at each.
function axis(view, top, bottom) {
  const wide = held.clock.length ? 115 : 80;
  const {times, name, write, ofDay} = marks(view.start, view.end, Math.max(2, Math.floor(view.width / wide)));
  const made = draw("g", {class: "axis"});
  for (const time of times) {
    const x = view.x(time);
    const side = x < 60 ? "start" : x > view.width - 60 ? "end" : "middle";
    made.append(draw("path", {d: `M${x.toFixed(1)} ${top}V${bottom + 4}`}),
      draw("text", {x: x.toFixed(1), y: bottom + 17, "text-anchor": side}, write(time)),
      draw("text", {x: x.toFixed(1), y: bottom + 17 + DAY, "text-anchor": side, class: "of-day"}, ofDay(time)));
  }
  const words = `time in ${name}` + (DAY ? ", and the time of day" : "");
  made.append(draw("text", {x: view.width / 2, y: bottom + 33 + DAY, class: "faint"}, words));
  return made;
}

const SHARES = 5;       // steps in which the share of a pixel is shown that is in its worst state

// The worst state on each pixel and how much of the pixel it takes, as runs of pixels that are alike.
function columns(view, from = SIDE, to = view.width - SIDE) {
  const ranks = ["", "sound", "damaged", "lost"];
  const worst = new Uint8Array(Math.max(1, to - from));
  const taken = new Float64Array(worst.length);
  const alone = new Map();
  for (const stretch of strip) {
    if (stretch.end <= view.start || stretch.start >= view.end) continue;
    const [left, right] = [view.x(stretch.start) - from, view.x(stretch.end) - from];
    const first = Math.min(worst.length - 1, Math.max(0, Math.floor(left)));
    const last = Math.min(worst.length, Math.max(first + 1, Math.floor(right)));
    const rank = ranks.indexOf(stretch.state);
    for (let x = first; x < last; x += 1) {
      const share = last - first > 1 ? 1 : Math.min(x + 1, right) - Math.max(x, left);
      taken[x] = rank < worst[x] ? taken[x] : share + (rank === worst[x] ? taken[x] : 0);
      worst[x] = Math.max(worst[x], rank);
    }
    alone.set(first, {wide: last - first, long: stretch.end - stretch.start});
  }
  const shareAt = (x) => worst[x] < 2 ? SHARES : Math.max(1, Math.min(SHARES, Math.round(taken[x] * SHARES)));
  const runs = [];
  for (let first = 0, x = 1; x <= worst.length; x += 1) {
    if (worst[x] === worst[first] && shareAt(x) === shareAt(first)) continue;
    const state = ranks[worst[first]];
    if (state) runs.push({x: from + first, wide: x - first, state, share: shareAt(first) / SHARES, of: alone.get(first)});
    first = x;
  }
  return runs;
}

// The bars of the strip: damaged frames rise above it, lost ones reach below it, so that no colour is needed. A bar is as high as its
// share of the pixel: if few of its frames are damaged, the rest of it is sound.
function bars(view, top, high, out) {
  const made = draw("g");
  for (const {x, wide, state, share, of} of columns(view)) {
    if (share < 1) made.append(draw("rect", {x, width: wide, y: top, height: high, class: "sound"}));
    const inside = high * share;
    const y = state === "damaged" ? top - out : top + high - inside;
    made.append(draw("rect", {x, width: wide, y, height: inside + (state === "sound" ? 0 : out), class: state}));
    if (!of || of.wide !== wide || wide < 120) continue;
    const words = state + ", " + span(of.long);
    made.append(draw("text", {x: x + wide / 2, y: top + high / 2 + 4, class: "on-" + state}, words));
  }
  return made;
}

const APART = 26;       // pixels: signs that are nearer are one, with the number of their places

// The places in sight, those whose signs would cover each other as one.
function crowds(view) {
  const found = [];
  for (const place of listed()) {
    const x = view.x(place.at);
    if (x < SIDE - 1 || x > view.width - SIDE + 1) continue;
    const last = found[found.length - 1];
    if (last && x - last.first < APART) {
      last.of.push(place);
      last.x = (last.first + x) / 2;
    } else found.push({first: x, x, of: [place]});
  }
  return found;
}

// A sign for each place above the strip; one for several says for how many.
function signs(view, selected, top) {
  const made = draw("g", {class: "signs"});
  const sign = (x, kind, words) => draw("path", {d: `M${x.toFixed(1)} ${top}l-4 -9h8z`, class: kind}, draw("title", {}, words));
  for (const {x, of} of crowds(view)) {
    const first = `${seconds(of[0].at)} ${dayTime(of[0].at, 3)}: ${of[0].title}`;
    made.append(sign(x, "", of.length === 1 ? first : `${of.length} places, the first at ${first}`));
    if (of.length > 1) made.append(draw("text", {x: x.toFixed(1), y: top - 11, class: "many"}, String(of.length)));
  }
  if (selected && selected.at >= view.start && selected.at <= view.end) {
    const x = view.x(selected.at);
    const words = String(places.indexOf(selected) + 1);
    made.append(sign(x, "chosen", selected.title), draw("path", {d: `M${x.toFixed(1)} ${top}v43`, class: "needle"}),
      draw("text", {x: Math.min(view.width - 20, Math.max(20, x)), y: top - 22}, words));
  }
  return made;
}

const BARS = 46;        // where the bars of the strip begin, and where those below them end
const UNDER = BARS + 34;

function paintStrip(view, selected) {
  view.picture.replaceChildren(axis(view, BARS, BARS + 32 + rowHigh), bars(view, BARS, 25, 6),
    changeMarks(view, UNDER), signs(view, selected, BARS - 8));
}
