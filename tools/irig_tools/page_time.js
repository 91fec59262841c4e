"use strict";
// What the page holds, read from its data, and how times are written. All times are in microseconds.

const held = JSON.parse(document.getElementById("data").textContent);
const NAMES = {Z: "zero", O: "one", P: "position", B: "bad"};
const SIGNS = {Z: "0", O: "1", P: "P", B: "?"};
const STATES = {S: "sound", D: "damaged", L: "lost"};

const byId = (id) => document.getElementById(id);
const number = (digits) => parseInt(digits, 36);

// An element of the page with attributes and children; words become text, never markup.
function make(name, attributes = {}, ...children) {
  const made = document.createElement(name);
  for (const [key, value] of Object.entries(attributes)) made.setAttribute(key, value);
  made.append(...children);
  return made;
}

// The same for an element of a picture.
function draw(name, attributes = {}, ...children) {
  const made = document.createElementNS("http://www.w3.org/2000/svg", name);
  for (const [key, value] of Object.entries(attributes)) made.setAttribute(key, value);
  made.append(...children);
  return made;
}

function readStrip(words) {
  const found = [];
  let start = 0;
  for (const [, state, length] of words.matchAll(/([SDL-])([0-9a-z]+)/g)) {
    const end = start + number(length);
    if (state !== "-") found.push({start, end, state: STATES[state]});
    start = end;
  }
  return found;
}

// The pulses of a waveform; one without a class is a stretch whose pulses are not on the page.
function readWave(words) {
  const found = [];
  let last = 0;
  let skipped = 0;
  for (const [, star, gap, kind, width] of words.matchAll(/\*([0-9a-z]+)|([0-9a-z]+)([ZOPB])([0-9a-z]+)/g)) {
    if (star) { skipped = number(star); continue; }
    const rise = last + number(gap);
    const fall = rise + number(width);
    if (skipped) found.push({rise: last + 1, fall: rise - 1, kind: "", count: skipped});
    skipped = 0;
    found.push({rise, fall, kind});
    last = fall;
  }
  return found;
}

const strip = readStrip(held.strip);
const places = held.places.map((place) => ({
  ...place,
  before: readWave(place.before),
  after: place.after === undefined ? null : readWave(place.after),
}));

// The places that the list shows: all, or those that are left to the user.
const isMended = held.script.length > 0 || Boolean(held.changes);
const isLeft = (place) => isMended && Boolean(place.left);
const listed = () => document.getElementById("open-only").checked ? places.filter(isLeft) : places;

// A time in seconds, to the last digit.
function seconds(time) {
  const whole = Math.floor(time / 1e6);
  return whole + "." + String(time - whole * 1e6).padStart(6, "0") + " s";
}

// A time for people who read clocks: hours, minutes and seconds from the start of the recording.
function clock(time) {
  const whole = Math.floor(time / 1e6);
  const two = (value) => String(value).padStart(2, "0");
  return Math.floor(whole / 3600) + ":" + two(Math.floor(whole / 60) % 60) + ":" + two(whole % 60);
}

// The microsecond of the day at a time, if the frames around it say it: between two known times it goes evenly.
function ofDay(time) {
  const known = held.clock.find((each) => each[0] <= time && time <= each[each.length - 2]);
  if (!known) return null;
  let [low, high] = [0, known.length / 2 - 1];
  while (high - low > 1) {
    const middle = (low + high) >> 1;
    if (known[2 * middle] <= time) low = middle; else high = middle;
  }
  const [begin, from, end, to] = known.slice(2 * low, 2 * low + 4);
  const day = 864e8;
  return (from + ((to - from + day) % day) * (time - begin) / (end - begin)) % day;
}

// The time of day for people, with that many digits after the second; nothing if it is not known.
function dayTime(time, digits = 0) {
  const found = ofDay(time);
  if (found === null) return "";
  const unit = 10 ** (6 - digits);
  const whole = Math.floor(found / unit + 1e-6) * unit;
  const rest = digits ? "." + String(Math.round(whole % 1e6 / unit)).padStart(digits, "0") : "";
  const two = (value) => String(Math.floor(value)).padStart(2, "0");
  return `${two(whole / 3600e6)}:${two(whole / 60e6 % 60)}:${two(whole / 1e6 % 60)}${rest}`;
}

// A length of time in the unit that fits it.
function span(time) {
  for (const [unit, name] of [[1e6, "s"], [1e3, "ms"]]) {
    if (time >= unit) return +(time / unit).toPrecision(6) + " " + name;
  }
  return Math.round(time) + " µs";
}

// The marks of an axis: 1, 2 or 5 and zeros apart, at most that many.
function marks(start, end, most) {
  let step = 1;
  while ((end - start) / step > most) step *= String(step)[0] === "2" ? 2.5 : 2;
  const [unit, name] = [[1e6, "seconds"], [1e3, "milliseconds"], [1, "microseconds"]]
    .find(([size]) => end - start >= 2 * size || size === 1);
  const digits = Math.max(0, Math.round(Math.log10(unit)) - Math.floor(Math.log10(step)));
  const times = [];
  for (let time = Math.ceil(start / step) * step; time <= end; time += step) times.push(time);
  const isWhole = times.every((time) => (ofDay(time) + 1) % 1e6 < 2);
  const fine = Math.min(6, Math.max(isWhole ? 0 : 1, 7 - Math.floor(Math.log10(step) + 1e-9)));
  return {times, name, write: (time) => (time / unit).toFixed(digits), ofDay: (time) => dayTime(time, fine)};
}
