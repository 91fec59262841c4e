// What is shown of one place: on the screen, and on paper.

// The lines of the script for a place.
function linesOf(place) {
  return place.part ? held.script.slice(place.part[0], place.part[0] + place.part[1]) : place.lines || [];
}

function times(place) {
  const long = place.end > place.at ? ` to ${seconds(place.end)}, ${span(place.end - place.at)} long` : "";
  const day = dayTime(place.at, 6);
  return `${seconds(place.at)}${long}; ${day ? day + " of the day" : clock(place.at) + " after the start"}`;
}

// A place as elements, with an empty picture for its waveforms.
function shownPlace(place) {
  const picture = draw("svg", {class: "waves", role: "img", "aria-label": describe(place)});
  const facts = [make("p", {class: "times"}, times(place))];
  if (!place.reason.includes(place.frame)) facts.push(make("p", {}, "In " + place.frame));
  if (place.reason !== place.title) facts.push(make("p", {class: "reason"}, place.reason));
  const open = !held.changes ? "No repair is proposed: this place is left to you."
    : place.after ? "What was changed here does not repair it: this place is left to you."
      : "Nothing was changed here: this place is left to you.";
  if (isLeft(place)) facts.push(make("p", {class: "open"}, open));
  return {picture, facts};
}

// On paper: the whole recording, and all places in two columns.
function fillPaper() {
  const paper = byId("paper");
  const whole = draw("svg", {class: "strip"});
  const columns = make("div", {class: "columns"});
  paper.replaceChildren(whole);
  const view = {start: 0, end: held.length, width: 720, picture: whole, x: View.prototype.x};
  whole.setAttribute("viewBox", `0 0 720 ${116 + rowHigh + DAY}`);
  paintStrip(view, null);
  if (held.changes) paper.append(changesOnPaper());
  paper.append(columns);
  places.forEach((place, index) => {
    const {picture, facts} = shownPlace(place);
    const [start, end] = place.window;
    paintWave({start, end, width: 660, picture, x: View.prototype.x}, place);
    picture.setAttribute("viewBox", `0 0 660 ${picture.getAttribute("height") - AXIS}`);    // its times are in the text
    picture.removeAttribute("height");
    columns.append(make("article", {}, make("h3", {}, `${index + 1}. ${place.title}`), ...facts, picture));
  });
  if (held.more) paper.append(make("p", {}, `${held.more} more places are not on this page.`));
}
