"use strict";
// A run, moment by moment. The data are in the element `run`; docs/FORMATS.md says what they are.

const PARTS = ["stays", "objects", "rails", "texts", "exports", "lines"];
const NO_PLACE = Object.fromEntries(PARTS.map((part) => [part, []]));
// The state is kept for each so many moments; those between are made from it by their differences.
const STRIDE = 50;

const run = JSON.parse(document.getElementById("run").textContent);
// A moment's number is how many events of the run were made until then.
const FIRST = run.before;
const LAST = FIRST + run.moments.length - 1;

// ---- the listing ----

// The instructions of each function, a line for each. No text of the listing has a line feed in it.
const functions = run.listing.split("\nfunc ").slice(1).map((it) => it.split("\nend")[0].split("\n").slice(1));
const ENTRY = Number(run.listing.split("\nentry ")[1]);

/** How many loops are around an instruction. Their slots are the first ones, the outermost first. */
function loopsAround(number, pc) {
  const code = functions[number].slice(0, pc);
  const count = (name) => code.filter((line) => line.startsWith(name)).length;
  return count("LOOP ") - count("ENDL ");
}

// ---- states ----

/** The list that a difference makes of another one, which stays as it is. */
function changed(list, [length, ...elements]) {
  if (!elements.length && length === list.length) return list;
  return Object.assign(list.slice(0, length), Object.fromEntries(elements));
}

/** The state after a moment's event; what didn't change is shared with the state before. */
function after(state, moment) {
  const places = state.places.slice();
  for (const [place, parts] of moment.places) {
    const old = places[place] ?? NO_PLACE;
    places[place] = Object.fromEntries(PARTS.map((part) => [part, changed(old[part], parts[part])]));
  }
  const taken = frameOf(state, eventOf(moment).number);
  const flights = [...state.flights.filter((it) => it !== taken), ...moment.posts.map(readFrame)];
  const isMain = state.isMain && Boolean(places[0].stays[0]);
  return { places, flights, reports: reportsAfter(state.reports, taken), isMain };
}

/** What was reported to the homes, with a frame more: for each finish and each place that reports the greatest counts. */
function reportsAfter(reports, frame) {
  if (frame?.type !== "Report") return reports;
  const finish = finishKey(frame.finish);
  const known = reports[finish]?.[frame.from] ?? { sent: [], received: [] };
  const greatest = (side) => frame[side].map((count, n) => Math.max(count, known[side][n] ?? 0));
  const counts = { sent: greatest("sent"), received: greatest("received") };
  return { ...reports, [finish]: { ...reports[finish], [frame.from]: counts } };
}

/** The state of the first moment. Key 0 of place 0 is main where it has begun with the entry function. */
function firstState() {
  const flights = run.flights.slice(1).map(readFrame);
  const state = after({ places: [], flights, reports: {} }, run.moments[0]);
  const stay = state.places[0].stays[0];
  return { ...state, isMain: stay?.back === null && stay.frames.at(-1).function === ENTRY };
}

const kept = [firstState()];

// The finishes that were open at the first moment: what was reported on them until then isn't known.
const openBefore = new Set(kept[0].places.flatMap(({ stays }) => stays.flatMap((it) => it?.finishes ?? [])).map(finishKey));

// The state that was asked for last, from which one goes forward.
let latest = { at: 0, state: kept[0] };

/** The state at a moment. */
function stateAt(number) {
  const index = number - FIRST;
  const from = Math.min(Math.floor(index / STRIDE), kept.length - 1) * STRIDE;
  let { at, state } = latest.at <= index && latest.at >= from ? latest : { at: from, state: kept[from / STRIDE] };
  while (at < index) {
    state = after(state, run.moments[++at]);
    if (at % STRIDE === 0) kept[at / STRIDE] = state;
  }
  latest = { at, state };
  return state;
}

// ---- events and frames ----

/** What a moment's event is, and which frames it put out. */
function eventOf({ event, posts }) {
  const [letter, ...words] = event.split("\n")[0].split(" ");
  const [one, two, called, pc] = words.map(Number);
  const kind = { S: "step", D: "delivery", "-": "idle" }[letter] ?? "start";
  const isOfFrame = letter === "D" || two === undefined;
  const whose = isOfFrame ? { number: one, place: two } : { place: one, key: two, function: called, pc };
  return { kind, ...whose, posted: posts.map(([number]) => number) };
}

/** A frame in flight, read from its lines. */
function readFrame([number, to, text]) {
  const [first, ...lines] = text.trimEnd().split("\n");
  const [, type, from] = /^frame: (\w+), .*from place (\d+)/.exec(first);
  const words = (name) => lines.find((line) => line.startsWith(name + ": "))?.slice(name.length + 2);
  const numbers = (name) => (words(name)?.match(/\d+/g) ?? []).map(Number);
  const [finish, home] = numbers("finish");
  const read = { number, to, type, from: Number(from), lines, finish: { number: finish, home }, waiting: numbers("waiting") };
  return { ...read, function: words("function"), sent: numbers("sent"), received: numbers("received") };
}

/** The frame in flight with a number. */
function frameOf(state, number) {
  return state.flights.find((it) => it.number === number);
}

function finishKey(finish) {
  return `${finish.home}:${finish.number}`;
}
