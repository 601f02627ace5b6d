// Shows a run: what is in the data gets into the page as text alone, never as markup.

// How much of a long list is shown, how many characters of a long value, and how many bytes of a rail.
const SHOWN = 20;
const WIDEST = 80;
const BYTES = 32;
const IS_CROWDED = run.places > 8;
// How many lines of the listing are shown on each side of an instruction.
const AROUND = IS_CROWDED ? 1 : 2;

// ---- elements of the page ----

/** An element with attributes, or of a class, and in it elements and texts. */
function element(tag, attributes, ...children) {
  const made = document.createElement(tag);
  const all = typeof attributes === "string" ? { class: attributes } : attributes;
  for (const [name, value] of Object.entries(all)) {
    if (value !== undefined && value !== false) made.setAttribute(name, value);
  }
  made.append(...children.flat().filter((it) => it !== undefined));
  return made;
}

function clipped(text) {
  return text.length > WIDEST ? `${text.slice(0, WIDEST)}\u2026 (${text.length} characters)` : text;
}

const isSame = (one, other) => one === other || JSON.stringify(one) === JSON.stringify(other);

/** The classes that have a true value. */
function classes(names) {
  return Object.keys(names).filter((name) => names[name]).join(" ") || undefined;
}

// What was unfolded, by name.
const unfolded = new Set();

/** A control that unfolds what has this name, and folds it again. */
function unfolding(name, more, fewer) {
  const text = unfolded.has(name) ? fewer : more;
  const button = element("button", { type: "button", class: "more", "data-unfolds": name }, text);
  button.addEventListener("click", () => {
    if (!unfolded.delete(name)) unfolded.add(name);
    show(shown.number, true);
    document.querySelector(`[data-unfolds="${name}"]`)?.focus();
  });
  return button;
}

/** The rows of a list, and a control for all: without them only the first ones, and those that changed. */
function rowsOf(name, what, list, before, row) {
  const all = unfolded.has(name);
  const rows = [];
  let others = 0;
  list.forEach((value, index) => {
    const isNew = index >= before.length || !isSame(value, before[index]);
    if (all || index < SHOWN || (isNew && others++ < SHOWN)) rows.push(row(value, index, before[index], isNew));
  });
  if (list.length > SHOWN) rows.push(element("li", {}, unfolding(name, `all ${list.length} ${what}`, `fewer ${what}`)));
  return rows;
}

// ---- an activity ----

/** Where a frame stands, and the lines around it; `done` is the instruction that this event made. */
function codeOf(name, frame, done) {
  const code = functions[frame.function];
  const [window, all] = [2 * AROUND + 1, unfolded.has(name)];
  const least = all ? 0 : Math.max(0, Math.min(frame.pc - AROUND, code.length - window));
  const rows = code.slice(least, all ? code.length : least + window).map((line, n) => {
    const pc = least + n;
    const marks = { "aria-current": pc === frame.pc && "step", class: classes({ new: pc === done }) };
    return element("li", marks, element("span", "number", `${pc}`), line);
  });
  const control = code.length > window ? [unfolding(name, `all ${code.length} lines`, "fewer lines")] : [];
  return element("div", {}, element("ol", "code", rows), control);
}

function registersOf(frame, old) {
  const before = new Map(old.registers.map(([register, ...rest]) => [register, `${rest}`]));
  const rows = frame.registers.map(([register, kind, value]) => {
    const marks = { "data-register": register, class: classes({ new: before.get(register) !== `${[kind, value]}` }) };
    const head = element("th", { scope: "row" }, `r${register}`);
    return element("tr", marks, head, element("td", "kind", kind), element("td", "value", clipped(value)));
  });
  const loops = frame.loops.slice(0, loopsAround(frame.function, frame.pc)).map((turns, slot) => {
    return element("p", classes({ loop: true, new: turns !== old.loops[slot] }), `loop ${slot}: turns left ${turns}`);
  });
  return element("div", {}, element("table", "registers", element("tbody", {}, rows)), loops);
}

/** The frames of the callers, the nearest first, if they are unfolded, and a control for them. */
function callersOf(name, frames) {
  const fold = `${name} callers`;
  const callers = (unfolded.has(fold) ? frames : []).slice(1).map((frame, n) => {
    const where = element("p", "told", `function ${frame.function}, at its call`);
    const code = codeOf(`${name} caller ${frames.length - n}`, frame);
    return element("div", {}, where, element("div", "frame", code, registersOf(frame, frame)));
  });
  const told = `called by function ${frames[1]?.function}; callers: ${frames.length - 1}`;
  return frames.length > 1 ? [...callers, unfolding(fold, told, "hide the callers")] : [];
}

function conditionOf(stay) {
  if (stay.away) return "away";
  if (stay.inside) return "inside";
  return stay.idle ? "waits" : "works";
}

/** An activity; `old` is what it was before the event, or undefined. */
function stayItem({ event, now, told, isHere }, place, key, stay, old) {
  const name = `${place} stay ${key}`;
  const top = stay.frames[0];
  const condition = conditionOf(stay);
  // what the event was, if it was one of this activity
  const did = isHere && event.key === key && event.kind;
  const hasMoved = did === "step" || (old?.away && !stay.away);
  const marks = { stay: true, began: !old, moved: hasMoved, tried: did === "idle" };
  // the frame that was there before, with as many callers
  const before = old?.frames.at(-stay.frames.length) ?? { registers: [], loops: top.loops };
  const hasStayed = did === "step" && old?.frames.length === stay.frames.length;
  const state = classes({ state: true, [condition]: true, newly: old && conditionOf(old) !== condition });
  const inWords = element("span", state, condition === "inside" ? "in atomic region" : condition);
  const where = `in function ${top.function}, under ${toldFinish(stay.under)}`;
  const lines = [...told[key], where].map((line) => element("li", {}, line));
  return element(
    "li",
    { class: classes(marks), "data-key": key },
    element("h3", {}, element("span", "name", nameOf(now, place, key)), inWords),
    element("ul", "told", lines),
    element("div", "frame", codeOf(name, top, hasStayed ? event.pc : undefined), registersOf(top, before)),
    callersOf(name, stay.frames),
  );
}

/** The activities of a place, and those that this event ended. */
function staysOf(view, place, stays, before) {
  const keys = [...stays.keys()].filter((key) => stays[key]);
  const [list, old] = [stays, before].map((from) => keys.map((key) => from[key] ?? undefined));
  const row = (stay, n, was) => stayItem(view, place, keys[n], stay, was);
  const ended = [...before.keys()].filter((key) => before[key] && !stays[key]).map((key) => {
    const name = element("span", "name gone", nameOf(view.before, place, key));
    return element("li", "stay moved", element("h3", {}, name, "has ended"));
  });
  return element("ul", "stays", rowsOf(`${place} stays`, "activities", list, old, row), ended);
}

// ---- the rest of a place ----

/** A cell of a row. */
function cell(text, isNew) {
  return element("span", classes({ value: true, new: isNew }), text);
}

// Of an element of each list what it is, and its cells.
const CELLS = {
  objects: ([number, fields], index, old) => {
    const cells = fields.map((value, field) => cell(`${field}: ${clipped(value)}`, old && old[1][field] !== value));
    return [`object ${index}, class ${number}`, ...cells];
  },
  rails: (bytes, index, old) => {
    const others = old ? [...bytes.keys()].filter((n) => bytes[n] !== old[n]) : [];
    const value = bytes.slice(0, BYTES).join(" ") + (bytes.length > BYTES ? " \u2026" : "");
    const marked = others.slice(0, 4).map((n) => cell(`byte ${n}: ${bytes[n]}`, true));
    return [`rail ${index}, length ${bytes.length}`, cell(value), ...marked];
  },
  texts: (text, index) => [`text ${index}`, cell(clipped(JSON.stringify(text)))],
  exports: ([number, object], index) => [`reference ${index}, class ${number}`, cell(`object ${object}`)],
  lines: (line) => [undefined, cell(clipped(line))],
  finishes: (it, index, old) => {
    const cells = [["live", `${it.live} alive here`], ...countsOf(it)];
    return [toldFinish(it), ...cells.map(([side, text]) => cell(text, !isSame(it[side], old?.[side])))];
  },
};

/** A part of a place that is a list, unless there is nothing in it. */
function partOf(place, name, title, list, before) {
  const rows = rowsOf(`${place} ${name}`, name, list, before, (value, index, old, isNew) => {
    const [what, ...cells] = CELLS[name](value, index, old);
    return element("li", { class: classes({ new: isNew }) }, what && element("span", "what", what), cells);
  });
  return rows.length ? [element("div", { "data-part": name }, element("h3", "part", title), element("ul", "list", rows))] : [];
}

/** The finishes that a place's stays name, with what it counts of each. */
function finishesOf(stays) {
  const all = stays.filter(Boolean).flatMap((stay) => [stay.under, ...stay.finishes]);
  const list = [...new Map(all.map((it) => [finishKey(it), it])).values()];
  return list.sort((one, other) => one.home - other.home || one.number - other.number);
}

/** The counts of each side that aren't 0, with their places. */
function countsOf(it) {
  const told = (side, word) => it[side].map((count, place) => count && `${count} ${word} ${place}`).filter(Boolean);
  const sides = [["sent", told("sent", "to")], ["received", told("received", "from")]];
  return sides.filter(([, counts]) => counts.length).map(([side, counts]) => [side, `${side} ${counts.join(", ")}`]);
}

const TITLES = { lines: "printed", objects: "objects", rails: "rails", texts: "texts", exports: "exported" };

/** What a place shows: its activities, finishes, lines and heap. */
function contentOf(view, place, now, before) {
  const [finishes, old] = [now, before].map((it) => finishesOf(it.stays));
  const was = finishes.map((it) => old.find((other) => finishKey(other) === finishKey(it)));
  const counted = partOf(place, "finishes", "finishes, counted here", finishes, was);
  const lists = Object.entries(TITLES).flatMap(([name, title]) =>
    partOf(place, name, `${title}: ${now[name].length}`, now[name], before[name]));
  return [staysOf(view, place, now.stays, before.stays), ...counted, ...lists];
}

/** The card of a place; one where nothing lives and nothing is new is small where there are many. */
function placeElement(view, place) {
  const now = view.now.places[place];
  const before = view.isHere ? view.before.places[place] : now;
  const count = now.stays.filter(Boolean).length;
  const isQuiet = !view.isHere && !count;
  const isSmall = isQuiet && IS_CROWDED && !unfolded.has(`${place}`);
  const title = [element("span", "which", `Place ${place}`)];
  if (!isSmall) title.push(element("small", {}, `${count || "none"} alive`));
  if (view.isHere) title.push(element("span", "tag", "\u25c0 event"));
  const hasMore = PARTS.some((part) => now[part].length);
  if (isQuiet && IS_CROWDED && hasMore) title.push(unfolding(`${place}`, "show", "hide"));
  const marks = { class: classes({ place: true, here: view.isHere, quiet: isQuiet, small: isSmall }), "data-place": place };
  return element("section", marks, element("h2", {}, title), isSmall ? [] : contentOf(view, place, now, before));
}

function flightItem(frame, index, old, isNew) {
  const heading = element("p", {}, `${frame.type} ${frame.number}: place ${frame.from} \u2192 ${frame.to}`);
  const told = frame.type === "Report" ? [frame.lines[0], ...countsOf(frame).map(([, text]) => text)] : frame.lines;
  const lines = few(told, SHOWN).map((line) => element("li", {}, clipped(line)));
  const marks = { class: classes({ [frame.type]: true, new: isNew }), "data-frame": frame.number };
  return element("li", marks, heading, element("ul", "lines", lines));
}

/** The frame that has just arrived, and those in flight. */
function flightsOf(before, now, event) {
  const taken = frameOf(before, event.number);
  const gone = taken ? [element("li", "gone", `${taken.type} ${taken.number} has arrived`)] : [];
  const old = now.flights.map((it) => (event.posted.includes(it.number) ? undefined : it));
  const rows = [...gone, ...rowsOf("flights", "frames", now.flights, old, flightItem)];
  return rows.length ? rows : [element("li", "none", "none")];
}

// ---- the page ----

const byId = (name) => document.getElementById(name);
// What is shown: the moment, and of each place the element and what it was made from.
const shown = { number: undefined, cards: [] };

/** Scrolls to what an event changed; and again in the next moments, since what comes into view may have another height. */
function follow(place, times) {
  const card = shown.cards[place].card;
  (card.querySelector(".moved, .began, .tried") ?? card).scrollIntoView({ block: "nearest" });
  if (times > 1) requestAnimationFrame(() => follow(place, times - 1));
}

/** Makes the card of a place again, where it isn't as it was. */
function showPlace(view, place, anew) {
  const now = view.now.places[place];
  const told = JSON.stringify(view.told);
  const old = shown.cards[place];
  if (!anew && !view.isHere && !old.isHere && old.now === now && old.told === told) return;
  const card = placeElement(view, place);
  old.card.replaceWith(card);
  shown.cards[place] = { now, told, isHere: view.isHere, card };
  const count = now.stays.filter(Boolean).length;
  const button = byId("map").children[place];
  button.className = classes({ alive: count, here: view.isHere }) ?? "";
  button.title = `place ${place}: ${count} alive`;
}

function showEvent(number, event, before, now) {
  const told = toldEvent(event, before);
  const notes = [...notesOf(event, before, now), ...(number === LAST ? [ENDS[run.end]] : [])];
  byId("position").textContent = `event ${number} of ${LAST}`;
  byId("event").textContent = told;
  byId("notes").replaceChildren(...notes.map((it) => element("li", {}, it)));
  byId("slider").value = number;
  byId("slider").setAttribute("aria-valuetext", `event ${number}: ${told}`);
  for (const name of ["first", "back"]) byId(name).disabled = number === FIRST;
  for (const name of ["forward", "last"]) byId(name).disabled = number === LAST;
}

/** Shows a moment; with `anew` all of it is made again. */
function show(number, anew) {
  const before = stateAt(Math.max(FIRST, number - 1));
  const now = stateAt(number);
  const event = eventOf(run.moments[number - FIRST]);
  const links = linksOf(now);
  shown.number = number;
  showEvent(number, event, before, now);
  now.places.forEach(({ stays }, place) => {
    const told = stays.map((stay, key) => stay && toldStay(now, links, place, key));
    showPlace({ event, before, now, told, isHere: event.place === place }, place, anew);
  });
  byId("flights").replaceChildren(...flightsOf(before, now, event));
  document.body.style.setProperty("--below", `${byId("head").offsetHeight + 12}px`);
  if (byId("follow").checked && event.place !== undefined) follow(event.place, 4);
  keepAddress();
}

/** Goes to a moment, or to the nearest one that there is. */
function goTo(number) {
  const nearest = Math.max(FIRST, Math.min(LAST, number));
  if (nearest !== shown.number) show(nearest);
}

let resting;

/** The address follows once the page is at rest, since browsers limit how often it may change. */
function keepAddress() {
  clearTimeout(resting);
  resting = setTimeout(() => history.replaceState(null, "", `#${shown.number}`), 300);
}

/** Goes to the moment that the address names. */
function goToAddress() {
  goTo(Number(/^#(\d+)$/.exec(location.hash)?.[1] ?? FIRST));
  keepAddress();
}

let playing;

function play(isOn) {
  clearInterval(playing);
  const forward = () => (shown.number < LAST ? goTo(shown.number + 1) : play(false));
  playing = isOn && setInterval(forward, 1000 / Number(byId("speed").value));
  byId("play").textContent = isOn ? "Pause" : "Play";
}

// How many events a key goes forward.
const KEYS = { ArrowLeft: -1, ArrowRight: 1, PageUp: -10, PageDown: 10, Home: -Infinity, End: Infinity };

function pressed(event) {
  const isOther = event.ctrlKey || event.altKey || event.metaKey || event.target.tagName === "SELECT";
  if (isOther || !(event.key in KEYS)) return;
  event.preventDefault();
  goTo(shown.number + KEYS[event.key]);
}

function begin() {
  byId("places").style.setProperty("--most", run.places < 4 ? run.places : IS_CROWDED ? 12 : 4);
  byId("places").classList.toggle("crowded", IS_CROWDED);
  Object.assign(byId("slider"), { min: FIRST, max: LAST });
  byId("listing").textContent = run.listing;
  for (let place = 0; place < run.places; place++) {
    shown.cards.push({ card: byId("places").appendChild(element("section", {})) });
    const button = byId("map").appendChild(element("button", { type: "button" }, `${place}`));
    button.addEventListener("click", () => shown.cards[place].card.scrollIntoView());
  }
  const { Home: first, ArrowLeft: back, ArrowRight: forward, End: last } = KEYS;
  for (const [name, events] of Object.entries({ first, back, forward, last })) {
    byId(name).addEventListener("click", () => goTo(shown.number + events));
  }
  byId("play").addEventListener("click", () => play(!playing));
  byId("slider").addEventListener("input", () => goTo(Number(byId("slider").value)));
  byId("speed").addEventListener("change", () => play(Boolean(playing)));
  document.addEventListener("keydown", pressed);
  addEventListener("hashchange", goToAddress);
  goToAddress();
}

begin();
