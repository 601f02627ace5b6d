// Tells of a run in words.

function toldFrame(frame) {
  if (!frame) return "?";
  if (frame.type === "Back") return `Back to stay ${frame.waiting[0]}`;
  if (frame.type === "Report") return `Report of place ${frame.from} on ${toldFinish(frame.finish)}`;
  return `${frame.type} of function ${frame.function}`;
}

function toldFinish(finish) {
  return finishKey(finish) === "0:0" ? "the root finish" : `finish ${finish.number} of place ${finish.home}`;
}

/** The pairs of places whose counts for a finish differ, as far as its home knows them: by its own counts and by reports. */
function missing(state, finish) {
  if (openBefore.has(finishKey(finish))) return ["reports before the first event shown aren't in this page"];
  const known = { ...state.reports[finishKey(finish)], [finish.home]: finish };
  const count = (place, side, other) => known[place]?.[side][other] ?? 0;
  return state.places.flatMap((one, from) => state.places.flatMap((other, to) => {
    const [sent, received] = [count(from, "sent", to), count(to, "received", from)];
    return sent === received ? [] : [`place ${from} to ${to}: ${sent} sent, ${received} received, as reported`];
  }));
}

/** The name of an activity: main, or the function that it began with, and where it is. */
function nameOf(state, place, key) {
  const stay = state.places[place]?.stays[key];
  const isMain = state.isMain && place === 0 && key === 0;
  const name = stay ? `f${stay.frames.at(-1).function}` : "none";
  return `${isMain ? "main" : name} at ${place}, key ${key}`;
}

/** Which stay works for one that is away, which stays are under a finish, and which stay of a place is inside a region. */
function linksOf(state) {
  const [workers, under, inside] = [new Map(), new Map(), new Map()];
  state.places.forEach(({ stays }, place) => {
    stays.forEach((stay, key) => {
      if (!stay) return;
      const finish = finishKey(stay.under);
      if (!under.has(finish)) under.set(finish, []);
      under.get(finish).push([place, key]);
      if (stay.back) workers.set(`${stay.back}`, [place, key]);
      if (stay.inside) inside.set(place, key);
    });
  });
  return { workers, under, inside };
}

/** The first few of some texts, and how many more there are. */
function few(texts, many) {
  return texts.length > many ? [...texts.slice(0, many), `${texts.length - many} more`] : texts;
}

/** Where a stay is that is away. */
function toldAway(state, links, place, key) {
  const worker = links.workers.get(`${[place, key]}`);
  if (worker) return `away: ${nameOf(state, ...worker)} works for it`;
  const frame = state.flights.find(({ waiting }) => isSame(waiting, [key, place]));
  return frame ? `away: frame ${frame.number} is on its way to place ${frame.to}` : "away";
}

/** What a stay at a FINE waits for. */
function toldWait(state, links, place, finish) {
  const others = (links.under.get(finishKey(finish)) ?? []).filter(([at]) => at !== place);
  const names = few(others.map((it) => nameOf(state, ...it)), 3).join("; ");
  const told = [`at FINE: ${toldFinish(finish)}, ${finish.live} alive here`];
  return [...told, ...(names ? [`alive elsewhere: ${names}`] : []), ...few(missing(state, finish), 4)];
}

/** Why a stay doesn't work, and where its result goes. */
function toldStay(state, links, place, key) {
  const stay = state.places[place].stays[key];
  const inside = links.inside.get(place) ?? key;
  const told = stay.back ? [`its result goes back to ${nameOf(state, ...stay.back)}`] : [];
  if (stay.away) return [toldAway(state, links, place, key), ...told];
  if (inside !== key) return [`kept out: ${nameOf(state, place, inside)} is inside an atomic region`, ...told];
  return stay.idle && stay.finishes.length ? [...toldWait(state, links, place, stay.finishes[0]), ...told] : told;
}

/** The event of a moment, in words. */
function toldEvent(event, before) {
  const { kind, number, place, key } = event;
  if (kind === "start") return FIRST ? `after ${FIRST} events` : "before the first event";
  if (kind === "delivery") return `frame ${number} arrives at place ${place}: ${toldFrame(frameOf(before, number))}`;
  if (number !== undefined) return `nothing to do: frame ${number} isn't in flight`;
  const name = nameOf(before, place, key);
  if (kind === "step") return `step of ${name}: ${functions[event.function][event.pc]}`;
  const why = before.places[place]?.stays[key] && toldStay(before, linksOf(before), place, key)[0];
  return `nothing to do: ${name}${why ? ` is ${why}` : ""}`;
}

/** What else an event did: frames put out, activities that began or ended, lines printed. */
function notesOf(event, before, now) {
  const told = event.posted.map((number) => {
    const frame = frameOf(now, number);
    return `puts out frame ${number} to place ${frame?.to}: ${toldFrame(frame)}`;
  });
  const [old, it] = [before, now].map((state) => state.places[event.place] ?? NO_PLACE);
  const most = Math.max(it.stays.length, old.stays.length);
  for (let key = 0; key < most; key++) told.push(...changesOfStay(before, now, event.place, key));
  return [...told, ...it.lines.slice(old.lines.length).map((line) => `prints ${clipped(line)}`)];
}

function changesOfStay(before, now, place, key) {
  const [old, stay] = [before, now].map((state) => state.places[place].stays[key]);
  if (old === stay || (!old && !stay)) return [];
  if (!stay) return [`${nameOf(before, place, key)} ends`];
  const name = nameOf(now, place, key);
  if (!old) return [`${name} begins`];
  const told = [];
  if (old.away !== stay.away) told.push(stay.away ? `${name} is away until its result comes` : `${name} goes on`);
  if (stay.finishes.length > old.finishes.length) told.push(`opens ${toldFinish(stay.finishes[0])}`);
  if (stay.finishes.length < old.finishes.length) told.push(`closes ${toldFinish(old.finishes[0])}`);
  return told;
}

const ENDS = {
  ended: "The run has ended: the root finish is closed.",
  stopped: "The run isn't shown further: it was cut at --to, at a limit, or for lack of memory.",
};
