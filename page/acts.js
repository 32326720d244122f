// ---- Acts, which undo and redo take back in turns: strokes placed, withdrawn, or put in the place of others ----

// An act has sides. The strokes of a side are there, or they were, under tags. Turning an act withdraws those that are
// there and places the others, in one edit.

let done = [], undone = [];
const MOST_KEPT_ACTS = 100, MOST_KEPT_SIGNS = 1000000;
const MOST_EDIT = 4 << 20;  // bytes that one request carries

const sideThere = strokes => ({ areThere: true, tags: strokes.map(({ tag }) => tag), strokes: strokes.map(asPlaced) });
const sideToCome = strokes => ({ areThere: false, tags: [], strokes });

/** What places a live stroke once more, as its author's, in its class. Those of one gesture stay one. */
function asPlaced({ tag, kind, level, shape, gesture }) {
  return { author: authorOf(tag), inClass: classOf(tag), kind, level, shape, gesture };
}

/** Sends a gesture, and says whether it did. A disc stays a disc; runs are cut into strokes. */
function paint(gesture, begun) {
  const runs = runsOf(gesture.rows);
  if (runs.length === 0 || !letsPaint()) return false;
  const level = String(limited(brush.level ?? highestUnder(runs), 1, MOST_LEVEL));
  behindEdit(() => { element("level").value = level; });
  const strokes = shapesOf(gesture, runs).map(shape => ({ ...shape, level, inClass: brush.inClass }));
  return perform([sideToCome(strokes)], begun);
}

function shapesOf({ isDisc, last, radius }, runs) {
  if (isDisc && holds(wholeBoard(), last)) return [{ kind: "disc", shape: `${last.y}:${last.x}+${radius}` }];
  return shapesOfRuns(runs).map(shape => ({ kind: "place", shape }));
}

function takeBack(strokes) {
  perform([sideThere(strokes)]);
}

/** Withdraws live strokes and places others (with author, inClass, kind, level and shape) for them. */
function replaceStrokes(strokes, others, begun) {
  const sides = [sideThere(strokes), sideToCome(others)].filter(side => side.strokes.length > 0);
  if (sides.length > 0) perform(sides, begun);
}

function perform(act, begun) {
  if (!turn(act, begun)) return false;
  done.push(act);
  undone = [];
  keepActs();
  return true;
}

/** Turns an act, under new tags, since a withdrawn tag never comes back. Says whether one request carries it. */
function turn(act, begun = performance.now()) {
  const turned = act.map(({ areThere, tags, strokes }) => {
    return { areThere: !areThere, tags: areThere ? tags : tagsFor(strokes), strokes };
  });
  const body = `${act.flatMap((side, k) => side.areThere ? withdrawing(side) : placing(turned[k])).join("\n")}\n`;
  if (body.length > MOST_EDIT) {
    sayFault("That is more than one request carries (4 MiB). Nothing was changed: do it in parts.");
    return false;
  }
  act.forEach((side, k) => { if (!side.areThere) rename(side.tags, turned[k].tags); });
  act.splice(0, act.length, ...turned);
  sendEdit(body, begun);
  return true;
}

/** In all acts, strokes that came back have their new tags: an act before takes them away, one behind once more. */
function rename(before, now) {
  const names = new Map(before.map((tag, k) => [tag, now[k]]));
  if (names.size === 0) return;
  for (const side of [...done, ...undone].flat()) side.tags = side.tags.map(tag => names.get(tag) ?? tag);
}

const withdrawing = ({ tags }) => tags.map(tag => `withdraw ${tag}`);
const lineOf = ({ kind, level, shape }, tag) => `${kind} ${tag} ${level} ${shape}`;
const placing = ({ tags, strokes }) => strokes.map((stroke, k) => lineOf(stroke, tags[k]));

/** New tags for strokes. What was one gesture is one again, and strokes without one are a gesture of their own. */
function tagsFor(strokes) {
  const tags = new Map();
  for (const gesture of Map.groupBy(strokes, stroke => stroke.gesture).values()) {
    newTags(gesture).forEach((tag, k) => tags.set(gesture[k], tag));
  }
  return strokes.map(stroke => tags.get(stroke));
}

const undo = () => turnLast(done, undone);
const redo = () => turnLast(undone, done);

/** Turns the last act that still counts: others may have withdrawn its strokes, or they were refused. */
function turnLast(from, to) {
  let act = from.pop();
  while (act && !stillCounts(act)) act = from.pop();
  const locked = act && lockedIn(act);
  if (locked) sayLocked(locked);
  if (act) (!locked && turn(act) ? to : from).push(act);
  keepActs();
}

function stillCounts(act) {
  const there = act.filter(side => side.areThere);
  return there.length === 0 || there.some(side => side.tags.some(isThere));
}

const isThere = tag => board.strokes.has(tag) || outbox.some(edit => edit.strokes.some(stroke => stroke.tag === tag));

/** Keeps the last acts over a reload of the page. */
function keepActs() {
  session.set(`acts ${board.fingerprint}`, JSON.stringify([done, undone].map(lastOf)));
  sayActs();
}

/** So many of the last acts, and no more than their texts allow. */
function lastOf(acts) {
  let first = acts.length, signs = 0;
  while (first > 0 && acts.length - first < MOST_KEPT_ACTS && signs < MOST_KEPT_SIGNS) {
    first--;
    signs += lengthOf(acts[first]);
  }
  return acts.slice(first);
}

const lengthOf = act => act.flatMap(side => side.strokes).reduce((sum, { shape }) => sum + shape.length, 0);

/** Reads what was kept. An act of earlier pages is its one side. */
function recallActs() {
  const kept = JSON.parse(session.get(`acts ${board.fingerprint}`) ?? "[[],[]]");
  [done, undone] = kept.map(acts => acts.map(act => Array.isArray(act) ? act : [act]));
  sayActs();
}
