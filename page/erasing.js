// ---- Erasing: what the eraser touches is taken off of one's own strokes ----

// A gesture is one object. Where the eraser touches a stroke of it, all of its strokes are withdrawn, and what is left
// of them is placed anew as one gesture.

/** Erases the pixels of a set, as one act. Strokes of others, and those of classes that are locked or hidden, stay. */
function erase(rows, begun) {
  const erased = sortedRows(rows), live = liveStrokes();
  const touched = strokesOn(live, erased), mine = new Set(touched.filter(mayErase).map(stroke => stroke.gesture));
  if (mine.size === 0) return sayWhatStays(touched);
  const strokes = live.filter(stroke => mine.has(stroke.gesture) && mayErase(stroke));
  replaceStrokes(strokes, restsOf(strokes, erased), begun);
}

const mayErase = stroke => authorOf(stroke.tag) === author && isWithinReach(stroke);

/** Says why nothing was erased, where there was something. */
function sayWhatStays(touched) {
  const areOthers = touched.some(({ tag }) => authorOf(tag) !== author);
  const areMine = touched.some(({ tag }) => authorOf(tag) === author);
  const kept = [...areOthers ? ["of others"] : [], ...areMine ? ["of locked or hidden classes"] : []];
  if (kept.length > 0) sayFault(`The eraser leaves strokes ${kept.join(" and ")}.`);
}

/** The live strokes, with those that wait to be placed, and without those whose withdrawal waits. */
function liveStrokes() {
  const strokes = new Map(board.strokes);
  for (const { strokes: coming } of outbox) for (const stroke of coming) strokes.set(stroke.tag, stroke);
  for (const { withdrawn } of outbox) for (const tag of withdrawn) strokes.delete(tag);
  return [...strokes.values()];
}

/** Those of some strokes that have a pixel of a set. */
function strokesOn(strokes, rows) {
  const box = boxOf([...rows.values()].flat());
  return strokes.filter(stroke => meets(stroke.box, box) && isOn(stroke, rows));
}

function isOn({ runs }, rows) {
  return runs.some(({ y, first, last }) => rows.get(y)?.some(run => run.first <= last && first <= run.last));
}

/** A set with the runs of each row in their order. */
function sortedRows(rows) {
  return new Map([...rows].map(([y, runs]) => [y, [...runs].sort((one, other) => one.first - other.first)]));
}

/** What places some strokes anew without the pixels of a set. Untouched ones stay as they are; the others are runs. */
function restsOf(strokes, rows) {
  const rests = [], touched = new Map();
  for (const stroke of strokes) {
    const like = `${stroke.gesture} ${stroke.inClass} ${stroke.level}`;
    if (!isOn(stroke, rows)) rests.push(asPlaced(stroke));
    else if (touched.has(like)) touched.get(like).runs.push(...stroke.runs);
    else touched.set(like, { stroke, runs: [...stroke.runs] });
  }
  for (const { stroke, runs } of touched.values()) {
    for (const shape of shapesOfRuns(restOf(runs, rows))) rests.push({ ...asPlaced(stroke), kind: "place", shape });
  }
  return rests;
}

/** The runs of all pixels of some runs that are in no run of a set, by row and column. */
function restOf(runs, erased) {
  const rows = new Map();
  for (const { y, first, last } of runs) {
    for (const [start, end] of uncovered(first, last, erased.get(y) ?? [])) addRun(rows, y, start, end - 1);
  }
  return runsOf(rows);
}
