// ---- Sets of pixels: for each row its runs, which do not touch ----

function addRun(rows, y, first, last) {
  first = Math.max(first, 0);
  last = Math.min(last, board.width - 1);
  if (y < 0 || y >= board.height || first > last) return;
  const runs = rows.get(y) ?? [];
  if (runs.some(run => run.first <= first && last <= run.last)) return;
  const touches = run => run.first <= last + 1 && first <= run.last + 1;
  for (const run of runs.filter(touches)) {
    first = Math.min(first, run.first);
    last = Math.max(last, run.last);
  }
  rows.set(y, [...runs.filter(run => !touches(run)), { y, first, last }]);
}

const addDisc = (rows, centre, radius) => addLine(rows, centre, centre, radius);

/** Discs at all pixels of a line between two pixels. On each row they join to one run: each centre touches the next. */
function addLine(rows, from, to, radius) {
  const top = Math.min(from.y, to.y) - radius, height = Math.abs(to.y - from.y) + 2 * radius + 1;
  const spans = { top, firsts: new Int32Array(height).fill(board.width), lasts: new Int32Array(height).fill(-1) };
  const steps = Math.max(Math.abs(to.x - from.x), Math.abs(to.y - from.y), 1), halves = halvesOf(radius);
  const between = (start, end, k) => Math.round(start + (end - start) * k / steps);
  for (let k = 0; k <= steps; k++) widen(spans, between(from.x, to.x, k), between(from.y, to.y, k), halves);
  spans.firsts.forEach((first, row) => addRun(rows, top + row, first, spans.lasts[row]));
}

/** Half the width of a disc on each of its rows. */
function halvesOf(radius) {
  return Array.from({ length: 2 * radius + 1 }, (_, row) => Math.floor(Math.sqrt(radius ** 2 - (row - radius) ** 2)));
}

/** Widens the span of each row by a disc. */
function widen({ top, firsts, lasts }, x, y, halves) {
  const start = y - (halves.length >> 1) - top;
  for (let row = 0; row < halves.length; row++) {
    firsts[start + row] = Math.min(firsts[start + row], x - halves[row]);
    lasts[start + row] = Math.max(lasts[start + row], x + halves[row]);
  }
}

/** All runs, by row and then by column. */
function runsOf(rows) {
  return [...rows.values()].flat().sort((one, other) => one.y - other.y || one.first - other.first);
}

/** The texts of strokes that have the runs, of which one stroke takes so many. */
function shapesOfRuns(runs) {
  const shapes = [];
  for (let from = 0; from < runs.length; from += MOST_RUNS) {
    shapes.push(runs.slice(from, from + MOST_RUNS).map(({ y, first, last }) => `${y}:${first}-${last}`).join(","));
  }
  return shapes;
}

function highestUnder(runs) {
  let highest = 0;
  for (const { y, first, last } of runs) {
    if (highest === board.maxval) break;
    for (let pixel = y * board.width + first, end = y * board.width + last; pixel <= end; pixel++) {
      if (board.mask[pixel] > highest) highest = board.mask[pixel];
    }
  }
  return highest;
}

/** The border of a set of pixels, as lines between pixels. */
function outlineOf(runs) {
  const path = new Path2D(), rows = Map.groupBy(runs, run => run.y);
  for (const { y, first, last } of runs) {
    path.rect(first, y, 0, 1);
    path.rect(last + 1, y, 0, 1);
    for (const [start, end] of uncovered(first, last, rows.get(y - 1) ?? [])) path.rect(start, y, end - start, 0);
    for (const [start, end] of uncovered(first, last, rows.get(y + 1) ?? [])) path.rect(start, y + 1, end - start, 0);
  }
  return path;
}

/** The parts of a run that have no pixel of the given runs beside them. */
function uncovered(first, last, runs) {
  const parts = [];
  let start = first;
  for (const run of runs) {
    if (run.last < start || run.first > last) continue;
    if (run.first > start) parts.push([start, run.first]);
    start = run.last + 1;
  }
  if (start <= last) parts.push([start, last + 1]);
  return parts;
}
