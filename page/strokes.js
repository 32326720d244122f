// ---- Strokes ----

// Colours by author: none, one's own, and those of others. Who sees no red, or no green, can tell them apart, too.
const COLOURS = [null, [86, 180, 233], [240, 228, 66], [204, 121, 167], [213, 94, 0], [0, 158, 115]];
const cssColour = (colour, opacity = 1) => `rgb(${COLOURS[colour].join(" ")} / ${opacity})`;

function colourOf(writer) {
  return writer === author ? 1 : 2 + parseInt(writer.slice(-6), 16) % (COLOURS.length - 2);
}

/** The stroke that a line `place TAG LEVEL RUNS` or `disc TAG LEVEL y:x+r` spells. */
function readStroke(line) {
  const [kind, tag, level, shape] = line.split(" ");
  const runs = kind === "disc" ? discRuns(shape) : shape.split(",").map(readRun);
  const gesture = gestureOf(tag), inClass = classOf(tag), colour = colourOf(authorOf(tag));
  return { kind, tag, level, shape, runs, gesture, inClass, colour, box: boxOf(runs), outline: null };
}

function readRun(text) {
  const [y, first, last] = text.split(/[:-]/).map(Number);
  return { y, first, last };
}

function discRuns(shape) {
  const [y, x, radius] = shape.split(/[:+]/).map(Number);
  const rows = new Map();
  addDisc(rows, { x, y }, limited(radius, 0, MOST_RADIUS));
  return runsOf(rows);
}

function boxOf(runs) {
  const box = { left: Infinity, top: Infinity, right: 0, bottom: 0 };
  for (const { y, first, last } of runs) {
    box.left = Math.min(box.left, first);
    box.right = Math.max(box.right, last + 1);
    box.top = Math.min(box.top, y);
    box.bottom = Math.max(box.bottom, y + 1);
  }
  return box;
}

function putStroke(stroke) {
  board.strokes.set(stroke.tag, stroke);
  addToObjects(stroke);
  markWithin(stroke, stroke.box);
  soil(stroke.box);
}

function dropStroke(tag) {
  const gone = board.strokes.get(tag);
  if (!gone) return;
  board.strokes.delete(tag);
  takeFromObjects(gone);
  fillMarks(gone.runs, gone.box, 0);
  for (const stroke of board.strokes.values()) if (meets(stroke.box, gone.box)) markWithin(stroke, gone.box);
  soil(gone.box);
}

/** The topmost live stroke on a pixel that a click can take, but for those whose withdrawal waits. */
function strokeAt(pixel, isMeant = isWithinReach) {
  const leaving = new Set(outbox.flatMap(edit => edit.withdrawn));
  let topmost = null;
  for (const stroke of board.strokes.values()) {
    const isHere = holds(stroke.box, pixel) && isUnder(stroke, pixel);
    if (isHere && isMeant(stroke) && !leaving.has(stroke.tag)) topmost = stroke;
  }
  return topmost;
}

const isUnder = ({ runs }, { x, y }) => runs.some(run => run.y === y && run.first <= x && x <= run.last);
