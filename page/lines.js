// ---- Lines: from a click to the next one, or along a drag, as wide as the brush ----

const lineInHand = { start: null };  // the pixel of the first click

/** A gesture that is the straight line from where it began to where the pointer is. */
function straighten(gesture) {
  gesture.rows = lineRows(gesture.from, hand.pixel, gesture.radius);
  gesture.last = hand.pixel;
  gesture.isDisc = gesture.from.x === hand.pixel.x && gesture.from.y === hand.pixel.y;
}

function lineRows(from, to, radius) {
  const rows = new Map();
  addLine(rows, from, to, radius);
  return rows;
}

/** Paints a line. A click that is the first one is where the line starts. */
function finishLine(gesture, begun) {
  const isClick = Math.hypot(hand.point.x - gesture.point.x, hand.point.y - gesture.point.y) < 4 * sight.ratio;
  if (lineInHand.start === null && isClick) {
    lineInHand.start = gesture.from;
    return say("Click where the line ends. Escape drops it.");
  }
  lineInHand.start = null;
  say("");
  paint(gesture, begun);
}

/** What a press here would begin with: the line from the first click on, or a disc. */
function rowsAtPointer() {
  const from = hand.tool === "line" && lineInHand.start ? lineInHand.start : hand.pixel;
  return lineRows(from, hand.pixel, brush.radius);
}

function drawLineToPointer() {
  if (hand.tool !== "line" || !lineInHand.start || !hand.pixel || hand.gesture || hand.pan) return;
  drawRuns([...rowsAtPointer().values()].flat(), cssInHand(.45));
}
