// ---- Pointing: sight goes to an object, which is outlined for a moment ----

const POINTING = 2000, NEAR = 8;  // milliseconds, and the nearest that sight goes by itself
const pointed = { gesture: "", end: 0 };

/** Goes to an object. */
function pointAt(gesture) {
  const strokes = strokesOfGesture(gesture);
  if (strokes.length === 0) return;
  clearTimeout(pointed.end);
  pointed.gesture = gesture;
  pointed.end = setTimeout(endPointing, POINTING);
  lookAt(boxOfStrokes(strokes));
}

function endPointing() {
  pointed.gesture = "";
  redrawOverlay();
}

/** Brings a box into the middle of what no panel at the left covers, nearer or further away only where it has to. */
function lookAt(box) {
  const left = coveredAtLeft(), width = picture.width - left;
  const across = width / (box.right - box.left), down = picture.height / (box.bottom - box.top);
  const whole = Math.min(across, down), isFar = sight.zoom < whole / 30;
  const zoom = isFar ? Math.min(whole / 4, NEAR * sight.ratio) : Math.min(sight.zoom, whole / 1.5);
  sight.zoom = limited(zoom, LEAST_ZOOM, MOST_ZOOM);
  sight.left = left + width / 2 - (box.left + box.right) / 2 * sight.zoom;
  sight.top = picture.height / 2 - (box.top + box.bottom) / 2 * sight.zoom;
  followSight();
}

/** How many of the canvas's pixels the panel at the left covers. */
function coveredAtLeft() {
  const stage = element("stage").getBoundingClientRect(), panel = element("classes").getBoundingClientRect();
  const covered = element("classes").hidden ? 0 : (panel.right - stage.left) * sight.ratio;
  return covered < picture.width / 2 ? covered : 0;
}

function drawPointed() {
  if (pointed.gesture === "") return;
  for (const stroke of strokesOfGesture(pointed.gesture)) drawOutline(stroke, "#fff", 3);
}
