// ---- Fingers: one is a hand, two or more zoom and move the picture, and none counts while a pen is near ----

const fingers = new Map();  // where on the canvas each finger is
const touch = { isPenNear: false, isPinch: false };

/** Whether a pointer that came down may be the hand. */
function letsIn(event) {
  if (event.pointerType !== "touch") {
    if (event.pointerType === "pen") meetPen();
    return true;
  }
  if (touch.isPenNear) return false;
  if (event.isPrimary) forgetFingers();
  fingers.set(event.pointerId, screenPoint(event));
  if (fingers.size > 1) startPinch();
  return !touch.isPinch;
}

/** Whether a pointer that moves may be the hand. */
function letsMove(event) {
  if (event.pointerType === "pen") meetPen();
  if (event.pointerType !== "touch") return true;
  if (touch.isPinch && fingers.has(event.pointerId)) pinch(event);
  return !touch.isPinch && fingers.has(event.pointerId);
}

/** A pen is near: the finger or the palm that lies on the picture does nothing any more. */
function meetPen() {
  if (fingers.has(hand.pointer)) releaseHand();
  forgetFingers();
  touch.isPenNear = true;
}

function forgetFingers() {
  fingers.clear();
  touch.isPinch = false;
}

function liftFinger(pointer) {
  fingers.delete(pointer);
  if (fingers.size === 0) touch.isPinch = false;
}

/** Drops what the first finger was about. The fingers that stay on the picture paint nothing any more. */
function startPinch() {
  touch.isPinch = true;
  hand.pixel = null;
  releaseHand();
}

function pinch(event) {
  const before = spread();
  fingers.set(event.pointerId, screenPoint(event));
  const after = spread();
  sight.left += after.x - before.x;
  sight.top += after.y - before.y;
  zoomTo(sight.zoom * after.width / before.width, after);
}

/** The middle of the fingers, and how far from it they are. */
function spread() {
  const points = [...fingers.values()], mean = values => values.reduce((sum, value) => sum + value) / values.length;
  const x = mean(points.map(point => point.x)), y = mean(points.map(point => point.y));
  return { x, y, width: mean(points.map(point => Math.hypot(point.x - x, point.y - y))) || 1 };
}
