// ---- The shadow: an estimate of what the brush would light, seen before the button goes up ----

const SHADOW_TIME = 8, SHADOW_TIME_PAINTING = 4;  // milliseconds a frame
const SHADOW_ALPHA = 90, SHADOW_CORE = .6;  // of 255; where it was cut off it fades behind this part of its pixels

const shadow = {
  isShown: true, isResting: false,  // it rests from a stroke to the next move of the pointer
  of: "", drawn: null,              // of what it is, and where on its canvas
  context: null,
};

function showShadow(isShown) {
  shadow.isShown = isShown;
  press("shadowShown", isShown);
  redrawOverlay();
}

/** Shows the shadow or hides it, and keeps that over a reload. */
function toggleShadow() {
  showShadow(!shadow.isShown);
  local.set("shadow", shadow.isShown ? "on" : "off");
}

const recallShadow = () => showShadow(local.get("shadow") !== "off");

/** Draws the shadow of the stroke in hand, or of the one that a press would begin. */
function drawShadow() {
  if (!castsShadow()) return;
  const { gesture, pixel } = hand, ink = inkParts();
  const stroke = gesture ? ["down", gesture.rows.size] : [hand.tool, brush.radius];
  const of = [...stroke, pixel.x, pixel.y, brush.level, ink, ...Object.values(labels.choice)].join();
  if (of !== shadow.of) {
    shadow.of = of;
    const rows = gesture ? gesture.rows : rowsAtPointer();
    shadow.drawn = isSmall(rows) ? castShadow(runsOf(rows), ink) : null;
  }
  if (shadow.drawn === null) return;
  const { left, top, width, height } = shadow.drawn;
  overlayContext.imageSmoothingEnabled = false;
  overlayContext.drawImage(shadow.context.canvas, 0, 0, width, height, left, top, width, height);
}

/** Whether a set has so few pixels that its shadow costs little. */
function isSmall(rows) {
  let count = 0;
  for (const runs of rows.values()) for (const { first, last } of runs) count += last + 1 - first;
  return count <= GROWN.mostOwn;
}

function castsShadow() {
  const tool = hand.gesture ? hand.gesture.tool : hand.tool;
  const isMoving = hand.pan || hand.stretch || shadow.isResting || touch.isPinch;
  return shadow.isShown && hand.pixel && !isMoving && (tool === "brush" || tool === "line");
}

/** Puts the shadow of runs on its canvas, and tells where it lies. */
function castShadow(runs, ink) {
  const highest = highestUnder(runs), threshold = leastLight(Math.min(brush.level ?? highest, highest));
  const until = performance.now() + (hand.gesture ? SHADOW_TIME_PAINTING : SHADOW_TIME);
  const grown = highest === 0 ? null : grow(board, runs, threshold, { until, conn: labels.conn || 4 });
  if (grown === null || grown.count === 0) return null;
  const box = boxOfPlaces(grown), width = box.right - box.left, height = box.bottom - box.top;
  const pixels = shadowContext(width, height).createImageData(width, height);
  colourPlaces(new Uint32Array(pixels.data.buffer), grown, box, packed(ink, 0));
  shadow.context.putImageData(pixels, 0, 0);
  return { left: grown.left + box.left, top: grown.top + box.top, width, height };
}

/** From which light on a pixel is in the shadow of a stroke that is so bright: as labels are made. */
function leastLight(brightest) {
  const { kind, share, level } = labels.choice;
  return Math.max(1, kind === "share" ? share * brightest : level);
}

function boxOfPlaces({ places, count, width }) {
  const box = { left: Infinity, top: Infinity, right: 0, bottom: 0 };
  for (let k = 0; k < count; k++) {
    const y = Math.floor(places[k] / width), x = places[k] - y * width;
    if (x < box.left) box.left = x;
    if (x >= box.right) box.right = x + 1;
    if (y < box.top) box.top = y;
    if (y >= box.bottom) box.bottom = y + 1;
  }
  return box;
}

/** Gives the places a colour. Where they are not all, the last ones fade. */
function colourPlaces(colours, { places, count, width, isWhole }, { left, top, right }, colour) {
  const core = isWhole ? count : count * SHADOW_CORE;
  for (let k = 0; k < count; k++) {
    const y = Math.floor(places[k] / width), x = places[k] - y * width;
    const share = k < core ? 1 : (count - k) / (count - core);
    colours[(y - top) * (right - left) + x - left] = (Math.round(SHADOW_ALPHA * share) << 24 | colour) >>> 0;
  }
}

/** The context of a canvas of at least this size. It never gets smaller. */
function shadowContext(width, height) {
  shadow.context ??= document.createElement("canvas").getContext("2d");
  const { canvas } = shadow.context;
  if (canvas.width < width) canvas.width = width;
  if (canvas.height < height) canvas.height = height;
  return shadow.context;
}

/** The colour that a stroke is painted in. */
const inkParts = () => marking.isByClass ? classColour(brush.inClass) : COLOURS[1];
