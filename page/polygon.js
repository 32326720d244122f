// ---- The polygon in hand: clicks set its corners; a double click, Enter, or a click on the first one fills it ----

const polygon = { corners: [], clicked: 0 };
const DOUBLE_CLICK = 400, AT_CORNER = 7;  // milliseconds, and CSS pixels

/** Sets a corner where the pointer is, or closes the polygon. */
function clickCorner() {
  if (!hand.pixel) return;
  const { corners } = polygon, now = performance.now();
  const isDouble = isAt(corners.at(-1)) || (now - polygon.clicked < DOUBLE_CLICK && isNear(corners.at(-1)));
  polygon.clicked = now;
  if (isDouble || (corners.length > 2 && isNear(corners[0]))) return closePolygon();
  corners.push(hand.pixel);
  redrawOverlay();
  if (corners.length === 1) say("Enter fills it. Backspace takes a corner back.");
}

const isAt = corner => corner?.x === hand.pixel?.x && corner?.y === hand.pixel?.y;

/** Whether the pointer is at a corner: on its pixel, or hardly beside it. */
function isNear(corner) {
  if (!corner || !hand.pixel) return false;
  const across = screenX(corner.x + .5) - hand.point.x, down = screenY(corner.y + .5) - hand.point.y;
  return isAt(corner) || Math.hypot(across, down) <= AT_CORNER * sight.ratio;
}

/** Paints the polygon. It stays in hand where it is refused. */
function closePolygon() {
  const begun = performance.now(), rows = new Map();
  if (!letsPaint()) return;
  if (polygon.corners.length < 3) return say("A polygon has three corners at least.");
  addPolygon(rows, polygon.corners);
  if (rows.size === 0) return sayFault("The polygon lies outside of the picture.");
  if (!paint({ rows, isDisc: false }, begun)) return;
  dropPolygon();
}

function dropPolygon() {
  polygon.corners = [];
  redrawOverlay();
  say("");
}

function takeCornerBack() {
  polygon.corners.pop();
  redrawOverlay();
}

// What keys do while a polygon is in hand.
const POLYGON_KEYS = { enter: closePolygon, backspace: takeCornerBack, escape: dropPolygon };

const cornerAction = key => hand.tool === "polygon" && polygon.corners.length > 0 ? POLYGON_KEYS[key] : undefined;

/** Draws the corners, the sides, and what would be filled up to the pointer. */
function drawPolygon() {
  const { corners } = polygon, isInHand = hand.tool === "polygon" && hand.pixel && !hand.pan;
  if (corners.length === 0) return;
  overlayContext.beginPath();
  for (const { x, y } of isInHand ? [...corners, hand.pixel] : corners) overlayContext.lineTo(x + .5, y + .5);
  overlayContext.fillStyle = cssInHand(.25);
  overlayContext.fill("evenodd");
  strokeTwice("#fff", 1.5);
  corners.forEach(({ x, y }, k) => drawCorner(x, y, k === 0, k === 0 && corners.length > 2 && isInHand));
}

function drawCorner(x, y, isFirst, canClose) {
  const isClosing = canClose && isNear({ x, y }), size = (isClosing ? 7 : isFirst ? 5 : 3) * sight.ratio / sight.zoom;
  overlayContext.beginPath();
  if (isFirst) overlayContext.arc(x + .5, y + .5, size, 0, 2 * Math.PI);
  else overlayContext.rect(x + .5 - size, y + .5 - size, 2 * size, 2 * size);
  overlayContext.fillStyle = isClosing ? "#fff" : cssInHand();
  overlayContext.fill();
  strokeTwice("#fff", 1);
}
