// ---- The hand: what the one pointer does that paints, erases, withdraws, moves the picture or changes contrast ----

const hand = {
  tool: "brush", pointer: null,  // the pointer that is down
  point: null, pixel: null, gesture: null, pan: null, stretch: null, aim: null, hovered: null, isSpaceHeld: false,
  isAtCorner: false,  // whether a corner of the polygon is set once the pointer goes up
};

// The number of the other end of a pen as a button, and its bit among those that are pressed.
const OTHER_END = 5, OTHER_END_BIT = 32;

const isOther = event => hand.pointer !== null && hand.pointer !== event.pointerId;

function pointerDown(event) {
  if (!board.isOpen || !letsIn(event) || isOther(event)) return;
  if (hand.pointer === event.pointerId) pointerLost(event);
  overlay.setPointerCapture(event.pointerId);
  keysToPicture();
  hand.pointer = event.pointerId;
  movePointer(event);
  hover();
  if (event.button === 1 || (event.button === 0 && hand.isSpaceHeld)) startPan();
  else if (event.button === 2) startStretch();
  else if (event.button === 0 || event.button === OTHER_END) takeTool(toolOf(event), event);
  showCursor();
}

/** The tool that a pointer has. The other end of a pen erases. */
const toolOf = ({ button, buttons }) => button === OTHER_END || buttons & OTHER_END_BIT ? "eraser" : hand.tool;

function takeTool(tool, { altKey, shiftKey }) {
  if (tool === "withdraw") aim();
  else if (altKey && tool !== "eraser") takeLevel();
  else if (tool !== "eraser" && !letsPaint()) return;
  else if (tool === "polygon") hand.isAtCorner = true;
  else startGesture(tool, tool === "line" || (tool === "brush" && shiftKey));
}

function startPan() {
  hand.pan = { x: hand.point.x - sight.left, y: hand.point.y - sight.top };
}

/** From here on the pointer changes the window through which samples are shown. */
function startStretch() {
  hand.stretch = { from: hand.point, window: { ...contrast.look } };
}

function stretch({ from, window }) {
  const across = (hand.point.x - from.x) / overlay.width, down = (hand.point.y - from.y) / overlay.height;
  setLook(draggedWindow(window, across, down, board.maxval));
}

/** Aims at the stroke under the pointer, or says that it is locked. */
function aim() {
  hand.aim = hand.hovered;
  const locked = hand.aim ? null : strokeAt(hand.pixel, ({ inClass }) => isLockedClass(inClass));
  if (locked) sayLocked(locked.inClass);
}

function takeLevel() {
  if (holds(wholeBoard(), hand.pixel)) setLevel(board.mask[hand.pixel.y * board.width + hand.pixel.x]);
}

function startGesture(tool, isStraight) {
  const from = tool === "line" && lineInHand.start ? lineInHand.start : hand.pixel;
  hand.gesture = { tool, isStraight, from, point: hand.point, rows: new Map(), last: hand.pixel, radius: brush.radius,
    isDisc: true };
  if (isStraight) straighten(hand.gesture);
  else addDisc(hand.gesture.rows, hand.pixel, brush.radius);
  redrawOverlay();
}

function pointerMove(event) {
  if (!board.isOpen || !letsMove(event) || isOther(event)) return;
  if (isLetGo(event)) pointerLost(event);
  const events = event.getCoalescedEvents?.() ?? [];
  for (const each of events.length > 0 ? events : [event]) movePointer(each);
  if (hand.stretch) stretch(hand.stretch);
  shadow.isResting = false;
  hover();
  sayPixel();
  redrawOverlay();
}

/** Whether the button went up where the page did not see it. */
function isLetGo({ pointerId, pointerType, buttons }) {
  return hand.pointer === pointerId && pointerType !== "touch" && buttons === 0;
}

function movePointer(event) {
  hand.point = screenPoint(event);
  if (hand.pan) pan();
  hand.pixel = pixelAt(hand.point);
  if (hand.gesture) extendGesture(hand.gesture);
}

function pan() {
  sight.left = hand.point.x - hand.pan.x;
  sight.top = hand.point.y - hand.pan.y;
  redraw();
}

function extendGesture(gesture) {
  if (gesture.last.x === hand.pixel.x && gesture.last.y === hand.pixel.y) return;
  if (gesture.isStraight) return straighten(gesture);
  addLine(gesture.rows, gesture.last, hand.pixel, gesture.radius);
  gesture.last = hand.pixel;
  gesture.isDisc = false;
}

function pointerUp(event) {
  liftFinger(event.pointerId);
  if (hand.pointer !== event.pointerId) return;
  const { gesture, aim, hovered, isAtCorner } = hand, begun = performance.now();
  hand.pointer = null;
  emptyHand();
  if (gesture) return finishGesture(gesture, begun);
  if (aim && aim === hovered) {
    takeBack(event.shiftKey ? strokesOfGesture(aim.gesture) : [aim]);
    return behindEdit(showHand);
  }
  if (isAtCorner) clickCorner();
  showHand();
}

function finishGesture(gesture, begun) {
  shadow.isResting = true;
  redrawBehindEdit();
  if (gesture.tool === "eraser") erase(gesture.rows, begun);
  else if (gesture.tool === "line") finishLine(gesture, begun);
  else paint(gesture, begun);
}

/** A pointer is lost that did not go up. What a mouse or a pen painted up to there stays, and nothing else counts. */
function pointerLost(event) {
  if (hand.pointer === event.pointerId && (event.pointerType === "touch" || !hand.gesture)) releaseHand();
  pointerUp(event);
}

function releaseHand() {
  hand.pointer = null;
  dropHand();
}

/** Ends what the pointer was about, without a stroke. */
function dropHand() {
  emptyHand();
  showHand();
}

function emptyHand() {
  hand.gesture = null;
  hand.pan = null;
  hand.stretch = null;
  hand.aim = null;
  hand.isAtCorner = false;
}

function showHand() {
  showCursor();
  redrawOverlay();
}

/** Finds the stroke that a click would take. */
function hover() {
  hand.hovered = hand.tool === "withdraw" && hand.pixel && !hand.pan ? strokeAt(hand.pixel) : null;
  showCursor();
  redrawOverlay();
}

function showCursor() {
  const tool = hand.tool !== "withdraw" ? "crosshair" : hand.hovered ? "pointer" : "default";
  overlay.style.cursor = hand.pan ? "grabbing" : hand.stretch ? "move" : hand.isSpaceHeld ? "grab" : tool;
}

function pointerLeave(event) {
  if (event.pointerType === "pen") touch.isPenNear = false;
  if (isOther(event)) return;
  hand.pixel = null;
  hover();
  sayPixel();
}

const NOTCH = 50;  // what a wheel with notches turns at least, in CSS pixels

function turnWheel(event) {
  event.preventDefault();
  if (!board.isOpen) return;
  const turned = event.deltaMode === 0 ? event.deltaY || event.deltaX : event.deltaY * NOTCH;
  if (turned === 0) return;
  movePointer(event);
  if (event.altKey) stepRadius(-Math.sign(turned));
  else if (Math.abs(turned) >= NOTCH) zoomStep(-Math.sign(turned), hand.point);
  else zoomTo(sight.zoom * 2 ** (-turned / 150), hand.point);
  hover();
}
