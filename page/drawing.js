// ---- Drawing: once a frame, what was asked for ----

const asked = { picture: false, frame: false, frames: 0 };

function redraw() {
  asked.picture = true;
  redrawOverlay();
}

function redrawOverlay() {
  if (asked.frame) return;
  asked.frame = true;
  requestAnimationFrame(drawFrame);
}

/** Asks for a frame in a while, unless one is drawn before. */
function redrawBehindEdit() {
  const { frames } = asked;
  behindEdit(() => { if (asked.frames === frames) redrawOverlay(); });
}

function drawFrame() {
  asked.frame = false;
  asked.frames++;
  if (devicePixelRatio !== sight.ratio) resize();
  if (asked.picture) drawPicture();
  asked.picture = false;
  drawOverlay();
  sayIn("zoom", `${Math.round(100 * sight.zoom)} %`);
  noteDrawn();
}

/** Fits the canvases to the stage. What is seen stays where it is, also where the screen's pixels got another size. */
function resize() {
  const ratio = devicePixelRatio, box = element("stage").getBoundingClientRect();
  for (const canvas of [picture, overlay]) {
    canvas.width = Math.round(box.width * ratio);
    canvas.height = Math.round(box.height * ratio);
  }
  redraw();
  if (ratio !== sight.ratio) scaleSight(ratio);
}

function scaleSight(ratio) {
  const growth = ratio / sight.ratio;
  sight.ratio = ratio;
  if (hand.point) hand.point = { x: hand.point.x * growth, y: hand.point.y * growth };
  zoomTo(sight.zoom * growth, { x: 0, y: 0 });
}

/** Resizes at once when the screen's pixels get another size: on another screen, or by the browser's zoom. */
function followRatio() {
  resize();
  matchMedia(`(resolution: ${devicePixelRatio}dppx)`).addEventListener("change", followRatio, { once: true });
}

function drawPicture() {
  pictureContext.fillStyle = "#16181b";
  pictureContext.fillRect(0, 0, picture.width, picture.height);
  pictureContext.imageSmoothingEnabled = sight.zoom < 1;
  const level = limited(Math.floor(-Math.log2(sight.zoom)), 0, HALVINGS);
  for (const block of blocks) drawBlock(block, level);
  drawLabels();
}

function drawBlock(block, level) {
  const left = screenX(block.box.left), top = screenY(block.box.top);
  const right = screenX(block.box.right), bottom = screenY(block.box.bottom);
  if (!meets({ left, top, right, bottom }, { left: 0, top: 0, right: picture.width, bottom: picture.height })) return;
  pictureContext.drawImage(canvasOf(block, level), left, top, right - left, bottom - top);
}

function drawOverlay() {
  overlayContext.setTransform(1, 0, 0, 1, 0, 0);
  overlayContext.clearRect(0, 0, overlay.width, overlay.height);
  if (!board.isOpen) return;
  overlayContext.setTransform(sight.zoom, 0, 0, sight.zoom, Math.round(sight.left), Math.round(sight.top));
  for (const edit of outbox) edit.strokes.forEach(drawWaiting);
  drawShadow();
  if (hand.gesture) drawRuns([...hand.gesture.rows.values()].flat(), colourInHand(hand.gesture));
  if (hand.hovered) drawHovered(hand.hovered);
  drawPointed();
  drawLineToPointer();
  drawPolygon();
  if (hand.pixel && hasBrush() && !hand.pan && !hand.stretch) drawBrush(hand.pixel);
}

const hasBrush = () => hand.gesture !== null || ["brush", "line", "eraser"].includes(hand.tool);
const colourInHand = ({ tool }) => tool === "eraser" ? hatching() : cssInHand(.6);

/** Black and white lines, equally wide at each zoom, for what the eraser takes. */
function hatching() {
  hatching.pattern ??= overlayContext.createPattern(hatchedCanvas(), "repeat");
  hatching.pattern.setTransform(new DOMMatrix().scale(sight.ratio / sight.zoom));
  return hatching.pattern;
}

function hatchedCanvas() {
  const canvas = Object.assign(document.createElement("canvas"), { width: 8, height: 8 });
  const context = canvas.getContext("2d");
  for (let y = 0; y < 8; y++) {
    for (let x = 0; x < 8; x++) {
      context.fillStyle = (x + y) % 8 < 4 ? "#000b" : "#fffb";
      context.fillRect(x, y, 1, 1);
    }
  }
  return canvas;
}

function drawRuns(runs, colour) {
  overlayContext.fillStyle = colour;
  for (const { y, first, last } of runs) overlayContext.fillRect(first, y, last + 1 - first, 1);
}

function drawWaiting(stroke) {
  drawRuns(stroke.runs, cssMark(stroke, .5));
  drawOutline(stroke, "#ffc46b", 1.5);
}

function drawHovered(hovered) {
  for (const stroke of strokesOfGesture(hovered.gesture)) drawOutline(stroke, "#ccc", 1.2);
  drawOutline(hovered, "#fff", 2.5);
}

function drawOutline(stroke, colour, width) {
  stroke.outline ??= outlineOf(stroke.runs);
  for (const [edge, wider] of [["#000", 2], [colour, 0]]) {
    overlayContext.strokeStyle = edge;
    overlayContext.lineWidth = (width + wider) / sight.zoom;
    overlayContext.stroke(stroke.outline);
  }
}

function drawBrush({ x, y }) {
  overlayContext.beginPath();
  overlayContext.arc(x + .5, y + .5, brush.radius + .5, 0, 2 * Math.PI);
  strokeTwice("#fff", 1.2);
}

/** Strokes the path with a colour, over a wider dark line. */
function strokeTwice(colour, width) {
  for (const [edge, wider] of [["#000a", 1.8], [colour, 0]]) {
    overlayContext.strokeStyle = edge;
    overlayContext.lineWidth = (width + wider) / sight.zoom;
    overlayContext.stroke();
  }
}
