// ---- Sight: where the picture lies on the screen, in pixels of the screen ----

const LEAST_ZOOM = .02, MOST_ZOOM = 64;
const sight = { zoom: 1, left: 0, top: 0, ratio: devicePixelRatio };
const screenX = x => Math.round(sight.left + x * sight.zoom);
const screenY = y => Math.round(sight.top + y * sight.zoom);

/** The middle of the canvas's pixel under the pointer. */
function screenPoint(event) {
  const box = overlay.getBoundingClientRect();
  return { x: Math.floor((event.clientX - box.left) * overlay.width / box.width) + .5,
    y: Math.floor((event.clientY - box.top) * overlay.height / box.height) + .5 };
}

/** The picture's pixel at a point of the screen, in the picture or not. */
function pixelAt({ x, y }) {
  return { x: Math.floor((x - sight.left) / sight.zoom), y: Math.floor((y - sight.top) / sight.zoom) };
}

/** Zooms so that what is at a point of the screen stays there. */
function zoomTo(zoom, { x, y }) {
  zoom = limited(zoom, LEAST_ZOOM, MOST_ZOOM);
  sight.left = x - (x - sight.left) * zoom / sight.zoom;
  sight.top = y - (y - sight.top) * zoom / sight.zoom;
  sight.zoom = zoom;
  followSight();
}

const screenMiddle = () => ({ x: picture.width / 2, y: picture.height / 2 });

/** Goes to the next third of an octave, up or down. */
function zoomStep(direction, point) {
  zoomTo(2 ** (Math.round(Math.log2(sight.zoom) * 3 + direction) / 3), point);
}

function fit() {
  const whole = Math.min(picture.width / board.width, picture.height / board.height);
  sight.zoom = limited(whole > 1 ? Math.floor(whole) : whole, LEAST_ZOOM, MOST_ZOOM);
  sight.left = (picture.width - board.width * sight.zoom) / 2;
  sight.top = (picture.height - board.height * sight.zoom) / 2;
  followSight();
}

/** Finds the pixel that is under the pointer now. */
function followSight() {
  if (hand.pixel) hand.pixel = pixelAt(hand.point);
  sayPixel();
  redraw();
}
