// ---- Boxes: pixels from left and top, up to right and bottom without these ----

const wholeBoard = () => ({ left: 0, top: 0, right: board.width, bottom: board.height });
const holds = (box, { x, y }) => x >= box.left && x < box.right && y >= box.top && y < box.bottom;

function meets(one, other) {
  return one.left < other.right && other.left < one.right && one.top < other.bottom && other.top < one.bottom;
}

function common(one, other) {
  return { left: Math.max(one.left, other.left), top: Math.max(one.top, other.top),
    right: Math.min(one.right, other.right), bottom: Math.min(one.bottom, other.bottom) };
}

function around(one, other) {
  return { left: Math.min(one.left, other.left), top: Math.min(one.top, other.top),
    right: Math.max(one.right, other.right), bottom: Math.max(one.bottom, other.bottom) };
}
