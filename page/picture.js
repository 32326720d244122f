// ---- The picture: blocks of pixels on canvases of their own, made when they are seen ----

const BLOCK = 512, HALVINGS = 5;
const picture = element("picture"), pictureContext = picture.getContext("2d", { alpha: false });
const overlay = element("overlay"), overlayContext = overlay.getContext("2d");
let blocks = [];

const view = { name: "kept", areStrokesShown: true, maskColours: null, resultColours: null };  // colours by samples

/** Finds anew in which colours samples are shown. */
function recolour() {
  const { mask, result } = VIEWS[view.name], { look } = contrast, shades = shadesThrough(look, board.maxval);
  view.maskColours = coloursOfSamples(shades, coloursOf("grey", mask, 255));
  view.resultColours = coloursOfSamples(shades, coloursOf(look.tables[view.name] ?? "grey", result, 0));
  soil(wholeBoard());
}

function makeBlocks() {
  blocks = [];
  for (let top = 0; top < board.height; top += BLOCK) {
    for (let left = 0; left < board.width; left += BLOCK) {
      const box = common({ left, top, right: left + BLOCK, bottom: top + BLOCK }, wholeBoard());
      blocks.push({ box, stale: box, levels: [], freshLevels: 0 });
    }
  }
}

/** Says that the pixels of a box have to be composed anew. */
function soil(box) {
  for (const block of blocks) {
    if (!meets(block.box, box)) continue;
    const part = common(block.box, box);
    block.stale = block.stale ? around(block.stale, part) : part;
  }
  redraw();
}

/** The canvas of a block at a level, each of which has half the sides of the one before, for pictures seen small. */
function canvasOf(block, level) {
  if (block.stale) freshen(block);
  for (; block.freshLevels <= level; block.freshLevels++) halve(block, block.freshLevels);
  return block.levels[level].canvas;
}

/** Composes what is stale of a block. */
function freshen(block) {
  const { left, top, right, bottom } = block.stale;
  block.levels[0] ??= newContext(block.box.right - block.box.left, block.box.bottom - block.box.top);
  const pixels = block.levels[0].createImageData(right - left, bottom - top);
  compose(new Uint32Array(pixels.data.buffer), block.stale);
  block.levels[0].putImageData(pixels, left - block.box.left, top - block.box.top);
  block.stale = null;
  block.freshLevels = 1;
}

/** Makes a level of a block from the one before. */
function halve(block, level) {
  const whole = block.levels[level - 1].canvas;
  block.levels[level] ??= newContext(Math.ceil(whole.width / 2), Math.ceil(whole.height / 2));
  const { canvas } = block.levels[level];
  block.levels[level].drawImage(whole, 0, 0, canvas.width, canvas.height);
}

function newContext(width, height) {
  return Object.assign(document.createElement("canvas"), { width, height }).getContext("2d", { alpha: false });
}

function compose(colours, { left, top, right, bottom }) {
  const { mask, image, marks, width } = board, { maskColours, resultColours, areStrokesShown } = view;
  let place = 0;
  for (let y = top; y < bottom; y++) {
    for (let pixel = y * width + left, end = y * width + right; pixel < end; pixel++) {
      const colour = maskColours[mask[pixel]] + resultColours[image[pixel]];
      const isMarked = areStrokesShown && marks[pixel] > 0;
      colours[place++] = isMarked ? (colour >>> 1 & 0x7f7f7f7f) + halfColours[marks[pixel]] : colour;
    }
  }
}
