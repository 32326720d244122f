// ---- The board: the picture and its strokes, as the program told them last ----

const board = {
  isOpen: false, width: 0, height: 0, maxval: 255, fingerprint: "",
  name: "",                 // of the mask's file, where the program tells it
  mask: null, image: null,  // samples, row by row
  marks: null,              // for each pixel the colour of the topmost stroke on it, 0 for none
  strokes: new Map(),       // the live strokes by tag, the topmost last
  run: "0", step: "0", isQuiet: true, tilesLeft: 0,
};

function openBoard({ width, height, maxval, samples }, fingerprint, name) {
  Object.assign(board, { width, height, maxval, mask: samples, fingerprint, name });
  board.image = maxval < 256 ? new Uint8Array(width * height) : new Uint16Array(width * height);
  board.marks = new Uint8Array(width * height);
  makeBlocks();
  openContrast();
  openClasses();
  openLabels();
  openExports();
  setView("kept");
}

/** Nothing painted and nothing grown, as before the first answer. */
function clearBoard() {
  board.image.fill(0);
  board.marks.fill(0);
  board.strokes.clear();
  liveClasses.clear();
  soil(wholeBoard());
}
