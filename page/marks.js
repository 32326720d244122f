// ---- Marks: for each pixel the colour of the topmost stroke on it that is shown, by its class or by its author ----

// By class once there is another class than the first, or as it was chosen: "class", "author" or "".
const marking = { isByClass: false, chosen: "" };
const SHORT_RUN = 60;  // pixels: fewer are filled faster one by one
const halfColours = new Uint32Array(MOST_CLASS + 1);  // half of each colour, as a number that begins with alpha

/** The number of the colour that marks a stroke, or 0 where it is not shown. */
const markOf = ({ inClass, colour }) => isHiddenClass(inClass) ? 0 : marking.isByClass ? inClass : colour;
const cssOf = (colour, opacity = 1) => `rgb(${colour.join(" ")} / ${opacity})`;

/** The colour of a stroke, also where its class is hidden. */
function cssMark({ inClass, colour }, opacity) {
  return marking.isByClass ? cssOf(classColour(inClass), opacity) : cssColour(colour, opacity);
}

/** The colour of what is painted now. */
const cssInHand = opacity => cssMark({ inClass: brush.inClass, colour: 1 }, opacity);

/** Marks the pixels of a stroke that lie in a box with its colour. */
function markWithin(stroke, box) {
  const mark = markOf(stroke);
  if (mark > 0) fillMarks(stroke.runs, box, mark);
}

function fillMarks(runs, { left, top, right, bottom }, mark) {
  const { marks, width } = board;
  for (const { y, first, last } of runs) {
    if (y < top || y >= bottom) continue;
    const from = y * width + Math.max(first, left), to = y * width + Math.min(last + 1, right);
    if (to - from > SHORT_RUN) marks.fill(mark, from, to);
    else for (let pixel = from; pixel < to; pixel++) marks[pixel] = mark;
  }
}

/** Marks all strokes anew: others are shown, or by other colours. */
function remark() {
  if (!board.marks) return;
  for (let mark = 1; mark <= MOST_CLASS; mark++) halfColours[mark] = halfColourOf(mark);
  board.marks.fill(0);
  for (const stroke of board.strokes.values()) markWithin(stroke, stroke.box);
  soil(wholeBoard());
}

function halfColourOf(mark) {
  const colour = marking.isByClass ? classColour(mark) : COLOURS[mark] ?? [0, 0, 0];
  return packed(colour.map(part => part >> 1), 128);
}

/** Shows a class in another colour. */
function recolourMarks(inClass) {
  if (!marking.isByClass) return;
  halfColours[inClass] = halfColourOf(inClass);
  for (const box of boxesOfClass(inClass)) soil(box);
}

/** Goes by class once there is another than the first. */
function followClasses() {
  const isByClass = marking.chosen === "class" || marking.chosen !== "author"
    && (marking.isByClass || brush.inClass !== 1 || isOtherThanFirst());
  if (isByClass === marking.isByClass) return;
  marking.isByClass = isByClass;
  remark();
  sayCounts();
  sayClass();
}
