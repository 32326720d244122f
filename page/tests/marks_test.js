"use strict";

// Tests of page/marks.js, page/objects.js and page/strokes.js:  node page/tests/marks_test.js

const assert = require("node:assert/strict");
const { test } = require("node:test");
const { load } = require("./load.js");

const { COLOURS, board, boxOfStrokes, classes, colourOf, dropStroke, followClasses, halfColours, isOtherThanFirst,
  liveClasses, liveOf, marking, newTags, packed, putStroke, readStroke, remark, strokeAt, strokesOfGesture,
} = load(["basics.js", "storage.js", "board.js", "boxes.js", "tags.js", "palette.js", "classes.js", "objects.js",
  "strokes.js", "runs.js", "contrast.js", "marks.js"], ["COLOURS", "board", "boxOfStrokes", "classes", "colourOf",
  "dropStroke", "followClasses", "halfColours", "isOtherThanFirst", "liveClasses", "liveOf", "marking", "newTags",
  "packed", "putStroke", "readStroke", "remark", "strokeAt", "strokesOfGesture"]);

const WIDTH = 40, HEIGHT = 30, AUTHORS = ["0011223344556677", "8899aabbccddeeff"];

// What of the page is asked for.
Object.assign(globalThis, { sayStorage() {}, sayCounts() {}, sayClass() {}, soil() {}, outbox: [],
  brush: { inClass: 1 } });
Object.assign(board, { width: WIDTH, height: HEIGHT, marks: new Uint8Array(WIDTH * HEIGHT), fingerprint: "marks" });

/** Numbers below a bound, the same at each run. */
function numbersFrom(seed) {
  let state = seed;
  return bound => {
    state = (Math.imul(state, 1664525) + 1013904223) >>> 0;
    return Math.floor(state / 2 ** 32 * bound);
  };
}

/** The strokes of a gesture of so many discs. */
function gesture(below, inClass, count) {
  const stroke = { author: AUTHORS[below(2)], inClass };
  return newTags(Array(count).fill(stroke)).map(tag => {
    return readStroke(`disc ${tag} 9 ${below(HEIGHT)}:${below(WIDTH)}+${below(6)}`);
  });
}

/** The marks that live strokes give, pixel by pixel. */
function slowMarks() {
  const marks = new Uint8Array(WIDTH * HEIGHT);
  for (const { runs, inClass, colour } of board.strokes.values()) {
    if (classes.get(inClass).isHidden) continue;
    for (const { y, first, last } of runs) {
      for (let x = first; x <= last; x++) marks[y * WIDTH + x] = marking.isByClass ? inClass : colour;
    }
  }
  return marks;
}

const isRight = () => assert.deepEqual(board.marks, slowMarks());

test("marks are those of the topmost stroke that is shown, whatever comes and goes", () => {
  const below = numbersFrom(3);
  remark();
  for (let step = 0; step < 400; step++) {
    const inClass = [1, 2, 7, 255][below(4)], tags = [...board.strokes.keys()];
    if (below(3) > 0 || tags.length === 0) gesture(below, inClass, 1 + below(3)).forEach(putStroke);
    else dropStroke(tags[below(tags.length)]);
    if (below(10) === 0) {
      classes.change(inClass, { isHidden: !classes.get(inClass).isHidden });
      remark();
    }
    if (below(20) === 0) {
      marking.chosen = ["class", "author", ""][below(3)];
      followClasses();
    }
    isRight();
  }
});

test("objects are the live strokes by class and gesture", () => {
  const live = new Map();
  for (const stroke of board.strokes.values()) {
    const key = `${stroke.inClass} ${stroke.gesture}`;
    live.set(key, [...live.get(key) ?? [], stroke]);
  }
  let objects = 0, strokes = 0;
  for (const [inClass, of] of liveClasses) {
    for (const [name, object] of of.objects) assert.deepEqual([...object], live.get(`${inClass} ${name}`));
    objects += of.objects.size;
    strokes += of.strokes;
  }
  assert.deepEqual([objects, strokes], [live.size, board.strokes.size]);
  for (const stroke of board.strokes.values()) assert.ok(strokesOfGesture(stroke.gesture).includes(stroke));
  for (const tag of [...board.strokes.keys()]) dropStroke(tag);
  assert.equal(liveClasses.size, 0);
  assert.deepEqual(liveOf(1), { objects: new Map(), strokes: 0 });
  assert.ok(board.marks.every(mark => mark === 0));
});

test("strokes are drawn by author until there is another class than the first, or it was chosen", () => {
  const below = numbersFrom(5);
  Object.assign(marking, { chosen: "", isByClass: false });
  const [first, second] = [1, 2].flatMap(inClass => gesture(below, inClass, 1));
  putStroke(first);
  followClasses();
  assert.ok(!isOtherThanFirst() && !marking.isByClass);
  putStroke(second);
  followClasses();
  assert.ok(isOtherThanFirst() && marking.isByClass);
  assert.equal(halfColours[2], packed([106, 47, 0], 128));
  marking.chosen = "author";
  followClasses();
  assert.ok(!marking.isByClass);
  assert.equal(halfColours[2], packed(COLOURS[2].map(part => part >> 1), 128));
  isRight();
});

test("a click takes the topmost stroke that is neither hidden nor locked", () => {
  for (const tag of [...board.strokes.keys()]) dropStroke(tag);
  const [low, middle, high] = [1, 2, 3].map(inClass => {
    const stroke = readStroke(`disc ${newTags([{ author: AUTHORS[0], inClass }])[0]} 9 10:10+3`);
    putStroke(stroke);
    return stroke;
  });
  for (const inClass of [1, 2, 3]) classes.change(inClass, { isHidden: false });
  assert.equal(strokeAt({ x: 10, y: 10 }), high);
  classes.change(3, { isLocked: true });
  assert.equal(strokeAt({ x: 10, y: 10 }), middle);
  classes.change(2, { isHidden: true });
  assert.equal(strokeAt({ x: 10, y: 10 }), low);
  assert.equal(strokeAt({ x: 10, y: 10 }, stroke => stroke.inClass === 3), high);
  assert.equal(strokeAt({ x: 20, y: 10 }), null);
});

test("the box of an object holds all its strokes", () => {
  const strokes = ["place 00112233-4455-6677-e000-000000000100 9 3:4-5,7:1-2",
    "disc 00112233-4455-6677-e000-000000000101 9 20:30+2"].map(readStroke);
  assert.deepEqual(boxOfStrokes(strokes), { left: 1, top: 3, right: 33, bottom: 23 });
  assert.equal(colourOf(AUTHORS[0]) > 1, true);
});
