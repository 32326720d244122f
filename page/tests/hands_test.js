"use strict";

// Tests of what the hands do to sets of pixels, and of acts:  node page/tests/hands_test.js

const assert = require("node:assert/strict");
const { test } = require("node:test");
const { load } = require("./load.js");

Map.groupBy ??= (items, keyOf) => {
  const groups = new Map();
  for (const item of items) groups.set(keyOf(item), [...groups.get(keyOf(item)) ?? [], item]);
  return groups;
};

const kept = new Map(), sent = [], said = [];
Object.assign(globalThis, {
  outbox: [], session: { get: name => kept.get(name), set: (name, text) => kept.set(name, text) },
  sayActs() {}, sayFault: text => said.push(text), say: text => said.push(text), letsPaint: () => true,
  sendEdit: body => sent.push(body), isWithinReach: ({ inClass }) => inClass !== 9, isLockedClass: () => false,
  sayLocked() {}, lockedIn: () => 0,
});

const page = load(["basics.js", "board.js", "boxes.js", "tags.js", "strokes.js", "runs.js", "filling.js", "erasing.js",
  "growing.js", "acts.js"], ["COLOURS", "GROWN", "MOST_RUNS", "addLine", "addPolygon", "addRun", "asPlaced", "authorOf",
  "board", "classOf", "erase", "gestureOf", "grow", "readStroke", "recallActs", "redo", "replaceStrokes", "restsOf",
  "runsOf", "shapesOfRuns", "sortedRows", "undo", "newTags", "setAuthor: digits => { author = digits; }"]);
const { board } = page, writer = "0123456789abcdef";
Object.assign(board, { width: 64, height: 48, fingerprint: "0" });
page.setAuthor(writer);

/** Numbers below a bound, the same at each run. */
function numbersFrom(seed) {
  let state = seed;
  return bound => {
    state = (Math.imul(state, 1664525) + 1013904223) >>> 0;
    return Math.floor(state / 2 ** 32 * bound);
  };
}

function pixelsOf(runs) {
  const pixels = new Set();
  for (const { y, first, last } of runs) for (let x = first; x <= last; x++) pixels.add(y * board.width + x);
  return pixels;
}

const inOrder = pixels => [...pixels].sort((one, other) => one - other);
const sameSet = (one, other, name) => assert.deepEqual(inOrder(one), inOrder(other), name);

// ---- Polygons ----

/** Whether a ray to the right crosses the sides an odd number of times, in whole numbers. */
function isInside(corners, x, y) {
  let isOdd = false;
  corners.forEach((one, k) => {
    const other = corners[(k + 1) % corners.length];
    if (one.y > y === other.y > y) return;
    const along = (other.x - one.x) * (y - one.y), across = (x - one.x) * (other.y - one.y);
    if (other.y > one.y ? across < along : across > along) isOdd = !isOdd;
  });
  return isOdd;
}

function borderOf(corners) {
  const border = new Set();
  corners.forEach((one, k) => {
    const other = corners[(k + 1) % corners.length];
    const steps = Math.max(Math.abs(other.x - one.x), Math.abs(other.y - one.y), 1);
    for (let step = 0; step <= steps; step++) {
      const x = Math.round(one.x + (other.x - one.x) * step / steps);
      const y = Math.round(one.y + (other.y - one.y) * step / steps);
      if (x >= 0 && x < board.width && y >= 0 && y < board.height) border.add(y * board.width + x);
    }
  });
  return border;
}

function slowPolygon(corners) {
  const pixels = borderOf(corners);
  for (let y = 0; y < board.height; y++) {
    for (let x = 0; x < board.width; x++) if (isInside(corners, x, y)) pixels.add(y * board.width + x);
  }
  return pixels;
}

test("a polygon is filled by even and odd, with its border, also where it leaves the picture", () => {
  const below = numbersFrom(5);
  for (let round = 0; round < 400; round++) {
    const beyond = round % 3 === 0 ? 30 : 0, corners = Array.from({ length: 3 + below(9) }, () => {
      return { x: below(board.width + 2 * beyond) - beyond, y: below(board.height + 2 * beyond) - beyond };
    });
    const rows = new Map();
    page.addPolygon(rows, corners);
    sameSet(pixelsOf(page.runsOf(rows)), slowPolygon(corners), JSON.stringify(corners));
  }
});

// ---- Strokes that are cut ----

/** Whether a text is one that the program takes for a stroke: in order, with a gap between two runs of a row. */
function checkShape(shape) {
  const runs = shape.split(",").map(text => text.split(/[:-]/).map(Number));
  assert.ok(runs.length <= page.MOST_RUNS && runs.every(([y, first, last]) => first <= last && y < board.height));
  runs.slice(1).forEach(([y, first], k) => {
    const [rowBefore, , lastBefore] = runs[k];
    assert.ok(rowBefore < y || (rowBefore === y && first > lastBefore + 1), shape);
  });
}

test("runs are cut at 160 a stroke, in their order", () => {
  for (const count of [0, 1, 160, 161, 320, 321]) {
    const runs = Array.from({ length: count }, (_, k) => ({ y: k >> 3, first: k % 8 * 8, last: k % 8 * 8 + 5 }));
    const shapes = page.shapesOfRuns(runs);
    assert.equal(shapes.length, Math.ceil(count / 160));
    shapes.forEach(checkShape);
    assert.equal(shapes.join(",").split(",").length, Math.max(count, 1));
  }
});

// ---- Erasing ----

/** A stroke of a gesture: a bent line, or a disc. */
function someStroke(below, tag, level) {
  if (below(3) === 0) return page.readStroke(`disc ${tag} ${level} ${below(48)}:${below(64)}+${below(12)}`);
  const rows = new Map();
  for (let k = 0; k < 3; k++) {
    page.addLine(rows, { x: below(64), y: below(48) }, { x: below(64), y: below(48) }, below(5));
  }
  return page.readStroke(`place ${tag} ${level} ${page.shapesOfRuns(page.runsOf(rows))[0]}`);
}

function someStrokes(below) {
  return Array.from({ length: 1 + below(4) }, () => {
    const level = String(1 + below(3)), count = 1 + below(3), inClass = 1 + below(3);
    return page.newTags(Array.from({ length: count }, () => ({ author: writer, inClass })))
      .map(tag => someStroke(below, tag, level));
  }).flat();
}

function someRows(below) {
  const rows = new Map();
  page.addLine(rows, { x: below(64), y: below(48) }, { x: below(64), y: below(48) }, below(9));
  return rows;
}

/** The pixels by gesture, class and level. */
function likePixels(strokes) {
  const sets = new Map();
  for (const { gesture, inClass, level, runs } of strokes) {
    const like = `${gesture} ${inClass} ${level}`;
    sets.set(like, new Set([...sets.get(like) ?? [], ...pixelsOf(runs)]));
  }
  return sets;
}

test("what is left of strokes is what the eraser did not touch, in strokes that the program takes", () => {
  const below = numbersFrom(11);
  for (let round = 0; round < 300; round++) {
    const strokes = someStrokes(below), rows = someRows(below), rubbed = pixelsOf(page.runsOf(rows));
    const rests = page.restsOf(strokes, page.sortedRows(rows));
    const read = rests.map(({ kind, level, shape, gesture, inClass }) => {
      if (kind === "place") checkShape(shape);
      return { ...page.readStroke(`${kind} ${strokes[0].tag} ${level} ${shape}`), gesture, inClass };
    });
    const left = likePixels(read);
    for (const [like, pixels] of likePixels(strokes)) {
      sameSet(left.get(like) ?? [], [...pixels].filter(pixel => !rubbed.has(pixel)), like);
    }
    assert.ok(rests.every(({ author, shape }) => author === writer && shape !== ""));
    for (const stroke of strokes.filter(({ runs }) => ![...pixelsOf(runs)].some(pixel => rubbed.has(pixel)))) {
      assert.ok(rests.some(({ shape }) => shape === stroke.shape), "an untouched one stays");
    }
  }
});

/** The board with some strokes, and nothing sent or kept. */
function begin(strokes) {
  board.strokes = new Map(strokes.map(stroke => [stroke.tag, stroke]));
  sent.length = said.length = 0;
  kept.clear();
  page.recallActs();
}

/** Does on the board what was sent last, and gives the lines. */
function takeSent() {
  const lines = sent.at(-1).trimEnd().split("\n");
  for (const line of lines) {
    const [kind, tag] = line.split(" ");
    if (kind === "withdraw") board.strokes.delete(tag);
    else board.strokes.set(tag, page.readStroke(line));
  }
  return lines;
}

const withoutGestures = strokes => [...Map.groupBy(strokes, ({ gesture }) => gesture).values()].map(object => {
  return object.map(({ kind, level, shape, inClass }) => `${kind} ${level} ${inClass} ${shape}`).sort().join("; ");
}).sort();

test("an erasure is one edit, its undo brings the same objects back under new tags, and redo erases them again", () => {
  const below = numbersFrom(23);
  let erased = 0;
  for (let round = 0; round < 200; round++) {
    const strokes = someStrokes(below), tags = new Set(strokes.map(({ tag }) => tag));
    begin(strokes);
    page.erase(someRows(below), 0);
    if (sent.length === 0) continue;
    erased++;
    takeSent();
    const after = withoutGestures([...board.strokes.values()]);
    page.undo();
    takeSent();
    assert.deepEqual(withoutGestures([...board.strokes.values()]), withoutGestures(strokes));
    page.redo();
    takeSent();
    assert.deepEqual(withoutGestures([...board.strokes.values()]), after);
    assert.equal(sent.length, 3);
    const placed = sent.flatMap(body => body.trimEnd().split("\n")).filter(line => !line.startsWith("withdraw"));
    const names = placed.map(line => line.split(" ")[1]);
    assert.ok(new Set(names).size === names.length && names.every(tag => !tags.has(tag)), "no tag comes twice");
  }
  assert.ok(erased > 100);
});

test("erasures one behind the other are undone and redone, step by step", () => {
  const below = numbersFrom(29);
  for (let round = 0; round < 100; round++) {
    begin(someStrokes(below));
    const states = [withoutGestures([...board.strokes.values()])];
    for (let k = 0; k < 4; k++) {
      page.erase(someRows(below), 0);
      if (sent.length < states.length) continue;
      takeSent();
      states.push(withoutGestures([...board.strokes.values()]));
    }
    for (let turns = 0; turns < 2; turns++) {
      for (const state of states.slice(0, -1).reverse()) {
        page.undo();
        takeSent();
        assert.deepEqual(withoutGestures([...board.strokes.values()]), state);
      }
      for (const state of states.slice(1)) {
        page.redo();
        takeSent();
        assert.deepEqual(withoutGestures([...board.strokes.values()]), state);
        page.recallActs();
      }
    }
  }
});

test("strokes of others, and of classes out of reach, are not erased", () => {
  const [mine, locked, theirs] = [[writer, 1], [writer, 9], ["f".repeat(16), 1]].map(
    ([author, inClass]) => page.readStroke(`disc ${page.newTags([{ author, inClass }])[0]} 5 20:20+4`));
  const rows = new Map();
  page.addLine(rows, { x: 20, y: 20 }, { x: 20, y: 20 }, 6);
  begin([locked, theirs]);
  page.erase(rows, 0);
  assert.equal(sent.length, 0);
  assert.match(said.at(-1), /others/);
  begin([mine, locked, theirs]);
  page.erase(rows, 0);
  assert.deepEqual(takeSent(), [`withdraw ${mine.tag}`]);
});

test("a stroke that waits to be placed is erased, and none whose withdrawal waits", () => {
  const [waiting, leaving] = [1, 2].map(level => {
    return page.readStroke(`disc ${page.newTags([{ author: writer }])[0]} ${level} 20:20+4`);
  });
  const rows = new Map();
  page.addLine(rows, { x: 20, y: 20 }, { x: 20, y: 20 }, 6);
  begin([leaving]);
  outbox.push({ strokes: [waiting], withdrawn: [] }, { strokes: [], withdrawn: [leaving.tag] });
  page.erase(rows, 0);
  outbox.length = 0;
  assert.deepEqual(takeSent(), [`withdraw ${waiting.tag}`]);
});

test("acts of earlier pages are read, and what others withdrew is not brought back", () => {
  const strokes = someStrokes(numbersFrom(3)), [first] = strokes;
  begin(strokes);
  const before = { areThere: true, tags: [first.tag], strokes: [{ kind: "place", level: "3", shape: "1:2-3" }] };
  kept.set("acts 0", JSON.stringify([[before], []]));
  page.recallActs();
  page.undo();
  assert.deepEqual(takeSent(), [`withdraw ${first.tag}`]);
  page.redo();
  assert.match(takeSent()[0], /^place \S+ 3 1:2-3$/);
  board.strokes.clear();
  page.undo();
  assert.equal(sent.length, 2, "nothing is left of it");
});

test("what one request does not carry is refused, and changes nothing", () => {
  begin(someStrokes(numbersFrom(4)));
  const shape = Array.from({ length: 160 }, (_, k) => `${k >> 3}:${k % 8 * 8}-${k % 8 * 8 + 5}`).join();
  const others = Array.from({ length: 4000 }, () => ({ kind: "place", level: "1", shape }));
  page.replaceStrokes([...board.strokes.values()], others);
  assert.deepEqual([sent.length, kept.size], [0, 0]);
  assert.match(said.at(-1), /4 MiB/);
});

// ---- The shadow ----

const holds = (x, y) => x >= 0 && x < board.width && y >= 0 && y < board.height;

function slowGrowth(mask, runs, threshold, conn) {
  const found = new Set(), todo = [...pixelsOf(runs)];
  while (todo.length > 0) {
    const pixel = todo.pop(), x = pixel % board.width, y = Math.floor(pixel / board.width);
    if (found.has(pixel) || mask[pixel] < threshold) continue;
    found.add(pixel);
    if (x > 0) todo.push(pixel - 1);
    if (x + 1 < board.width) todo.push(pixel + 1);
    if (y > 0) todo.push(pixel - board.width);
    if (y + 1 < board.height) todo.push(pixel + board.width);
    for (const down of conn === 8 ? [-1, 1] : []) {
      for (const across of [-1, 1]) if (holds(x + across, y + down)) todo.push(pixel + across + down * board.width);
    }
  }
  return found;
}

function placesToPixels({ places, count, left, top, width }) {
  return Array.from(places.subarray(0, count), place => {
    return (top + Math.floor(place / width)) * board.width + left + place % width;
  });
}

test("the shadow is what can be reached over a mask of the threshold", () => {
  const below = numbersFrom(41), { margin } = page.GROWN;
  for (let round = 0; round < 300; round++) {
    const mask = Uint8Array.from({ length: 64 * 48 }, () => below(10)), runs = page.runsOf(someRows(below));
    const threshold = 1 + below(6);
    page.GROWN.margin = round % 2 === 0 ? margin : 3;
    const conn = round % 3 === 0 ? 8 : 4, grown = page.grow({ ...board, mask }, runs, threshold, { conn });
    const whole = slowGrowth(mask, runs, threshold, conn), found = placesToPixels(grown);
    assert.equal(new Set(found).size, found.length);
    if (grown.isWhole) sameSet(found, whole);
    else assert.ok(page.GROWN.margin === 3 && found.length < whole.size && found.every(pixel => whole.has(pixel)));
  }
  page.GROWN.margin = margin;
});

test("the shadow ends at its bound, with the nearest pixels, and says so", () => {
  const mask = new Uint8Array(64 * 48).fill(9), runs = [{ y: 20, first: 30, last: 32 }];
  const grown = page.grow({ ...board, mask }, runs, 5, { most: 100 });
  assert.ok(!grown.isWhole && grown.count >= 103 && grown.count <= 107);
  for (const pixel of placesToPixels(grown)) {
    const x = pixel % 64, y = Math.floor(pixel / 64);
    assert.ok(Math.abs(y - 20) + Math.max(30 - x, x - 32, 0) <= 8);
  }
  const late = page.grow({ ...board, mask: new Uint8Array(64 * 48).fill(9) }, runs, 5, { until: -1 });
  assert.ok(late.isWhole, "a small picture is whole before the time is looked at");
  assert.equal(page.grow({ ...board, mask }, [], 5), null);
});

// ---- Colours of authors ----

// What is left of red, green and blue, as they shine, for those who see no red, and no green (Machado et al. 2009).
const BLIND = {
  red: [[.152286, 1.052583, -.204868], [.114503, .786281, .099216], [-.003882, -.048116, 1.051998]],
  green: [[.367322, .860646, -.227968], [.280085, .672501, .047413], [-.011820, .042940, .968881]],
};

const shining = part => part <= 10.31475 ? part / 255 / 12.92 : ((part / 255 + .055) / 1.055) ** 2.4;

/** Lightness, and two axes of hue (CIELAB, white at D65). */
function labOf(linear) {
  const toXYZ = [[.4124564, .3575761, .1804375], [.2126729, .7151522, .0721750], [.0193339, .1191920, .9503041]];
  const [x, y, z] = toXYZ.map((row, k) => {
    const value = row.reduce((sum, part, j) => sum + part * linear[j], 0) / [.95047, 1, 1.08883][k];
    return value > .008856 ? Math.cbrt(value) : 7.787 * value + 16 / 116;
  });
  return [116 * y - 16, 500 * (x - y), 200 * (y - z)];
}

function seenAs(colour, blindness) {
  const linear = colour.map(shining), rows = BLIND[blindness] ?? [[1, 0, 0], [0, 1, 0], [0, 0, 1]];
  return labOf(rows.map(row => Math.min(1, Math.max(0, row.reduce((sum, part, k) => sum + part * linear[k], 0)))));
}

test("the colours of authors can be told apart, also by who sees no red or no green", () => {
  const colours = page.COLOURS.slice(1);
  for (const blindness of ["none", "red", "green"]) {
    colours.forEach((one, k) => colours.slice(k + 1).forEach(other => {
      const [seen, seenToo] = [one, other].map(colour => seenAs(colour, blindness));
      const distance = Math.hypot(...seen.map((part, j) => part - seenToo[j]));
      assert.ok(distance > 15, `${blindness}: ${one} and ${other} are ${distance.toFixed(1)} apart`);
    }));
  }
});
