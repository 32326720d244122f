"use strict";

// Tests of page/labelling.js, labels_worker.js and labels_panel.js:  node page/tests/labels_test.js
// (tools/test_labels_page.py compares labels with those of labels_from_result.py.)

const assert = require("node:assert/strict");
const { test } = require("node:test");
const { load } = require("./load.js");

const { changeScene, labelling, newScene, putSamples, workerText } = load(["labelling.js", "labels_worker.js"],
  ["changeScene", "labelling", "newScene", "putSamples", "workerText"]);

const BY_LEVEL = { kind: "level", level: 5, conn: 4, isCut: false };

/** A stroke on runs, each a row, a first and a last column; its gesture is the start of its tag. */
function strokeOf(tag, level, ...runs) {
  return { tag, gesture: tag.slice(0, 1), inClass: 1, level, runs: Int32Array.from(runs) };
}

function sceneOf(width, rows, strokes) {
  const samples = Uint8Array.from(rows.flat()), scene = newScene(width, rows.length, samples, samples.slice());
  changeScene(scene, strokes);
  return scene;
}

/** What a worker answers, one message after the other. */
function answersOf(...messages) {
  const answers = [], self = { listener: null };
  const put = answer => answers.push(answer), listen = (kind, listener) => { self.listener = listener; };
  new Function("postMessage", "addEventListener", workerText())(put, listen);
  for (const data of messages) self.listener({ data });
  return answers;
}

test("a gesture is one object, and objects are numbered by their least tags", () => {
  const strokes = [strokeOf("b1", 9, 0, 4, 4), strokeOf("a2", 9, 0, 2, 2), strokeOf("a1", 9, 0, 0, 0)];
  const { numbers, objects, areas } = labelling(sceneOf(5, [[9, 0, 9, 0, 9]], strokes), BY_LEVEL);
  assert.deepEqual([...numbers], [1, 0, 1, 0, 2]);
  assert.deepEqual(objects.map(({ number, tag, strokes: count }) => [number, tag, count]), [[1, "a1", 2], [2, "b1", 1]]);
  assert.deepEqual([...areas], [0, 2, 1]);
});

test("objects that meet are joined under the first, or cut, and the middle is the first one's", () => {
  const scene = sceneOf(5, [[9, 9, 9, 9, 9]], [strokeOf("b1", 9, 0, 0, 0), strokeOf("a1", 9, 0, 4, 4)]);
  assert.deepEqual([...labelling(scene, BY_LEVEL).numbers], [1, 1, 1, 1, 1]);
  assert.deepEqual([...labelling(scene, { ...BY_LEVEL, isCut: true }).numbers], [2, 2, 1, 1, 1]);
});

test("a share goes by the object that lights a pixel", () => {
  const scene = sceneOf(5, [[200, 60, 10, 30, 40]], [strokeOf("a1", 255, 0, 0, 0), strokeOf("b1", 255, 0, 4, 4)]);
  const byShare = share => [...labelling(scene, { kind: "share", share, conn: 4, isCut: false }).numbers];
  assert.deepEqual(byShare(.5), [1, 0, 0, 2, 2]);
  assert.deepEqual(byShare(.3), [1, 1, 0, 2, 2]);
  assert.deepEqual(byShare(.75), [1, 0, 0, 2, 2]);
  assert.deepEqual(byShare(.76), [1, 0, 0, 0, 2]);
});

test("regions over corners with 8 neighbours alone, and never over the sides of the picture", () => {
  const scene = sceneOf(3, [[9, 0, 0], [0, 9, 9], [9, 0, 0]], [strokeOf("a1", 9, 0, 0, 0), strokeOf("b1", 9, 1, 1, 1)]);
  assert.equal(labelling(scene, BY_LEVEL).lonely, 1);
  assert.deepEqual([...labelling(scene, BY_LEVEL).numbers], [1, 0, 0, 0, 2, 2, 0, 0, 0]);
  assert.deepEqual([...labelling(scene, { ...BY_LEVEL, conn: 8 }).numbers], [1, 0, 0, 0, 1, 1, 1, 0, 0]);
});

test("without a stroke there is no label", () => {
  const scene = sceneOf(2, [[0, 0]], []);
  assert.deepEqual([...labelling(scene, BY_LEVEL).numbers], [0, 0]);
  assert.deepEqual([...labelling(scene, { kind: "share", share: .5, conn: 8, isCut: true }).numbers], [0, 0]);
});

test("a worker has all that it needs: it follows the news, and answers each choice", () => {
  const mask = Uint8Array.from([9, 9, 0, 9]), opening = { width: 4, height: 1, mask };
  const whole = { left: 0, top: 0, right: 4, bottom: 1, samples: Uint8Array.from([9, 9, 0, 0]) };
  const part = { left: 3, top: 0, right: 4, bottom: 1, samples: Uint8Array.from([7]) };
  const one = strokeOf("a1", 9, 0, 0, 0), other = strokeOf("b1", 7, 0, 3, 3);
  const choices = [4, 8].flatMap(conn => ["share", "level"].map(kind => {
    return { kind, share: .5, level: 3, conn, isCut: true };
  }));
  const answers = answersOf({ opening }, { news: { boxes: [whole], came: [one], gone: [], isAnew: true } },
    ...choices.map(choice => ({ choice })), { news: { boxes: [part], came: [other], gone: [] }, choice: choices[0] },
    { news: { boxes: [], came: [], gone: ["a1"] }, choice: choices[1] });
  const found = answers.map(({ labels, fault }) => fault ?? [...labels.numbers].join(" "));
  assert.deepEqual(found, [...choices.map(() => "1 1 0 0"), "1 1 0 2", "0 0 0 1"]);
});

/** Numbers below a bound, the same at each run. */
function numbersFrom(seed) {
  let state = seed;
  return bound => {
    state = (Math.imul(state, 1664525) + 1013904223) >>> 0;
    return Math.floor(state / 2 ** 32 * bound);
  };
}

/** What strokes grow into, step by step from neighbour to neighbour. */
function grown({ width, height, mask }, strokes, conn) {
  const result = mask.slice().fill(0), places = [...result.keys()];
  for (const { level, runs: [y, first, last] } of strokes) {
    for (let x = first; x <= last; x++) {
      result[y * width + x] = Math.max(result[y * width + x], Math.min(level, mask[y * width + x]));
    }
  }
  const areNear = (one, other) => {
    const across = Math.abs(one % width - other % width);
    const down = Math.abs(Math.floor(one / width) - Math.floor(other / width));
    return across + down === 1 || conn === 8 && across === 1 && down === 1;
  };
  for (let isDone = false; !isDone;) {
    isDone = true;
    for (const place of places) {
      const near = places.filter(other => areNear(place, other)), light = Math.max(0, ...near.map(k => result[k]));
      if (Math.min(light, mask[place]) <= result[place]) continue;
      result[place] = Math.min(light, mask[place]);
      isDone = false;
    }
  }
  return result;
}

/** Gives a scene some strokes, and what they grow into, as one box. */
function strokeAtRandom(scene, below, conn) {
  const { width, height } = scene, strokes = Array.from({ length: 1 + below(5) }, (_, k) => {
    const first = below(width), y = below(height);
    return strokeOf(`${k}${below(2)}`, 1 + below(200), y, first, Math.min(first + below(9), width - 1));
  });
  putSamples(scene, { left: 0, top: 0, right: width, bottom: height, samples: grown(scene, strokes, conn) });
  changeScene(scene, strokes);
}

test("what is kept of a labelling changes none that follows", () => {
  const below = numbersFrom(11);
  for (let round = 0; round < 60; round++) {
    const width = 1 + below(40), height = 1 + below(9), conn = below(2) === 0 ? 4 : 8, isFlat = below(2) === 0;
    const mask = Uint8Array.from({ length: width * height }, () => isFlat ? 60 * below(4) : below(200));
    const scene = newScene(width, height, mask, mask.slice().fill(0));
    scene.mostShared = below(2) === 0 ? 0 : scene.mostShared;
    for (let step = 0; step < 12; step++) {
      if (step % 4 === 0) strokeAtRandom(scene, below, conn);
      const kind = below(2) === 0 ? "share" : "level", isCut = below(2) === 0;
      const choice = { kind, share: (1 + below(100)) / 100, level: 1 + below(160), conn, isCut };
      const anew = newScene(width, height, mask, scene.result.slice());
      anew.seeds = scene.seeds;
      const { numbers, areas, lonely, runs } = labelling(scene, choice);
      const { numbers: expected, areas: areasAnew, lonely: lonelyAnew } = labelling(anew, choice);
      assert.deepEqual([[...numbers], [...areas], lonely], [[...expected], [...areasAnew], lonelyAnew]);
      scene.spare = { numbers, runs };
    }
  }
});

test("what a worker cannot do it says", () => {
  assert.match(answersOf({ choice: BY_LEVEL })[0].fault, /Error/);
});

test("a choice that was kept is read again, and nothing else is", () => {
  const { readLabelChoice } = load(["basics.js", "classes.js", "contrast.js", "labels_panel.js"], ["readLabelChoice"]);
  const kept = { kind: "share", share: .25, level: 300, isCut: true, areOwn: false };
  assert.deepEqual(readLabelChoice(JSON.stringify(kept), 65535), kept);
  const others = [{ kind: "other" }, { share: 0 }, { share: 1.5 }, { level: 0 }, { level: 1.5 }, { isCut: 1 },
    { areOwn: null }];
  for (const other of others) assert.equal(readLabelChoice(JSON.stringify({ ...kept, ...other }), 65535), null);
  assert.equal(readLabelChoice(JSON.stringify(kept), 255), null);
  for (const text of [null, "", "[]", "{", "7"]) assert.equal(readLabelChoice(text, 255), null);
});
