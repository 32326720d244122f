"use strict";

// Tests of page/labels.js: what the worker is told, and when it is asked. The page around it is a plain stand-in.
//   node page/tests/labels_flow_test.js

const assert = require("node:assert/strict");
const { readFileSync } = require("node:fs");
const { join } = require("node:path");
const { test } = require("node:test");

const WIDTH = 600, HEIGHT = 3, BLOCK = 512;
const SCRIPTS = ["basics.js", "boxes.js", "labelling.js", "labels_worker.js", "labels.js"];
const NAMES = ["askLabels", "currentLabelling", "labels", "noteNews", "workerText"];
const TEXTS = SCRIPTS.map(script => readFileSync(join(__dirname, "..", script), "utf8"));

/** A worker in the same thread: it takes and gives copies, a moment later. */
function nearWorker(page) {
  const worker = { addEventListener() {}, terminate() { worker.onmessage = null; }, onmessage: null };
  const answer = data => setTimeout(() => worker.onmessage?.({ data: structuredClone(data) }));
  const listen = (_, take) => {
    worker.postMessage = (data, buffers) => {
      page.told.push(data);
      const sent = structuredClone(data, { transfer: buffers });
      setTimeout(() => take({ data: sent }));
    };
  };
  new Function("postMessage", "addEventListener", page.workerText())(answer, listen);
  return worker;
}

/** A page with a picture whose result is its mask, and no stroke yet; what it told workers, and said as faults. */
function newPage() {
  const mask = new Uint8Array(WIDTH * HEIGHT), page = { told: [], faults: [], isSilent: false };
  class Unanswered extends Error {}
  const fetchBytes = async () => {
    if (page.isSilent) throw new Unanswered();
    return Uint8Array.from([0, 9, 83, 80, 68, 50, 8]);
  };
  const boxes = [[0, BLOCK], [BLOCK, WIDTH]].map(([left, right]) => ({ left, top: 0, right, bottom: HEIGHT }));
  const blocks = boxes.map(box => ({ box }));
  page.board = { isOpen: true, isQuiet: true, run: "7", width: WIDTH, height: HEIGHT, fingerprint: "f", mask,
    image: mask.slice(), strokes: new Map() };
  const around = { board: page.board, blocks, view: { name: "labels" }, fetchBytes, Unanswered, sayLabels() {},
    Worker: function Worker() { return nearWorker(page); }, sayFault: text => page.faults.push(text),
    showLabelling: made => { page.labels.shown = made; } };
  const text = [...TEXTS, `return { ${NAMES.join(", ")} };`].join("\n");
  Object.assign(page, new Function(...Object.keys(around), text)(...Object.values(around)));
  page.labels.choice = { kind: "level", level: 5, share: .5, isCut: true, areOwn: false };
  return page;
}

/** A run of light in a row, with a stroke on it or without, and the line that tells of it. */
function light({ board }, tag, row, first, last) {
  for (const samples of [board.mask, board.image]) samples.fill(9, row * WIDTH + first, row * WIDTH + last + 1);
  const stroke = { tag, gesture: tag, inClass: 1, level: "9", runs: [{ y: row, first, last: first }] };
  board.strokes.set(tag, stroke);
  return { run: "7", rectangles: [{ left: first, top: row, right: last + 1, bottom: row + 1 }],
    edits: [`place ${tag} 9 ${row}:${first}-${first}`], isQuiet: true };
}

const pause = milliseconds => new Promise(resolve => setTimeout(resolve, milliseconds));
const places = labels => [...labels?.numbers ?? []].flatMap((number, place) => number > 0 ? [[number, place]] : []);

/** Waits until something holds, and for at most so many milliseconds. */
async function until(holds, most = 20000) {
  for (const end = performance.now() + most; !holds() && performance.now() < end;) await pause(10);
  assert.ok(holds(), String(holds));
}

test("the first question brings all, and further ones only what is new", async () => {
  const page = newPage();
  light(page, "b", 0, 10, 12);
  page.askLabels();
  await until(() => places(page.labels.shown).length > 0);
  assert.deepEqual(places(page.labels.shown), [[1, 10], [1, 11], [1, 12]]);
  assert.equal(page.labels.conn, 8);
  assert.equal(page.told[1].news.boxes.length, 2);
  page.noteNews(light(page, "a", 2, 598, 599));
  assert.equal(page.told.length, 2, "news rest for a while");
  await until(() => places(page.labels.shown).length === 5);
  assert.deepEqual(places(page.labels.shown), [[2, 10], [2, 11], [2, 12], [1, 1798], [1, 1799]]);
  const { boxes: [{ left, top, right, bottom, samples }], came } = page.told[2].news;
  assert.deepEqual([left, top, right, bottom, came.length], [598, 2, 600, 3, 1]);
  assert.equal(samples.length, 0, "samples are handed over, not copied");
});

test("a choice meanwhile is followed, and the last one counts", async () => {
  const page = newPage();
  light(page, "a", 1, 0, 3);
  for (const level of [9, 10, 5, 11, 9]) {
    page.labels.choice.level = level;
    page.askLabels();
  }
  await until(() => page.labels.asked === 0 && !page.labels.isWanted);
  assert.equal(places(page.labels.shown).length, 4);
  assert.equal(page.told.at(-1).choice.level, 9);
  assert.ok(page.told.length <= 3, "and those between them are passed over");
});

test("numbers of a labelling that was shown are used again, and never those that somebody was given", async () => {
  const page = newPage(), given = [];
  light(page, "a", 1, 0, 3);
  for (const [level, isGiven] of [[5, true], [10, false], [9, false], [10, true], [4, false], [10, false], [9, true]]) {
    page.labels.choice.level = level;
    if (isGiven) given.push([await page.currentLabelling(), level]);
    else page.askLabels();
    await until(() => page.labels.asked === 0 && !page.labels.isWanted);
    assert.equal(places(page.labels.shown).length, level < 10 ? 4 : 0, `level ${level}`);
  }
  for (const [made, level] of given) assert.equal(places(made).length, level < 10 ? 4 : 0);
  assert.ok(page.told.filter(({ spare }) => spare).length >= 2);
});

test("a labelling is waited for until the result is grown, and has the strokes of then", async () => {
  const page = newPage();
  page.board.isQuiet = false;
  light(page, "a", 1, 0, 3);
  let found = null;
  const waited = page.currentLabelling().then(made => { found = made; });
  await until(() => page.labels.shown);
  assert.equal(found, null);
  const news = light(page, "b", 2, 5, 6);
  page.noteNews(news);
  page.board.isQuiet = true;
  await waited;
  assert.deepEqual(found.objects.map(({ tag }) => tag), ["a", "b"]);
  assert.equal(places(found).length, 6);
});

test("behind a restart of the program all is told anew, and strokes that are gone have no label", async () => {
  const page = newPage();
  light(page, "a", 1, 0, 3);
  await page.currentLabelling();
  page.board.strokes.clear();
  page.board.image.fill(0);
  page.noteNews({ ...light(page, "c", 0, 7, 7), run: "8" });
  page.board.run = "8";
  const made = await page.currentLabelling();
  assert.deepEqual(made.objects.map(({ tag }) => tag), ["c"]);
  assert.deepEqual(places(made), [[1, 7]]);
});

test("a worker that fails is said, who waits is told, and the next question begins with another", async () => {
  const page = newPage();
  light(page, "a", 1, 0, 3);
  page.labels.choice = { kind: "share", share: .5, get isCut() { throw new Error("no"); } };
  await assert.rejects(page.currentLabelling());
  assert.equal(page.faults.length, 1);
  page.labels.choice = { kind: "share", share: .5, isCut: false };
  assert.equal(places(await page.currentLabelling()).length, 4);
});

test("while the program is silent there is no fault, and labels come once it answers", async () => {
  const page = newPage();
  light(page, "a", 1, 0, 3);
  page.isSilent = true;
  page.askLabels();
  await pause(50);
  const { shown } = page.labels;
  page.isSilent = false;
  await until(() => places(page.labels.shown).length === 4);
  assert.equal(shown, null);
  assert.deepEqual(page.faults, []);
});
