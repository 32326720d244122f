"use strict";

// Tests of page/conversation.js: what the page asks for while an image grows. The page around it is a plain stand-in.
//   node page/tests/conversation_test.js

const assert = require("node:assert/strict");
const { readFileSync } = require("node:fs");
const { join } = require("node:path");
const { test } = require("node:test");

const TEXTS = ["boxes.js", "conversation.js"].map(script => readFileSync(join(__dirname, "..", script), "utf8"));
const SIDE = 1 << 10, NUMBERS_ALONE = "changes?run=7&since=1000000000000000000";

/** The bytes of an answer: its numbers, and the samples of the first rows of the image, if any. */
function answer(step, isQuiet, rows = 0, value = 0, { run = "7", tilesLeft = isQuiet ? 0 : 9 } = {}) {
  const lines = [`${run} 1 ${step} ${isQuiet ? 1 : 0} ${tilesLeft}`];
  if (rows > 0) lines.push(`0 0 ${SIDE} ${rows}`);
  const text = Buffer.from(`${lines.join("\n")}\n\n`);
  return Buffer.concat([text, Buffer.alloc(SIDE * rows, value)]);
}

/** A page over an image that grows, and what it asks for; a request takes `pace` milliseconds of its clock. */
function newPage() {
  const page = { asked: [], answers: [], outbox: [], now: 1000, pace: 0, cleared: 0 };
  page.board = { isOpen: true, isQuiet: true, run: "7", step: "1", tilesLeft: 0, width: SIDE, maxval: 255,
    image: new Uint8Array(SIDE * SIDE * 2), strokes: new Map() };
  const around = {
    board: page.board, outbox: page.outbox, timings: [], performance: { now: () => page.now },
    request: async path => {
      page.asked.push(path);
      page.now += page.pace;
      return { status: 200, bytes: page.answers.shift() };
    },
    bytesOf: ({ bytes }) => bytes, readSamples: (samples, place, count) => samples.subarray(place, place + count),
    fetchBytes: async () => [], readImage: bytes => bytes, isSameMask: () => true,
    clearBoard: () => page.cleared++, dropEdit: () => page.outbox.shift(), say() {}, soil() {}, sayPixel() {},
    noteNews() {}, redrawOverlay() {}, sayBoard() {},
  };
  const text = [...TEXTS, "return { exchange };"].join("\n");
  Object.assign(page, new Function(...Object.keys(around), text)(...Object.values(around)));
  return page;
}

const WITHDRAWAL = { path: "edits", body: "withdraw a\n", withdrawn: ["a"], begun: 0, subject: "" };
const STROKE = { path: "edits", body: "disc a 9 1:1+2\n", withdrawn: [], begun: 0, subject: "" };

/** One exchange with these answers; gives what was asked for last. */
async function exchange(page, ...answers) {
  const { length } = page.asked;
  page.answers.push(...answers);
  await page.exchange();
  assert.equal(page.asked.length, length + answers.length);
  return page.asked.at(-1);
}

test("behind few samples the page asks for more of them at once", async () => {
  const page = newPage();
  assert.equal(await exchange(page, answer(2, false, 10, 3)), "changes?run=7&since=1");
  assert.equal(await exchange(page, answer(3, true, 10, 4)), "changes?run=7&since=2");
  assert.equal(page.board.image[0], 4);
});

test("behind many samples it asks for numbers alone until all has grown, and then for all samples", async () => {
  const page = newPage();
  await exchange(page, answer(2, false, SIDE, 3));
  assert.equal(await exchange(page, answer(5, false)), NUMBERS_ALONE);
  assert.equal(page.board.tilesLeft, 9);
  assert.ok(!page.board.isQuiet && page.board.step === "2");
  assert.equal(await exchange(page, answer(8, true), answer(8, true, SIDE, 7)), "changes?run=7&since=2");
  assert.equal(page.asked.at(-2), NUMBERS_ALONE);
  assert.equal(page.board.image[0], 7);
  assert.ok(page.board.isQuiet);
  assert.equal(await exchange(page, answer(8, true)), "changes?run=7&since=8");
});

test("it asks for samples again before all has grown, once it has waited for them", async () => {
  const page = newPage();
  await exchange(page, answer(2, false, SIDE, 3));
  page.now += 99;
  assert.equal(await exchange(page, answer(5, false)), NUMBERS_ALONE);
  page.now += 1;
  assert.equal(await exchange(page, answer(6, false, SIDE, 5)), "changes?run=7&since=2");
  assert.equal(await exchange(page, answer(7, false)), NUMBERS_ALONE);
});

test("an image that has grown whole is not waited for", async () => {
  const page = newPage();
  await exchange(page, answer(2, true, SIDE, 3));
  assert.equal(await exchange(page, answer(2, true)), "changes?run=7&since=2");
});

test("a program that was started anew is noticed by its numbers", async () => {
  const page = newPage();
  await exchange(page, answer(2, false, SIDE, 3));
  const numbers = answer(1, false, 0, 0, { run: "8" }), whole = answer(1, true, SIDE, 1, { run: "8" });
  assert.equal(await exchange(page, numbers, whole), "changes?run=7&since=2");
  assert.equal(page.asked.at(-2), NUMBERS_ALONE);
  assert.equal(page.cleared, 1);
});

test("the answer to a stroke brings what is new", async () => {
  const page = newPage();
  page.outbox.push(STROKE);
  assert.equal(await exchange(page, answer(2, false, 10, 3)), "edits?run=7&since=1");
  assert.equal(page.board.image[0], 3);
  assert.deepEqual(page.outbox, []);
});

test("what is new behind a withdrawal is asked for, at once where little is left to grow", async () => {
  const page = newPage();
  page.outbox.push(WITHDRAWAL);
  await exchange(page, answer(2, false), answer(3, false, 10, 3));
  assert.deepEqual(page.asked, ["edits?run=7&since=1000000000000000000", "changes?run=7&since=1"]);
  assert.equal(page.board.step, "3");
  assert.deepEqual(page.outbox, []);
});

test("where much is left to grow behind a withdrawal, it is asked for once all has grown", async () => {
  const page = newPage(), much = answer(2, false, 0, 0, { tilesLeft: 4096 });
  page.outbox.push(WITHDRAWAL);
  await exchange(page, much, answer(3, false), answer(4, true), answer(4, true, SIDE, 7));
  const asked = ["edits?run=7&since=1000000000000000000", NUMBERS_ALONE, NUMBERS_ALONE, "changes?run=7&since=1"];
  assert.deepEqual(page.asked, asked);
  assert.ok(page.board.isQuiet && page.board.image[0] === 7);
});

test("behind a withdrawal it waits for a tenth of a second at most, and not where another edit waits", async () => {
  const slow = newPage(), busy = newPage(), much = answer(2, false, 0, 0, { tilesLeft: 4096 });
  slow.pace = 60;
  slow.outbox.push(WITHDRAWAL);
  assert.equal(await exchange(slow, much, answer(3, false), answer(4, false), answer(5, false, SIDE, 7)),
    "changes?run=7&since=1");
  busy.outbox.push(WITHDRAWAL, STROKE);
  assert.equal(await exchange(busy, much, answer(3, false, SIDE, 7)), "changes?run=7&since=1");
  assert.deepEqual(busy.outbox, [STROKE]);
});
