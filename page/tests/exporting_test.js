"use strict";

// Tests of how page/exports.js makes a file, or says why not, with a page of nothing but what it asks for:
//   node page/tests/exporting_test.js

const assert = require("node:assert/strict");
const { readFileSync } = require("node:fs");
const { join } = require("node:path");
const { test } = require("node:test");

const SCRIPTS = ["behind.js", "png.js", "tiff.js", "tables.js", "coco.js", "copies.js", "exports.js"];
const PAGE = `
  const elements = new Map(), said = [], files = [];
  const element = id => {
    if (!elements.has(id)) elements.set(id, { id, value: "", hidden: true, placeholder: "mask-01234567.pgm" });
    return elements.get(id);
  };
  const say = text => said.push(text), sayFault = text => said.push("fault: " + text), sayIn = () => {};
  const silence = { failures: 0 }, waiting = [], waitingBodies = () => waiting, reported = [];
  const reportError = fault => reported.push(fault.message);
  class Unanswered extends Error {}
  const program = { labelling: null, state: new Uint8Array([1, 2, 3]) };
  const currentLabelling = async () => program.labelling();
  const fetchBytes = async () => { if (!program.state) throw new Unanswered("status 0"); return program.state; };
  const classes = { get: number => ({ name: "Class " + number }) };
  const board = { isOpen: true, isQuiet: true, width: 40, height: 30, maxval: 255, fingerprint: "ab".repeat(16),
    mask: new Uint8Array(1200), image: new Uint8Array(1200).fill(7), strokes: new Map() };
`;
const STROKE = { kind: "disc", tag: "t", level: "7", shape: "1:2+3" };

/** A page whose files come into an array, and what it says into another one. */
function openPage() {
  const texts = SCRIPTS.map(script => readFileSync(join(__dirname, "..", script), "utf8"));
  const names = "element, said, files, silence, waiting, reported, program, board, exporting, exportFile, Unanswered";
  const page = new Function([PAGE, ...texts, `giveFile = (name, file) => files.push({ name, file });`,
    `return { ${names} };`].join("\n"))();
  page.board.strokes.set("t", STROKE);
  page.program.labelling = () => labellingOf(new Uint16Array(1200).fill(3, 100, 110), 3);
  return page;
}

function labellingOf(numbers, number) {
  const areas = new Uint32Array(number + 1);
  for (const each of numbers) areas[each]++;
  areas[0] = 0;
  return { width: 40, height: 30, numbers, areas,
    objects: [{ number, gesture: "", tag: "t", inClass: 1, strokes: 1 }] };
}

test("each button gives a file, and the foot says so", async () => {
  const page = openPage();
  page.element("pictureName").value = "my cells.png";
  for (const [id, ending] of [["exportLabelsPng", "-labels.png"], ["exportLabelsTiff", "-labels.tif"],
    ["exportLabelsTiff32", "-labels-32.tif"], ["exportTable", "-labels.csv"], ["exportCoco", "-coco.json"],
    ["exportResultPgm", "-result.pgm"], ["exportResultPng", "-result.png"], ["exportStrokes", "-strokes.txt"],
    ["exportState", ".spd"]]) {
    await page.exportFile(id);
    assert.equal(page.files.at(-1).name, `my cells${ending}`);
    assert.match(page.said.at(-1), /^my cells[-\w.]+ is there: \d kB\.$/);
    assert.equal(page.exporting.name, "");
  }
  assert.equal(await page.files.at(-2).file.text(), `; edits for the mask ${"ab".repeat(16)}\ndisc t 7 1:2+3\n`);
  page.waiting.push("an edit");
  await page.exportFile("exportState");
  assert.match(page.said.at(-1), / is there: 1 kB; edits that are not kept yet, and not in it: 1\.$/);
});

test("what cannot be made is said, and no file comes", async () => {
  const said = async (id, change) => {
    const page = openPage();
    change(page);
    await page.exportFile(id);
    assert.deepEqual([page.files.length, page.reported.length, page.exporting.name], [0, 0, ""]);
    return page.said.at(-1);
  };
  const fail = fault => page => { page.program.labelling = () => { throw fault; }; };
  const many = page => { page.program.labelling = () => labellingOf(new Uint32Array(1200).fill(70000), 70000); };
  assert.match(await said("exportTable", page => page.board.strokes.clear()), /^fault: .*no stroke is kept/);
  assert.match(await said("exportLabelsPng", many), /^fault: .*go up to 70000.*TIFF of 32 bits/);
  assert.match(await said("exportLabelsTiff", many), /^fault: .*go up to 70000.*TIFF of 32 bits/);
  assert.match(await said("exportCoco", fail(new RangeError("Array buffer allocation failed"))), /no memory/);
  assert.match(await said("exportState", page => { page.program.state = null; }), /does not answer/);
  assert.match(await said("exportTable", page => {
    page.program.labelling = () => labellingOf(new Uint16Array(1200), 3);
  }), /lower the level or share/);
  assert.match(await said("exportResultPng", page => {
    page.board.isQuiet = false;
    page.silence.failures = 1;
  }), /does not answer/);
  assert.match(await said("exportResultPng", page => { page.board.isOpen = false; }), /nothing to export/);
});

test("labels above 65535 go into a TIFF of 32 bits", async () => {
  const page = openPage();
  page.program.labelling = () => labellingOf(new Uint32Array(1200).fill(70000), 70000);
  await page.exportFile("exportLabelsTiff32");
  const bytes = Buffer.from(await page.files[0].file.arrayBuffer());
  assert.equal(bytes.readUInt32LE(bytes.length - 4), 70000);
});

test("a fault that nobody foresaw is said, too, and reported", async () => {
  const page = openPage();
  page.program.labelling = () => { throw new Error("something else"); };
  await page.exportFile("exportTable");
  assert.match(page.said.at(-1), /something else\. Nothing painted is lost\.$/);
  assert.deepEqual(page.reported, ["something else"]);
});

test("a file waits until the result is grown; meanwhile no other is begun, and it can be stopped", async () => {
  const page = openPage();
  page.board.isQuiet = false;
  const made = page.exportFile("exportResultPgm");
  await page.exportFile("exportTable");
  assert.match(page.said.at(-1), /^fault: mask-01234567-result\.pgm is being made/);
  page.exporting.isStopped = true;
  await made;
  assert.match(page.said.at(-1), /stopped/);
  const again = page.exportFile("exportResultPgm");
  page.board.isQuiet = true;
  await again;
  assert.equal(page.files.length, 1);
});
