"use strict";

// Tests of what page/exports.js and its encoders promise; tools/test_exports_page.py reads whole files with other
// programs:  node page/tests/exports_test.js

const assert = require("node:assert/strict");
const { test } = require("node:test");
const { inflateSync } = require("node:zlib");
const { load } = require("./load.js");

const { SLICE_BYTES, checkSumOf, cocoParts, countsOfRuns, editParts, field, harmless, pgmParts, pngParts,
  sizeInWords, spelledCounts, stemOf, tableParts, tiffParts,
} = load(["png.js", "tiff.js", "tables.js", "coco.js", "copies.js", "exports.js"],
  ["SLICE_BYTES", "checkSumOf", "cocoParts", "countsOfRuns", "editParts", "field", "harmless",
    "pgmParts", "pngParts", "sizeInWords", "spelledCounts", "stemOf", "tableParts", "tiffParts"]);

const nameOf = number => `Class ${number}`;
const tagOf = number => `00000000-0000-4000-e000-${number.toString(16).padStart(12, "0")}`;
const objectsUpTo = count => Array.from({ length: count }, (_, k) => {
  return { number: k + 1, gesture: "", tag: tagOf(k + 1), inClass: 1 + k % 3, strokes: 1 + k };
});

async function partsOf(parts) {
  const all = [];
  for await (const each of parts) all.push(each);
  return all;
}

const textOf = parts => parts.map(({ part }) => part).join("");

/** A labelling of blocks, and all files of it. */
function everyFile(width, height) {
  const numbers = Uint16Array.from({ length: width * height }, (_, k) => (k >> 4) % 7), objects = objectsUpTo(6);
  const labelling = { width, height, numbers, objects }, samples = numbers, size = { width, height };
  return { png: () => pngParts({ ...size, samples, bits: 16 }), tiff: () => tiffParts({ ...size, samples, bits: 16 }),
    wide: () => tiffParts({ ...size, samples, bits: 32 }), table: () => tableParts(labelling, numbers, nameOf),
    coco: () => cocoParts(labelling, "a.png", nameOf), pgm: () => pgmParts({ ...size, maxval: 4095, samples }) };
}

test("the check sum is CRC-32", () => {
  assert.equal(checkSumOf(new TextEncoder().encode("123456789")), 0xcbf43926);
  assert.equal(checkSumOf(new Uint8Array(0)), 0);
  assert.equal(checkSumOf(new TextEncoder().encode("IEND")), 0xae426082);
});

test("a PNG of one pixel, byte by byte", async () => {
  const parts = await partsOf(pngParts({ width: 1, height: 1, samples: Uint16Array.of(0x1234), bits: 16 }));
  const bytes = Buffer.concat(parts.map(({ part }) => part)), pieces = [];
  assert.equal(bytes.subarray(0, 8).toString("latin1"), "\x89PNG\r\n\x1a\n");
  assert.equal(bytes.subarray(8, 33).toString("hex"), "0000000d49484452000000010000000110000000006aee4716");
  let place = 33;
  for (; bytes.subarray(place + 4, place + 8).toString() === "IDAT"; place += 12 + bytes.readUInt32BE(place)) {
    pieces.push(bytes.subarray(place + 8, place + 8 + bytes.readUInt32BE(place)));
  }
  assert.deepEqual([...inflateSync(Buffer.concat(pieces))], [2, 0x12, 0x34]);
  assert.equal(bytes.subarray(place).toString("hex"), "0000000049454e44ae426082");
});

test("shares of the work rise to 1, and no part is long, but for a label's run lengths", async () => {
  for (const [width, height] of [[1, 1], [700, 400], [16384, 13], [1, 9000]]) {
    for (const [name, parts] of Object.entries(everyFile(width, height))) {
      const all = await partsOf(parts());
      all.forEach(({ share, part }, k) => {
        assert.ok(share >= (all[k - 1]?.share ?? 0) && share <= 1, `${name} of ${width} by ${height}: ${share}`);
        assert.ok(name === "coco" || part.length <= 4 * SLICE_BYTES, `${name}: a part of ${part.length}`);
      });
      assert.equal(all.at(-1).share, 1, name);
    }
  }
});

test("what is stopped in its midst ends at once", async () => {
  for (const parts of Object.values(everyFile(2000, 1000))) {
    for await (const { share } of parts()) if (share > .3) break;
  }
});

test("labels above what 16 bits hold stay as they are in 32", async () => {
  const samples = Uint32Array.of(0, 65535, 65536, 4294967295);
  const parts = await partsOf(tiffParts({ width: 4, height: 1, samples, bits: 32 }));
  assert.deepEqual([...new Uint32Array(parts.at(-1).part.buffer)], [...samples]);
});

test("fields are quoted where they have to be, and no spreadsheet takes a name for a formula", () => {
  assert.deepEqual(["plain name", 'a "b"', "a,b", "a\nb", ""].map(field),
    ["plain name", '"a ""b"""', '"a,b"', '"a\nb"', ""]);
  for (const name of ["=1+2", "+1", "-1", "@SUM(A1)", "\t=1", " =1", "\uff1d1"]) {
    assert.equal(harmless(name), `'${name}`);
  }
  for (const name of ["Cells", "a=b", "1-2", "", "'"]) assert.equal(harmless(name), name);
});

test("a table by hand", async () => {
  const numbers = Uint16Array.of(0, 1, 1, 3, 0, 1, 3, 3), mask = Uint8Array.of(9, 1, 2, 3, 9, 6, 50, 7);
  const labelling = { width: 4, height: 2, numbers, objects: objectsUpTo(4) };
  assert.equal(textOf(await partsOf(tableParts(labelling, mask, nameOf))), [
    "label,stroke,area,left,top,right,bottom,mean,class,name,strokes,x,y,min,max",
    `1,${tagOf(1)},3,1,0,2,1,3.000,1,Class 1,1,1.333,0.333,1,6`,
    `3,${tagOf(3)},3,2,0,3,1,20.000,3,Class 3,3,2.667,0.667,3,50`, ""].join("\n"));
});

test("counts of run lengths, and how they are spelled", () => {
  assert.deepEqual(countsOfRuns([0, 4], 4), [0, 4]);
  assert.deepEqual(countsOfRuns([1, 3, 5, 6], 10), [1, 2, 2, 1, 4]);
  const cases = [["T3", [100]], ["0T3", [0, 100]], ["?", [15]], ["`0", [16]], ["n0", [30]], ["P1", [32]],
    ["1520", [1, 5, 2, 5]], ["234N", [2, 3, 4, 1]], ["1`01@", [1, 16, 1, 0]], ["1a01_O", [1, 17, 1, 0]]];
  for (const [text, counts] of cases) assert.equal(spelledCounts(counts), text);
});

test("COCO's JSON by hand: a run goes on from column to column, and classes of one name are told apart", async () => {
  const numbers = Uint16Array.of(0, 1, 2, 1, 1, 2), objects = objectsUpTo(4);
  const parts = await partsOf(cocoParts({ width: 3, height: 2, numbers, objects }, "a.png", () => "Cell"));
  assert.deepEqual(JSON.parse(textOf(parts)), {
    info: { description: "Labels of Seedpaint" }, licenses: [],
    images: [{ id: 1, file_name: "a.png", width: 3, height: 2 }],
    categories: [1, 2, 3].map(id => ({ id, name: `Cell (${id})`, supercategory: "" })),
    annotations: [
      { id: 1, image_id: 1, category_id: 1, iscrowd: 0, area: 3, bbox: [0, 0, 2, 2],
        segmentation: { size: [2, 3], counts: "132" } },
      { id: 2, image_id: 1, category_id: 2, iscrowd: 0, area: 2, bbox: [2, 0, 1, 2],
        segmentation: { size: [2, 3], counts: "42" } },
    ],
  });
});

test("strokes as lines, by tag, behind the line that tells their mask", async () => {
  const strokes = [3, 1, 2].map(number => ({ kind: "disc", tag: tagOf(number), level: "7", shape: "1:2+3" }));
  assert.equal(textOf(await partsOf(editParts(strokes, "ab"))), ["; edits for the mask ab",
    ...[1, 2, 3].map(number => `disc ${tagOf(number)} 7 1:2+3`), ""].join("\n"));
  assert.equal(textOf(await partsOf(editParts([], "ab"))), "; edits for the mask ab\n");
});

test("names of files", () => {
  const cases = [["cells.png", "cells"], ["my cells.TIFF", "my cells"], ["plate 3.v2", "plate 3.v2"],
    ["a/b\\c:d", "a_b_c_d"], ["../x.pgm", "_x"], [".png", "mask"], ["\u0000", "_"], ["Zellkörper.jpeg", "Zellkörper"]];
  for (const [name, stem] of cases) assert.equal(stemOf(name), stem, name);
  assert.deepEqual([0, 1, 999, 1000, 1001, 2.34e6].map(sizeInWords),
    ["0 kB", "1 kB", "1 kB", "1 kB", "2 kB", "2.3 MB"]);
});
