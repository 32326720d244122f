"use strict";

// Writes files of made-up labellings, for tools that read them back:  node page/tests/write_files.js FOLDER
//
// Each NAME.case of the folder is JSON: width, height, the bits of the numbers, the maxval of the mask, objects, the
// names of classes, and strokes. NAME.numbers and NAME.mask have the samples, little endian. Beside them come NAME.png,
// NAME.16.tif, NAME.32.tif, NAME.csv, NAME.json, NAME.pgm and NAME.mask.png of the mask, and NAME.txt.

const { readFileSync, readdirSync, writeFileSync } = require("node:fs");
const { join } = require("node:path");
const { load } = require("./load.js");

const { pngParts, tiffParts, tableParts, cocoParts, pgmParts, editParts } = load(
  ["png.js", "tiff.js", "tables.js", "coco.js", "copies.js"],
  ["pngParts", "tiffParts", "tableParts", "cocoParts", "pgmParts", "editParts"]);

const ARRAYS = { 8: Uint8Array, 16: Uint16Array, 32: Uint32Array };

function samplesOf(path, bits) {
  const bytes = readFileSync(path);
  return new ARRAYS[bits](bytes.buffer.slice(bytes.byteOffset, bytes.byteOffset + bytes.length));
}

async function write(path, parts) {
  const pieces = [];
  for await (const { part } of parts) pieces.push(Buffer.from(part));
  writeFileSync(path, Buffer.concat(pieces));
}

async function writeFiles(path) {
  const { width, height, bits, maxval, objects, names, strokes } = JSON.parse(readFileSync(`${path}.case`, "utf8"));
  const maskBits = maxval < 256 ? 8 : 16, size = { width, height };
  const numbers = samplesOf(`${path}.numbers`, bits), mask = samplesOf(`${path}.mask`, maskBits);
  const labelling = { ...size, numbers, objects }, nameOf = number => names[number];
  if (numbers.every(number => number < 65536)) {
    await write(`${path}.png`, pngParts({ ...size, samples: numbers, bits: 16 }));
    await write(`${path}.16.tif`, tiffParts({ ...size, samples: numbers, bits: 16 }));
  }
  await write(`${path}.32.tif`, tiffParts({ ...size, samples: numbers, bits: 32 }));
  await write(`${path}.csv`, tableParts(labelling, mask, nameOf));
  await write(`${path}.json`, cocoParts(labelling, "picture.png", nameOf));
  await write(`${path}.pgm`, pgmParts({ ...size, maxval, samples: mask }));
  await write(`${path}.mask.png`, pngParts({ ...size, samples: mask, bits: maskBits }));
  await write(`${path}.txt`, editParts(strokes, "0123456789abcdef".repeat(2)));
}

async function main(folder) {
  const names = readdirSync(folder).filter(name => name.endsWith(".case"));
  for (const name of names) await writeFiles(join(folder, name.slice(0, -5)));
}

main(process.argv[2]);
