"use strict";

// How long the page's encoders take at 4096 by 4096 pixels, 16 bits and 4,000 labels:
//   node page/tests/exports_timing.js [WIDTH HEIGHT]
//
// Of each file: milliseconds in all, bytes, and of how many slices how many took more than 16 milliseconds.

const { load } = require("./load.js");

const { pngParts, tiffParts, tableParts, cocoParts, pgmParts } = load(
  ["png.js", "tiff.js", "tables.js", "coco.js", "copies.js"],
  ["pngParts", "tiffParts", "tableParts", "cocoParts", "pgmParts"]);

const LABELS = 4000, LONG = 16;

function labelling(width, height) {
  const numbers = new Uint16Array(width * height), objects = [];
  for (let number = 1; number <= LABELS; number++) {
    objects.push({ number, gesture: "", tag: `${number}`, inClass: 1 + number % 5, strokes: 1 });
    putDisc(numbers, width, height, number, 10 + Math.floor(Math.random() * 25));
  }
  return { width, height, numbers, objects };
}

function putDisc(numbers, width, height, number, radius) {
  const x = Math.floor(Math.random() * width), y = Math.floor(Math.random() * height);
  for (let row = Math.max(0, y - radius); row < Math.min(height, y + radius + 1); row++) {
    const half = Math.floor(Math.sqrt(radius ** 2 - (row - y) ** 2));
    numbers.fill(number, row * width + Math.max(0, x - half), row * width + Math.min(width, x + half + 1));
  }
}

async function time(name, parts) {
  const begun = performance.now();
  let bytes = 0, slices = 0, long = 0, before = begun;
  for await (const { part } of parts) {
    const now = performance.now();
    bytes += part.length;
    slices++;
    if (now - before > LONG) long++;
    before = now;
  }
  console.log(`${name}: ${Math.round(performance.now() - begun)} ms, ${bytes} bytes, ${long} of ${slices} long`);
}

async function main(width, height) {
  const known = labelling(width, height), size = { width, height }, samples = known.numbers, nameOf = String;
  const mask = Uint16Array.from(samples, () => Math.random() * 4000);
  await time("labels, PNG", pngParts({ ...size, samples, bits: 16 }));
  await time("labels, TIFF of 16 bits", tiffParts({ ...size, samples, bits: 16 }));
  await time("labels, TIFF of 32 bits", tiffParts({ ...size, samples, bits: 32 }));
  await time("table", tableParts(known, mask, nameOf));
  await time("COCO", cocoParts(known, "picture.png", nameOf));
  await time("noise, PGM", pgmParts({ ...size, maxval: 4095, samples: mask }));
  await time("noise, PNG", pngParts({ ...size, samples: mask, bits: 16 }));
}

main(Number(process.argv[2] ?? 4096), Number(process.argv[3] ?? 4096));
