"use strict";

// Tests of page/contrast.js:  node page/tests/contrast_test.js

const assert = require("node:assert/strict");
const { test } = require("node:test");
const { load } = require("./load.js");

const { COLOUR_TABLES, FIRST_CUT, VIEWS, axisOf, colourAt, coloursOf, coloursOfSamples, columnsOf, countsOf,
  draggedWindow, firstLook, packed, percentileOf, readLook, shadesThrough, windowByPercentiles, withHigh, withLow,
} = load(["basics.js", "contrast.js"], ["COLOUR_TABLES", "FIRST_CUT", "VIEWS", "axisOf", "colourAt", "coloursOf",
  "coloursOfSamples", "columnsOf", "countsOf", "draggedWindow", "firstLook", "packed", "percentileOf", "readLook",
  "shadesThrough", "windowByPercentiles", "withHigh", "withLow"]);

/** Numbers below a bound, the same at each run. */
function numbersFrom(seed) {
  let state = seed;
  return bound => {
    state = (Math.imul(state, 1664525) + 1013904223) >>> 0;
    return Math.floor(state / 2 ** 32 * bound);
  };
}

/** A picture of 16 bits: 4096 samples between 500 and 3499. */
function dimPicture() {
  const below = numbersFrom(7);
  return Uint16Array.from({ length: 4096 }, () => 500 + below(3000));
}

const dim = dimPicture();
const withOneHotPixel = Uint16Array.from(dim, (sample, pixel) => pixel === 1234 ? 65535 : sample);
const colourParts = colour => [colour & 255, colour >>> 8 & 255, colour >>> 16 & 255, colour >>> 24];
const plainShade = (sample, low, high) => Number(BigInt(sample - low) * 255n / BigInt(high - low));

test("the counts of samples", () => {
  assert.deepEqual([...countsOf([0, 3, 3, 1, 3], 4)], [1, 1, 0, 3, 0]);
  assert.equal(countsOf(dim, 65535).length, 65536);
});

test("a percentile is the sample of that rank", () => {
  const below = numbersFrom(1);
  for (let round = 0; round < 200; round++) {
    const samples = Array.from({ length: 1 + below(50) }, () => below(20));
    const counts = countsOf(samples, 19), sorted = samples.sort((one, other) => one - other);
    for (const share of [0, .001, .1, .5, .75, .999, 1]) {
      assert.equal(percentileOf(counts, share), sorted[Math.max(1, Math.ceil(share * sorted.length)) - 1]);
    }
  }
});

test("a picture of 8 bits is shown at first as it is, and all of it", () => {
  for (const maxval of [1, 2, 100, 254, 255]) {
    const look = firstLook(countsOf([0, 1, 1], maxval)), shades = shadesThrough(look, maxval);
    assert.deepEqual([look.low, look.high, look.gamma], [0, maxval, 1]);
    for (let sample = 0; sample <= maxval; sample++) assert.equal(shades[sample], plainShade(sample, 0, maxval));
  }
});

test("one hot pixel of 16 bits changes nothing of how the others are shown at first", () => {
  const [plain, hot] = [dim, withOneHotPixel].map(samples => firstLook(countsOf(samples, 65535)));
  assert.ok(hot.high < 3500 && hot.high - plain.high < 10, `the window ends at ${hot.high}`);
  assert.equal(hot.low, plain.low);
  assert.equal(shadesThrough(hot, 65535)[65535], 255);
  assert.ok(shadesThrough(hot, 65535)[2000] > 120);
});

test("a window by percentiles leaves out the cut at either end", () => {
  const counts = countsOf(Uint16Array.from({ length: 1000 }, (_, k) => 1000 + k), 4095);
  assert.deepEqual(windowByPercentiles(counts, 10), { low: 1099, high: 1899 });
  assert.deepEqual(windowByPercentiles(counts, 0), { low: 1000, high: 1999 });
});

test("where percentiles leave one value, the window is that of all samples", () => {
  const sparse = new Uint16Array(10000);
  sparse.set([7, 300, 9000]);
  assert.deepEqual(windowByPercentiles(countsOf(sparse, 65535), FIRST_CUT), { low: 0, high: 9000 });
  assert.deepEqual(windowByPercentiles(countsOf([500, 500], 1000), FIRST_CUT), { low: 499, high: 500 });
  assert.deepEqual(windowByPercentiles(countsOf([0, 0], 1000), FIRST_CUT), { low: 0, high: 1 });
});

test("with gamma 1 a shade is the share of the window, rounded down", () => {
  const below = numbersFrom(2);
  for (const maxval of [255, 4095, 65535]) {
    for (let round = 0; round < 5; round++) {
      const low = below(maxval), high = low + 1 + below(maxval - low);
      const shades = shadesThrough({ low, high, gamma: 1 }, maxval);
      for (let sample = 0; sample <= maxval; sample++) {
        assert.equal(shades[sample], plainShade(Math.min(Math.max(sample, low), high), low, high));
      }
    }
  }
});

test("each gamma keeps the order and the ends, and one below 1 is brighter", () => {
  const plain = shadesThrough({ low: 100, high: 3000, gamma: 1 }, 4095);
  for (const gamma of [.25, .5, 2, 4]) {
    const shades = shadesThrough({ low: 100, high: 3000, gamma }, 4095);
    assert.deepEqual([shades[0], shades[100], shades[3000], shades[4095]], [0, 0, 255, 255]);
    for (let sample = 1; sample <= 4095; sample++) assert.ok(shades[sample] >= shades[sample - 1]);
    assert.ok(gamma < 1 ? shades[1000] > plain[1000] : shades[1000] < plain[1000]);
  }
  assert.equal(shadesThrough({ low: 0, high: 255, gamma: .5 }, 255)[64], Math.floor(255 * Math.sqrt(64 / 255)));
});

test("five colour tables, each from black on, and brighter from shade to shade", () => {
  assert.deepEqual(Object.keys(COLOUR_TABLES), ["amber", "grey", "fire", "magma", "ice"]);
  const brightness = ([red, green, blue]) => .2126 * red + .7152 * green + .0722 * blue;
  for (const [name, colours] of Object.entries(COLOUR_TABLES)) {
    assert.deepEqual(colourAt(name, 0), [0, 0, 0]);
    assert.deepEqual(colourAt(name, 255), colours.at(-1));
    for (let shade = 1; shade < 256; shade++) {
      assert.ok(brightness(colourAt(name, shade)) > brightness(colourAt(name, shade - 1)), `${name} ${shade}`);
    }
  }
});

test("mask and result together give no part more than 255", () => {
  for (const { mask, result } of Object.values(VIEWS)) {
    const ground = colourParts(coloursOf("grey", mask, 255)[255]);
    for (const name of Object.keys(COLOUR_TABLES)) {
      for (const colour of coloursOf(name, result, 0)) {
        assert.ok(colourParts(colour).every((part, k) => part + ground[k] <= 255), name);
      }
    }
  }
});

test("colours of shades: alpha first, grey as it is, amber over a dimmed mask", () => {
  assert.equal(packed([1, 2, 3], 255), 0xff030201);
  coloursOf("grey", [1, 1, 1], 255).forEach((colour, shade) => {
    assert.deepEqual(colourParts(colour), [shade, shade, shade, 255]);
  });
  coloursOf("amber", VIEWS.kept.result, 0).forEach((colour, shade) => {
    assert.deepEqual(colourParts(colour), [Math.floor(shade * 60 / 100), Math.floor(shade * 42 / 100), 0, 0]);
  });
  assert.deepEqual([...coloursOfSamples([2, 0, 2], [10, 11, 12])], [12, 10, 12]);
});

test("a handle that meets the other one pushes it along", () => {
  const window = { low: 50, high: 60 };
  assert.deepEqual(withLow(window, 20, 255), { low: 20, high: 60 });
  assert.deepEqual(withLow(window, 80, 255), { low: 80, high: 81 });
  assert.deepEqual(withLow(window, 999, 255), { low: 254, high: 255 });
  assert.deepEqual(withHigh(window, 70.4, 255), { low: 50, high: 70 });
  assert.deepEqual(withHigh(window, 10, 255), { low: 9, high: 10 });
  assert.deepEqual(withHigh(window, -5, 255), { low: 0, high: 1 });
});

test("a drag to the right widens the window, and one upwards lowers it", () => {
  const window = { low: 1000, high: 2000 }, maxval = 65535;
  assert.deepEqual(draggedWindow(window, 0, 0, maxval), window);
  assert.deepEqual(draggedWindow(window, .25, 0, maxval), { low: 500, high: 2500 });
  assert.deepEqual(draggedWindow(window, -.25, 0, maxval), { low: 1250, high: 1750 });
  assert.deepEqual(draggedWindow(window, 0, -.25, maxval), { low: 500, high: 1500 });
  assert.deepEqual(draggedWindow({ low: 0, high: 255 }, 0, -.1, 255), { low: 0, high: 204 });
});

test("no drag makes a window without a width, or beyond the picture's values", () => {
  const below = numbersFrom(3);
  for (let round = 0; round < 2000; round++) {
    const maxval = 1 + below(65535), start = withLow({ high: 0 }, below(maxval), maxval);
    const { low, high } = draggedWindow(start, below(400) / 100 - 2, below(400) / 100 - 2, maxval);
    assert.ok(Number.isInteger(low) && Number.isInteger(high) && low >= 0 && low < high && high <= maxval);
  }
});

test("the axis of a histogram has the first window, and a hot pixel does not stretch it", () => {
  for (const samples of [dim, withOneHotPixel, [500, 500], [0], [3, 3, 3, 65535]]) {
    const counts = countsOf(samples, 65535), axis = axisOf(counts);
    const { low, high } = windowByPercentiles(counts, FIRST_CUT);
    assert.ok(axis.low <= low && low < high && high <= axis.high);
  }
  const ramp = Array.from({ length: 1001 }, (_, k) => 30000 + k);
  const { low, high } = windowByPercentiles(countsOf([0, ...ramp, 65535], 65535), FIRST_CUT);
  assert.deepEqual(axisOf(countsOf([0, ...ramp, 65535], 65535)), { low: 2 * low - high, high: 2 * high - low });
  assert.deepEqual(axisOf(countsOf(ramp, 65535)), { low: 30000, high: 31000 });
  assert.deepEqual(axisOf(countsOf([9], 255)), { low: 0, high: 255 });
});

test("the columns of a histogram have all samples", () => {
  const counts = countsOf(withOneHotPixel, 65535), columns = columnsOf(counts, axisOf(counts), 256);
  assert.equal(columns.reduce((sum, count) => sum + count), withOneHotPixel.length);
  assert.ok(columns[255] >= 1);
  assert.deepEqual([...columnsOf(countsOf([0, 4, 4, 5, 9], 9), { low: 4, high: 7 }, 2)], [4, 1]);
  assert.deepEqual([...columnsOf(countsOf([4, 5, 5, 6, 7], 9), { low: 4, high: 7 }, 4)], [1, 2, 1, 1]);
  assert.deepEqual([...columnsOf(countsOf([0, 1, 1], 9), { low: 0, high: 1 }, 4)], [1, 0, 2, 0]);
});

test("a look that was kept is read again, and nothing else is", () => {
  const look = { ...firstLook(countsOf(dim, 65535)), gamma: .5, tables: { kept: "ice", result: "magma" } };
  assert.deepEqual(readLook(JSON.stringify(look), 65535), look);
  const changed = change => JSON.stringify({ ...look, ...change });
  for (const text of [null, "", "null", "[]", "{}", "7", changed({ low: -1 }), changed({ low: look.high }),
    changed({ high: 65536 }), changed({ low: 1.5 }), changed({ low: "1" }), changed({ gamma: 0 }),
    changed({ gamma: "1" }), changed({ cut: 50 }), changed({ cut: null }), changed({ tables: null }),
    changed({ tables: { kept: "ice", result: "toString" } })]) {
    assert.equal(readLook(text, 65535), null, String(text));
  }
  assert.equal(readLook(JSON.stringify(look), 255), null, "for a picture of 8 bits");
});
