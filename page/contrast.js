// ---- Contrast: by which window, gamma and colours samples are shown. Nothing here knows of the page ----

// A look is a window from a low value, shown as black, to a high one, shown as white; a gamma; a cut, which is how many
// percent of the samples the button for percentiles leaves out at either end; and for two views the colour table of the
// result.

const LEAST_GAMMA = .25, MOST_GAMMA = 4, FIRST_CUT = .1, MOST_CUT = 25;

// The colours of each table, at equal distances from black on: red, green and blue, up to 255.
const COLOUR_TABLES = {
  amber: [[0, 0, 0], [255, 178.5, 0]],
  grey: [[0, 0, 0], [255, 255, 255]],
  fire: [[0, 0, 0], [255, 0, 0], [255, 255, 0], [255, 255, 255]],
  magma: [[0, 0, 0], [28, 16, 68], [79, 18, 123], [129, 37, 129], [181, 54, 122], [229, 80, 100], [251, 135, 97],
    [254, 194, 135], [252, 253, 191]],
  ice: [[0, 0, 0], [0, 60, 150], [0, 170, 230], [255, 255, 255]],
};

// How much of red, green and blue the shades of the mask and the colours of the result give: 1 at most together.
const VIEWS = {
  kept: { mask: [.4, .4, .41], result: [.6, .6, .59] },
  result: { mask: [0, 0, 0], result: [1, 1, 1] },
  mask: { mask: [1, 1, 1], result: [0, 0, 0] },
  labels: { mask: [.6, .6, .6], result: [0, 0, 0] },
};

/** How many of the samples have each value up to the maxval. */
function countsOf(samples, maxval) {
  const counts = new Uint32Array(maxval + 1);
  for (let k = 0; k < samples.length; k++) counts[samples[k]]++;
  return counts;
}

/** The lowest value that at least this share of the samples does not exceed. Share 0 gives the lowest sample. */
function percentileOf(counts, share) {
  const total = counts.reduce((sum, count) => sum + count, 0), rank = Math.max(1, Math.ceil(share * total));
  let value = 0;
  for (let below = counts[0]; below < rank && value < counts.length - 1; below += counts[value]) value++;
  return value;
}

/** The window that leaves out a cut at either end, or nothing where one value alone would be left. */
function windowByPercentiles(counts, cut) {
  const low = percentileOf(counts, cut / 100), high = percentileOf(counts, 1 - cut / 100);
  if (low < high) return { low, high };
  const lowest = percentileOf(counts, 0), highest = percentileOf(counts, 1);
  if (lowest < highest) return { low: lowest, high: highest };
  return { low: Math.max(highest - 1, 0), high: Math.max(highest, 1) };
}

/** How a picture is shown at first: with 8 bits all values as they are, with more through a window by percentiles. */
function firstLook(counts) {
  const maxval = counts.length - 1;
  const window = maxval < 256 ? { low: 0, high: maxval } : windowByPercentiles(counts, FIRST_CUT);
  return { ...window, gamma: 1, cut: FIRST_CUT, tables: { kept: "amber", result: "grey" } };
}

/** The values that a histogram shows: with more than 8 bits those that lie no further off than the window is wide. */
function axisOf(counts) {
  const maxval = counts.length - 1;
  if (maxval < 256) return { low: 0, high: maxval };
  const { low, high } = windowByPercentiles(counts, FIRST_CUT);
  return { low: Math.min(low, Math.max(percentileOf(counts, 0), 2 * low - high)),
    high: Math.max(high, Math.min(percentileOf(counts, 1), 2 * high - low)) };
}

/** How many samples each of so many columns has over an axis. The first and the last have those beyond it, too. */
function columnsOf(counts, { low, high }, columns) {
  const heights = new Float64Array(columns);
  counts.forEach((count, value) => {
    heights[limited(Math.floor((value - low) * columns / (high - low + 1)), 0, columns - 1)] += count;
  });
  return heights;
}

// ---- Windows that are moved: the low value is always below the high one ----

function withLow({ high }, value, maxval) {
  const low = limited(Math.round(value), 0, maxval - 1);
  return { low, high: Math.max(high, low + 1) };
}

function withHigh({ low }, value, maxval) {
  const high = limited(Math.round(value), 1, maxval);
  return { low: Math.min(low, high - 1), high };
}

/** A window behind a drag, in parts of the canvas: to the right it gets wider, and upwards it takes in lower values. */
function draggedWindow({ low, high }, across, down, maxval) {
  const middle = (low + high) / 2 + 2 * down * (high - low), half = (high - low) / 2 * 16 ** across;
  const newLow = limited(Math.round(middle - half), 0, maxval - 1);
  return { low: newLow, high: limited(Math.round(middle + half), newLow + 1, maxval) };
}

// ---- From samples to colours ----

/** For each sample its shade, from 0 up to the low value to 255 from the high one on. */
function shadesThrough({ low, high, gamma }, maxval) {
  const shades = new Uint8Array(maxval + 1).fill(255, high);
  for (let sample = low + 1; sample < high; sample++) {
    shades[sample] = Math.floor(255 * ((sample - low) / (high - low)) ** gamma);
  }
  return shades;
}

/** The colour of a table at a shade. */
function colourAt(table, shade) {
  const colours = COLOUR_TABLES[table], place = shade * (colours.length - 1) / 255, before = Math.floor(place);
  const after = Math.min(before + 1, colours.length - 1);
  return colours[before].map((part, k) => part + (colours[after][k] - part) * (place - before));
}

const packed = ([red, green, blue], alpha) => (alpha << 24 | blue << 16 | green << 8 | red) >>> 0;

/** The colours of a table at all shades, times a share for red, green and blue, as numbers that begin with alpha. */
function coloursOf(table, shares, alpha) {
  return Uint32Array.from({ length: 256 }, (_, shade) => {
    return packed(colourAt(table, shade).map((part, k) => Math.floor(part * shares[k])), alpha);
  });
}

/** For each sample its colour. */
function coloursOfSamples(shades, colours) {
  const ofSamples = new Uint32Array(shades.length);
  for (let sample = 0; sample < shades.length; sample++) ofSamples[sample] = colours[shades[sample]];
  return ofSamples;
}

// ---- Looks that were kept ----

/** The look that a text spells for pictures of this maxval, or null where it spells none. */
function readLook(text, maxval) {
  try {
    const { low, high, gamma, cut, tables: { kept, result } } = JSON.parse(text);
    const isWindow = [low, high].every(Number.isInteger) && low >= 0 && low < high && high <= maxval;
    const isShown = isBetween(gamma, LEAST_GAMMA, MOST_GAMMA) && isBetween(cut, 0, MOST_CUT);
    const areTables = [kept, result].every(name => Object.hasOwn(COLOUR_TABLES, name));
    return isWindow && isShown && areTables ? { low, high, gamma, cut, tables: { kept, result } } : null;
  } catch (_) {
    return null;
  }
}

const isBetween = (value, least, most) => typeof value === "number" && value >= least && value <= most;
