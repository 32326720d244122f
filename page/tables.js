// ---- Tables: of each label what it is and what it measures, as comma-separated values (RFC 4180, with LF) ----

// Nothing here knows of the page. A labelling has its width and height, the number of a label for each pixel, 0 for
// none, and the objects that the labels number. The table is that of tools/labels_from_result.py with the same names.

const TABLE_COLUMNS = ["label", "stroke", "area", "left", "top", "right", "bottom", "mean", "class", "name", "strokes",
  "x", "y", "min", "max"];
const ROWS_AT_ONCE = 1000;

/** The parts of the table of a labelling, by label. Labels without a pixel have no row. */
function* tableParts(labelling, mask, nameOf) {
  const sums = emptySums(labelling), { width, height } = labelling;
  const rows = Math.max(1, Math.floor(SLICE_BYTES / width));
  for (let top = 0; top < height; top += rows) {
    const bottom = Math.min(top + rows, height);
    for (let y = top; y < bottom; y++) addRow(sums, labelling, mask, y);
    yield { share: bottom / height, part: "" };
  }
  const objects = presentObjects(labelling, sums.areas);
  yield { share: 1, part: `${TABLE_COLUMNS}\n` };
  for (let start = 0; start < objects.length; start += ROWS_AT_ONCE) {
    const lines = objects.slice(start, start + ROWS_AT_ONCE).map(object => tableLine(object, sums, nameOf));
    yield { share: 1, part: lines.join("") };
  }
}

const highestNumber = ({ objects }) => objects.reduce((highest, { number }) => Math.max(highest, number), 0);

/** The objects that have pixels, by their numbers. */
function presentObjects({ objects }, areas) {
  return objects.filter(({ number }) => areas[number] > 0).sort((one, other) => one.number - other.number);
}

/** For each number what was met of it so far: nothing. */
function emptySums(labelling) {
  const size = highestNumber(labelling) + 1, zeros = () => new Float64Array(size);
  return { areas: zeros(), acrosses: zeros(), downs: zeros(), lights: zeros(),
    lefts: zeros().fill(Infinity), tops: zeros().fill(Infinity), rights: zeros(), bottoms: zeros(),
    leasts: zeros().fill(Infinity), mosts: zeros() };
}

/** Adds a row of pixels, run by run. */
function addRow(sums, { width, numbers }, mask, y) {
  for (let first = 0, end; first < width; first = end) {
    const number = numbers[y * width + first];
    for (end = first + 1; end < width && numbers[y * width + end] === number;) end++;
    if (number > 0) addRunTo(sums, number, y, first, end - 1, mask.subarray(y * width + first, y * width + end));
  }
}

function addRunTo(sums, number, y, first, last, samples) {
  let light = 0, least = sums.leasts[number], most = sums.mosts[number];
  for (let k = 0; k < samples.length; k++) {
    light += samples[k];
    if (samples[k] < least) least = samples[k];
    if (samples[k] > most) most = samples[k];
  }
  sums.areas[number] += samples.length;
  sums.acrosses[number] += samples.length * (first + last) / 2;
  sums.downs[number] += samples.length * y;
  sums.lights[number] += light;
  sums.leasts[number] = least;
  sums.mosts[number] = most;
  sums.lefts[number] = Math.min(sums.lefts[number], first);
  sums.rights[number] = Math.max(sums.rights[number], last);
  sums.tops[number] = Math.min(sums.tops[number], y);
  sums.bottoms[number] = Math.max(sums.bottoms[number], y);
}

function tableLine({ number, inClass, tag, strokes }, sums, nameOf) {
  const area = sums.areas[number], box = [sums.lefts, sums.tops, sums.rights, sums.bottoms].map(side => side[number]);
  const [x, y, mean] = [sums.acrosses, sums.downs, sums.lights].map(sum => (sum[number] / area).toFixed(3));
  const name = field(harmless(nameOf(inClass))), ends = [sums.leasts[number], sums.mosts[number]];
  return `${[number, tag, area, ...box, mean, inClass, name, strokes, x, y, ...ends]}\n`;
}

/** A text as it stands between two commas. */
function field(text) {
  return /[",\r\n]/.test(text) ? `"${text.replaceAll('"', '""')}"` : text;
}

/** A text that no spreadsheet takes for a formula: one that begins as formulas do has an apostrophe before it. */
const harmless = text => /^\s*[=+\-@\uff1d\uff0b\uff0d\uff20\t\r]/.test(text) ? `'${text}` : text;
