// ---- TIFF: grey pictures of 16 and 32 bits as files (TIFF, revision 6.0). Nothing here knows of the page ----

const SHORT = 3, LONG = 4, RATIONAL = 5;  // kinds of values
const SIZES = { [SHORT]: 2, [LONG]: 4, [RATIONAL]: 8 };
const TIFF_HEAD = 8;

/** The parts of a grey TIFF, little endian and not compressed, in strips of some rows. */
function* tiffParts({ width, height, samples, bits }) {
  const rowBytes = width * bits / 8, rows = Math.min(height, Math.max(1, Math.floor(SLICE_BYTES / rowBytes)));
  yield { share: 0, part: tiffHead(width, height, bits, rows) };
  for (let top = 0; top < height; top += rows) {
    const bottom = Math.min(top + rows, height), strip = samples.subarray(top * width, bottom * width);
    yield { share: bottom / height, part: littleEndian(strip, bits) };
  }
}

/** Samples as bytes, the least significant first: so all machines have them on which browsers run. */
function littleEndian(samples, bits) {
  return new Uint8Array((bits === 16 ? Uint16Array.from(samples) : Uint32Array.from(samples)).buffer);
}

/** What stands before the strips: the head, the directory, and those of its values that are larger than four bytes. */
function tiffHead(width, height, bits, rows) {
  const sizes = [];
  for (let top = 0; top < height; top += rows) sizes.push(Math.min(rows, height - top) * width * bits / 8);
  const start = endOfValues(tiffFields(width, height, bits, rows, sizes, 0));
  const bytes = new Uint8Array(start), numbers = new DataView(bytes.buffer);
  bytes.set([73, 73, 42, 0, TIFF_HEAD]);
  putDirectory(numbers, tiffFields(width, height, bits, rows, sizes, start));
  return bytes;
}

/** The fields of the directory, by their tags: each with its tag, its kind and its values. */
function tiffFields(width, height, bits, rows, sizes, start) {
  let end = start;
  const starts = sizes.map(size => (end += size) - size);
  return [
    [256, LONG, [width]], [257, LONG, [height]], [258, SHORT, [bits]],
    [259, SHORT, [1]],  // not compressed
    [262, SHORT, [1]],  // 0 is black
    [273, LONG, starts], [277, SHORT, [1]], [278, LONG, [rows]], [279, LONG, sizes],
    [282, RATIONAL, [1]], [283, RATIONAL, [1]], [296, SHORT, [1]],  // pixels have no size
    [339, SHORT, [1]],  // no signs
  ];
}

const bytesOfField = ([, kind, values]) => SIZES[kind] * values.length;
const endOfDirectory = fields => TIFF_HEAD + 2 + 12 * fields.length + 4;

/** Where the strips begin: behind the directory and the values that do not fit into it. */
function endOfValues(fields) {
  const large = fields.map(bytesOfField).filter(size => size > 4);
  return Math.ceil(large.reduce((sum, size) => sum + size, endOfDirectory(fields)) / 8) * 8;
}

function putDirectory(numbers, fields) {
  let place = TIFF_HEAD + 2, behind = endOfDirectory(fields);
  numbers.setUint16(TIFF_HEAD, fields.length, true);
  for (const field of fields) {
    const [tag, kind, values] = field, size = bytesOfField(field);
    numbers.setUint16(place, tag, true);
    numbers.setUint16(place + 2, kind, true);
    numbers.setUint32(place + 4, values.length, true);
    if (size > 4) numbers.setUint32(place + 8, behind, true);
    putValues(numbers, size > 4 ? behind : place + 8, kind, values);
    if (size > 4) behind += size;
    place += 12;
  }
}

function putValues(numbers, place, kind, values) {
  values.forEach((value, k) => {
    if (kind === SHORT) numbers.setUint16(place + 2 * k, value, true);
    else numbers.setUint32(place + SIZES[kind] * k, value, true);
    if (kind === RATIONAL) numbers.setUint32(place + SIZES[kind] * k + 4, 1, true);
  });
}
