// ---- Copies: pictures as PGM files, strokes as edit lines. Nothing here knows of the page ----

const STROKES_AT_ONCE = 256;

/** The parts of a raw PGM file: a byte a sample, or two with the more significant first where the maxval needs two. */
function* pgmParts({ width, height, maxval, samples }) {
  yield { share: 0, part: `P5\n${width} ${height}\n${maxval}\n` };
  for (let start = 0; start < samples.length; start += SLICE_BYTES) {
    const slice = samples.subarray(start, start + SLICE_BYTES);
    yield { share: (start + slice.length) / samples.length, part: maxval < 256 ? slice : bigEndian(slice) };
  }
}

/** Samples of 16 bits as bytes, the more significant first. */
function bigEndian(samples) {
  const bytes = new Uint8Array(2 * samples.length);
  for (let k = 0; k < samples.length; k++) {
    bytes[2 * k] = samples[k] >>> 8;
    bytes[2 * k + 1] = samples[k];
  }
  return bytes;
}

/** The parts of a text of edit lines, by tag, behind a line that tells for which mask they are. */
function* editParts(strokes, fingerprint) {
  const sorted = strokes.toSorted((one, other) => one.tag < other.tag ? -1 : 1);
  yield { share: 0, part: `; edits for the mask ${fingerprint}\n` };
  for (let start = 0; start < sorted.length; start += STROKES_AT_ONCE) {
    const slice = sorted.slice(start, start + STROKES_AT_ONCE);
    const lines = slice.map(({ kind, tag, level, shape }) => `${kind} ${tag} ${level} ${shape}\n`);
    yield { share: (start + slice.length) / sorted.length, part: lines.join("") };
  }
}
