// ---- PNG: grey pictures as files (PNG, third edition). Nothing here knows of the page ----

// Files are made in parts, so that the page is never kept waiting. Each part stands with the share of the work that is
// done behind it; where nothing is ready yet it is empty.

const SLICE_BYTES = 1 << 16;  // of samples are taken at once
const NOTHING = new Uint8Array(0);
const PNG_SIGNATURE = [137, 80, 78, 71, 13, 10, 26, 10];
const FILTER_UP = 2;  // each byte less the one above it: in label images most of them are 0

/** The parts of a grey PNG of 8 or 16 bits. Its samples are as they are, and at most what so many bits hold. */
async function* pngParts(picture) {
  yield { share: 0, part: Uint8Array.from(PNG_SIGNATURE) };
  yield { share: 0, part: pngChunk("IHDR", pngHeader(picture)) };
  for await (const { share, part } of deflatedParts(filteredSlices(picture))) {
    yield { share, part: part.length > 0 ? pngChunk("IDAT", part) : part };
  }
  yield { share: 1, part: pngChunk("IEND", NOTHING) };
}

/** Width, height, and bits; then grey, deflated, with filters, not interlaced. */
function pngHeader({ width, height, bits }) {
  const header = new Uint8Array(13), numbers = new DataView(header.buffer);
  numbers.setUint32(0, width);
  numbers.setUint32(4, height);
  header[8] = bits;
  return header;
}

/** A chunk: the size of its data, its type, the data, and the check sum of type and data. */
function pngChunk(type, data) {
  const chunk = new Uint8Array(data.length + 12), numbers = new DataView(chunk.buffer);
  numbers.setUint32(0, data.length);
  for (let k = 0; k < 4; k++) chunk[4 + k] = type.charCodeAt(k);
  chunk.set(data, 8);
  numbers.setUint32(data.length + 8, checkSumOf(chunk.subarray(4, data.length + 8)));
  return chunk;
}

const CHECK_SUMS = Uint32Array.from({ length: 256 }, (_, byte) => {
  for (let k = 0; k < 8; k++) byte = byte & 1 ? byte >>> 1 ^ 0xedb88320 : byte >>> 1;
  return byte;
});

/** The CRC-32 of bytes. */
function checkSumOf(bytes) {
  let sum = 0xffffffff;
  for (let k = 0; k < bytes.length; k++) sum = CHECK_SUMS[(sum ^ bytes[k]) & 255] ^ sum >>> 8;
  return ~sum >>> 0;
}

/** Some rows at a time, each as its filter and the filtered bytes. */
function* filteredSlices({ width, height, samples, bits }) {
  const rowBytes = 1 + width * bits / 8, rows = Math.max(1, Math.floor(SLICE_BYTES / rowBytes));
  const filter = bits === 8 ? filterBytes : filterPairs;
  let above = new samples.constructor(width);
  for (let top = 0; top < height; top += rows) {
    const bottom = Math.min(top + rows, height), part = new Uint8Array((bottom - top) * rowBytes);
    for (let y = top, place = 0; y < bottom; y++, place += rowBytes) {
      const row = samples.subarray(y * width, (y + 1) * width);
      part[place] = FILTER_UP;
      filter(part, place + 1, row, above);
      above = row;
    }
    yield { share: bottom / height, part };
  }
}

function filterBytes(bytes, place, row, above) {
  for (let x = 0; x < row.length; x++) bytes[place + x] = row[x] - above[x];
}

/** Of two bytes the more significant one comes first. */
function filterPairs(bytes, place, row, above) {
  for (let x = 0; x < row.length; x++) {
    bytes[place + 2 * x] = (row[x] >>> 8) - (above[x] >>> 8);
    bytes[place + 2 * x + 1] = row[x] - above[x];
  }
}

/** The parts of the zlib stream of slices (RFC 1950), as they come. */
async function* deflatedParts(slices) {
  const { readable, writable } = new CompressionStream("deflate");
  const writer = writable.getWriter(), come = [], all = collect(readable, come);
  all.catch(() => {});  // (it is awaited below, where nothing else went wrong before)
  try {
    for (const { share, part } of slices) {
      await writer.write(part);
      for (const ready of come.splice(0)) yield { share, part: ready };
      yield { share, part: NOTHING };
    }
    await writer.close();
    await all;
    for (const ready of come) yield { share: 1, part: ready };
  } finally {
    writer.abort().catch(() => {});
  }
}

async function collect(readable, pieces) {
  const reader = readable.getReader();
  for (let next = await reader.read(); !next.done; next = await reader.read()) pieces.push(next.value);
}
