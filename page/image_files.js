// ---- Image files ----

/** The image of a raw PGM file without comments, as the program writes it. */
function readImage(bytes) {
  let place = 2;
  const number = () => {
    while (bytes[place] <= 32) place++;
    let value = 0;
    while (bytes[place] > 32) value = value * 10 + bytes[place++] - 48;
    return value;
  };
  const width = number(), height = number(), maxval = number();
  return { width, height, maxval, samples: readSamples(bytes, place + 1, width * height, maxval) };
}

/** So many samples: one byte each, or two with the more significant first where the maxval needs two. */
function readSamples(bytes, place, count, maxval) {
  if (maxval < 256) return bytes.subarray(place, place + count);
  const samples = new Uint16Array(count);
  for (let k = 0; k < count; k++) samples[k] = bytes[place + 2 * k] << 8 | bytes[place + 2 * k + 1];
  return samples;
}

function isSameMask(mask) {
  return mask.width === board.width && mask.height === board.height && mask.maxval === board.maxval
    && mask.samples.every((sample, pixel) => sample === board.mask[pixel]);
}
