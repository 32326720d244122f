// ---- Growing: what a stroke alone would light, up to a bound. Nothing here knows of the page ----

// A stroke of a level lights each pixel up to the least value on the best way there. So the pixels that it lights at
// least so brightly are those that ways from its own reach on which the mask is never below that.

const GROWN = { most: 60000, margin: 256, mostWindow: 1 << 21, mostOwn: 1 << 16 };  // pixels
const OUTSIDE = 1, BEYOND = 2, FOUND = 3;  // what a pixel of the window is: no pixel, none of the window, or grown into
let growingRoom = null;  // for each pixel of the window what it is, and the pixels that were found, in their order

/**
 * Grows runs over pixels of at least a threshold, from neighbour to neighbour, within a window around them, up to a
 * bound and to a time. The places that were found are those of the window, row by row, the runs' own ones first.
 */
function grow({ mask, width, height }, runs, threshold, { until = Infinity, most = GROWN.most, conn = 4 } = {}) {
  const window = windowAround(runs, width, height);
  if (window === null) return null;
  growingRoom ??= { kinds: new Uint8Array(GROWN.mostWindow), places: new Int32Array(GROWN.mostOwn + GROWN.most + 4) };
  const { kinds, places } = growingRoom;
  markBorders(kinds, window, width, height);
  const own = takeOwn(mask, width, runs, threshold, window);
  const rows = { mask, width, threshold, window, kinds, places, conn };
  return { ...window, places, own, ...growOn(rows, own, Math.min(most, GROWN.most), until) };
}

/** The window around runs, or null where they are none, or too many. */
function windowAround(runs, width, height) {
  let left = Infinity, right = -1, top = Infinity, bottom = -1, count = 0;
  for (const { y, first, last } of runs) {
    left = Math.min(left, first);
    right = Math.max(right, last);
    top = Math.min(top, y);
    bottom = Math.max(bottom, y);
    count += last + 1 - first;
  }
  left = Math.max(left - GROWN.margin, 0) - 1;
  top = Math.max(top - GROWN.margin, 0) - 1;
  const across = Math.min(right + GROWN.margin, width - 1) + 2 - left;
  const down = Math.min(bottom + GROWN.margin, height - 1) + 2 - top;
  return count === 0 || count > GROWN.mostOwn || across * down > GROWN.mostWindow ? null
    : { left, top, width: across, height: down };
}

function markBorders(kinds, { left, top, width, height }, boardWidth, boardHeight) {
  const end = width * height, kindOf = isOnBoard => isOnBoard ? BEYOND : OUTSIDE;
  kinds.fill(0, 0, end);
  for (let place = 0; place < end; place += width) {
    kinds[place] = kindOf(left >= 0);
    kinds[place + width - 1] = kindOf(left + width <= boardWidth);
  }
  kinds.fill(kindOf(top >= 0), 0, width);
  kinds.fill(kindOf(top + height <= boardHeight), end - width, end);
  for (const corner of [0, width - 1, end - width, end - 1]) kinds[corner] = OUTSIDE;
}

/** Takes the pixels of the runs that reach the threshold, and tells how many they are. */
function takeOwn(mask, boardWidth, runs, threshold, { left, top, width }) {
  const { kinds, places } = growingRoom;
  let count = 0;
  for (const { y, first, last } of runs) {
    for (let x = first; x <= last; x++) {
      const place = (y - top) * width + x - left;
      if (mask[y * boardWidth + x] < threshold || kinds[place] === FOUND) continue;
      kinds[place] = FOUND;
      places[count++] = place;
    }
  }
  return count;
}

/** Goes from pixel to pixel, the nearest first. It is whole where neither bound nor window nor time ended it. */
function growOn({ mask, width, threshold, window, kinds, places, conn }, own, most, until) {
  const steps = stepsIn(window.width, conn), boardSteps = stepsIn(width, conn);
  let count = own, isWhole = true;
  for (let next = 0; next < count; next++) {
    if (count - own >= most || (next % 4096 === 4095 && performance.now() > until)) return { count, isWhole: false };
    const row = Math.floor(places[next] / window.width), column = places[next] - row * window.width;
    const pixel = (window.top + row) * width + window.left + column;
    for (let k = 0; k < conn; k++) {
      const place = places[next] + steps[k];
      if (kinds[place] === FOUND || kinds[place] === OUTSIDE || mask[pixel + boardSteps[k]] < threshold) continue;
      if (kinds[place] === BEYOND) isWhole = false;
      else places[count++] = place;
      kinds[place] = FOUND;
    }
  }
  return { count, isWhole };
}

/** From a pixel to its 4 or 8 neighbours, in rows of this width. */
function stepsIn(width, conn) {
  return [-width, -1, 1, width, -width - 1, -width + 1, width - 1, width + 1].slice(0, conn);
}
