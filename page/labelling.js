// ---- Labelling: which object has which pixels of the result. Nothing here knows of the page: a worker runs it ----

// A scene has width, height, mask and result, row by row. Objects are numbered from 1 in the order of their least tags,
// and 0 is nobody or ground. Spans are the runs of all strokes, in the order of tags: of each its first place in the
// flat picture, the place behind its last one, its object and its level.

/** The objects that strokes make, by their least tags. A stroke has tag, gesture, inClass, level and runs. */
function objectsOf(strokes) {
  const sorted = strokes.toSorted((one, other) => one.tag < other.tag ? -1 : 1), objects = [], numbers = [];
  for (const { tag, gesture, inClass } of sorted) {
    if (objects.at(-1)?.gesture !== gesture) {
      objects.push({ number: objects.length + 1, gesture, tag, inClass, strokes: 0 });
    }
    objects.at(-1).strokes++;
    numbers.push(objects.length);
  }
  return { objects, sorted, numbers };
}

/** Objects with their spans. The numbers of a stroke's runs are row, first and last column, one run behind another. */
function seedsOf(strokes, { width, height }) {
  const { objects, sorted, numbers } = objectsOf(strokes);
  const most = sorted.reduce((sum, { runs }) => sum + runs.length / 3, 0);
  const spans = { count: 0, starts: new Int32Array(most), ends: new Int32Array(most), owners: new Int32Array(most),
    levels: new Int32Array(most) };
  sorted.forEach(({ runs, level }, k) => {
    for (let place = 0; place < runs.length; place += 3) {
      const y = runs[place], first = Math.max(runs[place + 1], 0), last = Math.min(runs[place + 2], width - 1);
      if (y >= 0 && y < height && first <= last) addSpan(spans, y * width + first, last - first + 1, numbers[k], level);
    }
  });
  return { objects, spans, inOrder: placesInOrder(spans), brightest: null };
}

function addSpan(spans, start, length, owner, level) {
  const k = spans.count++;
  spans.starts[k] = start;
  spans.ends[k] = start + length;
  spans.owners[k] = owner;
  spans.levels[k] = level;
}

/** The numbers of the spans by their places. */
function placesInOrder({ count, starts }) {
  const keys = Float64Array.from({ length: count }, (_, k) => starts[k] * 2 ** 24 + k).sort();
  return Int32Array.from(keys, key => key % 2 ** 24);
}

/** Room for the numbers of so many objects, and one more. */
function numbersFor(objects, length) {
  return objects.length < 65535 ? new Uint16Array(length) : new Uint32Array(length);
}

/** The number of pixels that are still to be given to an object: the greatest, which none has. */
const openNumber = numbers => numbers.BYTES_PER_ELEMENT === 2 ? 65535 : 2 ** 32 - 1;

/** What each object shows at its brightest: a stroke's level or the mask under it, whichever is less. */
function brightestOf(mask, { count, starts, ends, owners, levels }, objects) {
  const brightest = new Int32Array(objects.length + 1);
  for (let k = 0; k < count; k++) {
    let highest = 0;
    for (let place = starts[k]; place < ends[k]; place++) if (mask[place] > highest) highest = mask[place];
    brightest[owners[k]] = Math.max(brightest[owners[k]], Math.min(highest, levels[k]));
  }
  return brightest;
}

// ---- The flood: who lights each pixel ----

/**
 * A flood: it finds the object that lights each pixel of the result above 0, which is who reaches it first from its lit
 * pixels, along ways where the result never rises. Pixels are taken from the greatest value down; of equal ones who was
 * reached first is taken first, and the lit pixels of strokes before all of them, from the first object on. So for no
 * pixel counts what is below it: a flood goes down as far as somebody asks, and on from there when somebody asks again.
 * It floods the whole picture, or some runs alone.
 */
function newFlood(scene, { objects, spans }, conn, runs = null) {
  const { result } = scene, owners = numbersFor(objects, result.length), open = runs ? openNumber(owners) : 0;
  if (runs) fillRuns(owners, open, runs);
  const { starts, ends } = placesByValue(result, runs ?? { count: 1, starts: [0], ends: [result.length] });
  const flood = { owners, open, queue: new Int32Array(starts[0]), starts, ends, conn, next: starts.length - 1 };
  putLit(scene, spans, flood);
  return flood;
}

/** Lets a flood go down to a value, so that all pixels of at least that value have their owners. */
function floodDownTo(flood, { width, result }, value) {
  const { owners, open, queue, starts, ends } = flood, reach = flood.conn === 8 ? reachEight : reachFour;
  for (; flood.next >= value; flood.next--) {
    for (let taken = starts[flood.next]; taken < ends[flood.next]; taken++) {
      reach(queue[taken], flood.next, width, result, owners, open, queue, ends);
    }
  }
}

/** Where in a queue of the pixels of runs, from the brightest on, those of each value begin. The ends move on. */
function placesByValue(result, runs) {
  const counts = new Int32Array(65536);
  for (let run = 0; run < runs.count; run++) {
    for (let place = runs.starts[run], end = runs.ends[run]; place < end; place++) counts[result[place]]++;
  }
  const starts = new Int32Array(65536);
  for (let value = 65534; value >= 0; value--) starts[value] = starts[value + 1] + counts[value + 1];
  return { starts, ends: starts.slice() };
}

/** Puts the lit pixels of the strokes into the queue. A pixel of several objects is that of the first one. */
function putLit({ mask, result }, { count, starts, ends: lasts, owners: objects, levels }, flood) {
  const { owners, open, queue, ends } = flood;
  for (let k = 0; k < count; k++) {
    for (let place = starts[k]; place < lasts[k]; place++) {
      const value = result[place];
      if (owners[place] !== open || value === 0 || value !== Math.min(levels[k], mask[place])) continue;
      owners[place] = objects[k];
      queue[ends[value]++] = place;
    }
  }
}

function reachFour(place, value, width, result, owners, open, queue, ends) {
  const owner = owners[place], above = place - width, below = place + width;
  if (above >= 0 && owners[above] === open) take(above, owner, value, result, owners, queue, ends);
  if (place > 0 && owners[place - 1] === open && place % width !== 0) {
    take(place - 1, owner, value, result, owners, queue, ends);
  }
  if (place + 1 < owners.length && owners[place + 1] === open && (place + 1) % width !== 0) {
    take(place + 1, owner, value, result, owners, queue, ends);
  }
  if (below < owners.length && owners[below] === open) take(below, owner, value, result, owners, queue, ends);
}

function reachEight(place, value, width, result, owners, open, queue, ends) {
  const owner = owners[place], x = place % width;
  const first = x > 0 ? -1 : 0, last = x + 1 < width ? 1 : 0;
  for (let row = place - width; row <= place + width; row += width) {
    if (row < 0 || row >= owners.length) continue;
    for (let other = row + first; other <= row + last; other++) {
      if (owners[other] === open) take(other, owner, value, result, owners, queue, ends);
    }
  }
}

/** Gives an open pixel to an owner, unless the way to it rises. */
function take(place, owner, most, result, owners, queue, ends) {
  const value = result[place];
  if (value === 0 || value > most) return;
  owners[place] = owner;
  queue[ends[value]++] = place;
}

// ---- What is kept, as runs of pixels by their places ----

/** The least value that is kept of each object's pixels: of nobody's none. */
function thresholdsOf(brightest, share) {
  return Int32Array.from(brightest, (value, object) => object === 0 ? 65536 : Math.ceil(Math.max(share * value, 1)));
}

/** The greatest value of each 32 pixels in turn. Where nothing is kept of them they are passed over at once. */
function ceilingsOf(result) {
  const ceilings = new Uint16Array(Math.ceil(result.length / 32));
  findCeilings(result, ceilings, 0, result.length);
  return ceilings;
}

/** Finds the ceilings of the pixels from a place up to an end anew. */
function findCeilings(result, ceilings, from, to) {
  for (let k = from >> 5; k << 5 < to; k++) {
    let greatest = 0;
    for (let place = k << 5, end = Math.min(place + 32, result.length); place < end; place++) {
      if (result[place] > greatest) greatest = result[place];
    }
    ceilings[k] = greatest;
  }
}

/** The runs of the pixels of at least a level. */
function runsByLevel({ width, result, ceilings }, level) {
  const runs = newRuns();
  for (let row = 0; row < result.length; row += width) {
    const end = row + width;
    for (let place = row; place < end; place++) {
      if ((place & 31) === 0 && ceilings[place >> 5] < level) place += 31;
      if (place >= end || result[place] < level) continue;
      const first = place;
      while (place < end && result[place] >= level) place++;
      addKept(runs, first, place);
    }
  }
  return runs;
}

function newRuns() {
  return { count: 0, starts: new Int32Array(1 << 16), ends: new Int32Array(1 << 16) };
}

function addKept(runs, start, end) {
  if (runs.count === runs.starts.length) {
    for (const name of ["starts", "ends"]) {
      const wider = new Int32Array(2 * runs.count);
      wider.set(runs[name]);
      runs[name] = wider;
    }
  }
  runs.starts[runs.count] = start;
  runs.ends[runs.count++] = end;
}

// ---- Parts: runs that are connected, each part by the number of its first run ----

/** For each run the first one of its part. */
function connectedParts({ count, starts, ends }, width, conn) {
  const parts = new Int32Array(count), aside = conn === 8 ? 1 : 0;
  let above = 0;  // the first run that may touch one of those that follow
  for (let run = 0; run < count; run++) {
    parts[run] = run;
    const row = starts[run] - starts[run] % width, first = Math.max(starts[run] - aside, row) - width;
    const end = Math.min(ends[run] + aside, row + width) - width;
    while (ends[above] <= first) above++;
    for (let other = above; other < run && starts[other] < end; other++) join(parts, run, other);
  }
  for (let run = 0; run < count; run++) parts[run] = parts[parts[run]];
  return parts;
}

function firstOf(parts, run) {
  while (parts[run] !== run) {
    parts[run] = parts[parts[run]];
    run = parts[run];
  }
  return run;
}

function join(parts, run, other) {
  const one = firstOf(parts, run), two = firstOf(parts, other);
  if (one < two) parts[two] = one;
  else parts[one] = two;
}

/**
 * For the first run of each part the least and the greatest object that has a pixel in it, of those pixels of a span up
 * to an end that count; 0 where none has.
 */
function endsOfParts(runs, parts, { spans, inOrder }, counts = () => true) {
  const least = new Int32Array(runs.count), greatest = new Int32Array(runs.count);
  let run = 0;
  for (const k of inOrder) {
    const start = spans.starts[k], end = spans.ends[k], owner = spans.owners[k];
    while (run < runs.count && runs.ends[run] <= start) run++;
    for (let met = run; met < runs.count && runs.starts[met] < end; met++) {
      const part = parts[met];
      if (!counts(k, Math.max(start, runs.starts[met]), Math.min(end, runs.ends[met]))) continue;
      if (least[part] === 0 || owner < least[part]) least[part] = owner;
      if (owner > greatest[part]) greatest[part] = owner;
    }
  }
  return { least, greatest };
}

// ---- Regions: the runs of the pixels of at least a value, each with the object that lights it ----

const SEVERAL = -1;

/**
 * No way on which the result never rises leads from one part of the pixels of at least a value to another. So where all
 * lit pixels in a part are those of one object it lights the whole part, and only the others have to be flooded.
 * Regions go down further than asked, so that they serve lower shares, too, unless that is much, or shared by many.
 */
function newRegions(scene, conn, floor) {
  const lower = floor >> 1;
  if (lower > scene.tooLow) {
    const regions = regionsFrom(scene, conn, lower);
    const isMuch = regions.shared.pixels > scene.mostShared / 8 || pixelsIn(regions.runs) > scene.result.length / 2;
    if (!isMuch) return floodShared(scene, regions);
    scene.tooLow = lower;
  }
  return floodShared(scene, regionsFrom(scene, conn, floor));
}

function regionsFrom(scene, conn, floor) {
  const runs = runsByLevel(scene, floor), parts = connectedParts(runs, scene.width, conn);
  const owners = ownersOfRuns(scene, runs, parts);
  return { conn, floor, runs, owners, shared: sharedRuns(runs, owners), flood: null, leasts: null, greatests: null };
}

/** The one object that lights each run, 0 for nobody, or that there are several. */
function ownersOfRuns({ mask, result, seeds }, runs, parts) {
  const { levels } = seeds.spans, owners = new Int32Array(runs.count);
  const isLit = (k, place, end) => {
    while (place < end && result[place] !== Math.min(levels[k], mask[place])) place++;
    return place < end;
  };
  const { least, greatest } = endsOfParts(runs, parts, seeds, isLit);
  for (let run = 0; run < runs.count; run++) {
    const part = parts[run];
    owners[run] = least[part] === greatest[part] ? least[part] : SEVERAL;
  }
  return owners;
}

/** The runs that several objects light, and how many pixels these are. */
function sharedRuns({ count, starts, ends }, owners) {
  const shared = newRuns();
  for (let run = 0; run < count; run++) if (owners[run] === SEVERAL) addKept(shared, starts[run], ends[run]);
  return Object.assign(shared, { pixels: pixelsIn(shared) });
}

/** Floods down to the floor what several objects light; where that is much, the whole picture. */
function floodShared(scene, regions) {
  const { conn, floor, shared } = regions, isWhole = shared.pixels > scene.mostShared;
  if (isWhole && scene.flood?.conn !== conn) scene.flood = newFlood(scene, scene.seeds, conn);
  if (shared.pixels > 0) regions.flood = isWhole ? scene.flood : newFlood(scene, scene.seeds, conn, shared);
  if (shared.pixels > 0) floodDownTo(regions.flood, scene, floor);
  return Object.assign(regions, rangesOf(scene.result, regions.runs));
}

/** The least and the greatest value in each run. */
function rangesOf(result, { count, starts, ends }) {
  const leasts = new result.constructor(count), greatests = new result.constructor(count);
  for (let run = 0; run < count; run++) {
    let least = result[starts[run]], greatest = least;
    for (let place = starts[run] + 1, end = ends[run]; place < end; place++) {
      const value = result[place];
      if (value < least) least = value;
      else if (value > greatest) greatest = value;
    }
    leasts[run] = least;
    greatests[run] = greatest;
  }
  return { leasts, greatests };
}

/** The runs of the pixels of at least a half of a level, or of the level where these are much, with their values. */
function newLevels(scene, level) {
  const lower = Math.max(level >> 1, 1), runs = runsByLevel(scene, lower);
  const isMuch = pixelsIn(runs) > scene.result.length / 2;
  const levels = isMuch ? { floor: level, runs: runsByLevel(scene, level) } : { floor: lower, runs };
  return Object.assign(levels, rangesOf(scene.result, levels.runs));
}

function pixelsIn({ count, starts, ends }) {
  let pixels = 0;
  for (let run = 0; run < count; run++) pixels += ends[run] - starts[run];
  return pixels;
}

/** The runs of the pixels of at least a level, which is nowhere below the floor. */
function runsFrom({ result }, { runs, leasts, greatests }, level) {
  const kept = newRuns();
  for (let run = 0; run < runs.count; run++) {
    if (leasts[run] >= level) addKept(kept, runs.starts[run], runs.ends[run]);
    else if (greatests[run] >= level) keepFrom(kept, result, level, runs.starts[run], runs.ends[run]);
  }
  return kept;
}

/** The runs of the pixels of at least what is kept of their owners, which is nowhere below the floor. */
function runsByOwner({ result }, { runs, owners, flood, leasts, greatests }, thresholds) {
  const kept = newRuns();
  for (let run = 0; run < runs.count; run++) {
    const owner = owners[run], start = runs.starts[run], end = runs.ends[run], threshold = thresholds[owner];
    if (owner === SEVERAL) keepByPixels(kept, result, flood, thresholds, start, end);
    else if (leasts[run] >= threshold) addKept(kept, start, end);
    else if (greatests[run] >= threshold) keepFrom(kept, result, threshold, start, end);
  }
  return kept;
}

function keepFrom(kept, result, threshold, start, end) {
  for (let place = start; place < end; place++) {
    if (result[place] < threshold) continue;
    const first = place;
    while (place < end && result[place] >= threshold) place++;
    addKept(kept, first, place);
  }
}

/** Keeps by the owner of each pixel. One that is still open is nobody's. */
function keepByPixels(kept, result, { owners, open }, thresholds, start, end) {
  const isKept = place => owners[place] !== open && result[place] >= thresholds[owners[place]];
  for (let place = start; place < end; place++) {
    if (!isKept(place)) continue;
    const first = place;
    while (place < end && isKept(place)) place++;
    addKept(kept, first, place);
  }
}

// ---- Labels ----

/**
 * The number of the object of each pixel that is kept, and 0 elsewhere. A part belongs to the first object that has a
 * pixel in it; where it is cut, each pixel to the nearest in it, and of equally near ones to the first. Areas has the
 * pixels of each object, and lonely how many parts no object has a pixel in.
 */
function labelsOf(scene, seeds, runs, { conn, isCut }) {
  const { numbers, before } = oldNumbers(scene, seeds.objects), open = openNumber(numbers);
  const counts = fillsOf(runs, scene.width, seeds, conn, isCut ? open : 0), { areas, opened, lonely } = counts;
  changeRuns(numbers, before, runs, open);
  if (opened > 0) shareOut(scene.width, seeds.spans, conn, numbers, areas, open, new Int32Array(opened));
  return { numbers, areas, lonely, runs };
}

/** Finds what each run is filled with: its object, 0 where it has none, or open where several are to share it. */
function fillsOf(runs, width, seeds, conn, open) {
  const parts = connectedParts(runs, width, conn), { least, greatest } = endsOfParts(runs, parts, seeds);
  const counts = { areas: new Uint32Array(seeds.objects.length + 1), opened: 0, lonely: 0 };
  runs.fills = new Uint32Array(runs.count);
  for (let run = 0; run < runs.count; run++) {
    const part = parts[run], owner = least[part], length = runs.ends[run] - runs.starts[run];
    const isOpen = open > 0 && owner < greatest[part];
    runs.fills[run] = isOpen ? open : owner;
    if (isOpen) counts.opened += length;
    else if (owner > 0) counts.areas[owner] += length;
    else if (part === run) counts.lonely++;
  }
  return counts;
}

/** The numbers of a labelling that nobody needs any more, with the runs that are filled in them; or new ones. */
function oldNumbers(scene, objects) {
  const { spare, result } = scene, bytes = objects.length < 65535 ? 2 : 4;
  scene.spare = null;
  if (spare?.numbers.byteLength === result.length * bytes) return { numbers: spare.numbers, before: spare.runs };
  return { numbers: numbersFor(objects, result.length), before: { count: 0, starts: [], ends: [], fills: [] } };
}

/** Fills the runs in numbers in which others are filled. Only what differs is written: mostly that is little. */
function changeRuns(numbers, before, runs, open) {
  const most = numbers.length;
  for (let old = 0, run = 0, place = 0; old < before.count || run < runs.count;) {
    const oldStart = old < before.count ? Math.max(before.starts[old], place) : most;
    const start = run < runs.count ? Math.max(runs.starts[run], place) : most, from = Math.min(oldStart, start);
    const oldEnd = oldStart === from ? before.ends[old] : oldStart, end = start === from ? runs.ends[run] : start;
    const was = oldStart === from ? before.fills[old] : 0, fill = start === from ? runs.fills[run] : 0;
    place = Math.min(oldEnd, end);
    if (was !== fill || was === open) fillRun(numbers, fill, from, place);
    if (old < before.count && before.ends[old] <= place) old++;
    if (run < runs.count && runs.ends[run] <= place) run++;
  }
}

function fillRuns(numbers, number, { count, starts, ends }) {
  for (let run = 0; run < count; run++) fillRun(numbers, number, starts[run], ends[run]);
}

/** Short runs are filled by hand: they are most, and a call costs more. */
function fillRun(numbers, number, start, end) {
  if (end - start > 64) numbers.fill(number, start, end);
  else for (let place = start; place < end; place++) numbers[place] = number;
}

/** Gives each open pixel to the nearest object of its part: who reaches it first, step by step, from the first on. */
function shareOut(width, { count, starts, ends, owners }, conn, numbers, areas, open, queue) {
  let end = 0;
  for (let k = 0; k < count; k++) {
    for (let place = starts[k]; place < ends[k]; place++) {
      if (numbers[place] !== open) continue;
      numbers[place] = owners[k];
      queue[end++] = place;
    }
  }
  const step = conn === 8 ? stepEight : stepFour;
  for (let taken = 0; taken < end; taken++) {
    areas[numbers[queue[taken]]]++;
    end = step(queue[taken], width, numbers, open, queue, end);
  }
}

function stepFour(place, width, numbers, open, queue, end) {
  const number = numbers[place], count = numbers.length;
  if (place >= width && numbers[place - width] === open) {
    numbers[place - width] = number;
    queue[end++] = place - width;
  }
  if (place > 0 && numbers[place - 1] === open && place % width !== 0) {
    numbers[place - 1] = number;
    queue[end++] = place - 1;
  }
  if (place + 1 < count && numbers[place + 1] === open && (place + 1) % width !== 0) {
    numbers[place + 1] = number;
    queue[end++] = place + 1;
  }
  if (place + width < count && numbers[place + width] === open) {
    numbers[place + width] = number;
    queue[end++] = place + width;
  }
  return end;
}

function stepEight(place, width, numbers, open, queue, end) {
  const number = numbers[place], x = place % width, first = x > 0 ? -1 : 0, last = x + 1 < width ? 1 : 0;
  for (let row = place - width; row <= place + width; row += width) {
    if (row < 0 || row >= numbers.length) continue;
    for (let other = row + first; other <= row + last; other++) {
      if (numbers[other] !== open) continue;
      numbers[other] = number;
      queue[end++] = other;
    }
  }
  return end;
}

// ---- All of it ----

/**
 * What is worked with. Seeds are made of strokes, ceilings of the result; levels, regions and flood where needed. The
 * spare is a labelling whose numbers may be used again. Where more pixels are shared than some, all are flooded, and a
 * floor of regions is too low.
 */
function newScene(width, height, mask, result) {
  return { width, height, mask, result, ceilings: null, levels: null, seeds: null, regions: null, flood: null,
    spare: null, mostShared: 1 << 21, tooLow: 0 };
}

/**
 * The labelling of a scene with its seeds by a choice: { kind: "level", level } or { kind: "share", share }, with conn,
 * 4 or 8, and isCut. Its runs are those of all pixels that are kept. The result changes by `putSamples` and strokes by
 * `changeScene`, which is called behind either, and forgets what was made of them.
 */
function labelling(scene, choice) {
  const { width, height, seeds } = scene;
  scene.ceilings ??= ceilingsOf(scene.result);
  const runs = choice.kind === "level" ? runsAbove(scene, choice.level) : runsByShare(scene, choice);
  return { width, height, objects: seeds.objects, ...labelsOf(scene, seeds, runs, choice) };
}

function runsAbove(scene, level) {
  if (!(scene.levels?.floor <= level)) scene.levels = newLevels(scene, level);
  return runsFrom(scene, scene.levels, level);
}

function runsByShare(scene, { share, conn }) {
  const { seeds, mask } = scene;
  seeds.brightest ??= brightestOf(mask, seeds.spans, seeds.objects);
  const thresholds = thresholdsOf(seeds.brightest, share);
  const floor = thresholds.reduce((one, other) => Math.min(one, other));
  const isThere = scene.regions?.conn === conn && scene.regions.floor <= floor;
  if (!isThere) scene.regions = newRegions(scene, conn, floor);
  return runsByOwner(scene, scene.regions, thresholds);
}

/** Puts samples into a box of the result. */
function putSamples({ width, result, ceilings }, { left, top, right, bottom, samples }) {
  for (let y = top, place = 0; y < bottom; y++, place += right - left) {
    result.set(samples.subarray(place, place + right - left), y * width + left);
    if (ceilings) findCeilings(result, ceilings, y * width + left, y * width + right);
  }
}

/** Says that result or strokes of a scene are others. */
function changeScene(scene, strokes) {
  scene.levels = scene.regions = scene.flood = null;
  if (strokes) scene.seeds = seedsOf(strokes, scene);
}
