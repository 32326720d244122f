// ---- COCO: a labelling as JSON with its masks as run lengths. Nothing here knows of the page ----

const COLUMNS_AT_ONCE = 32;

/** The parts of the JSON of a labelling of a file. Each label with pixels is an annotation, its class the category. */
function* cocoParts(labelling, fileName, nameOf) {
  const runs = [];  // for each number where its runs begin and end, column by column
  const { width, height } = labelling;
  for (let left = 0; left < width; left += COLUMNS_AT_ONCE) {
    addColumns(runs, labelling, left, Math.min(left + COLUMNS_AT_ONCE, width));
    yield { share: left / width, part: "" };
  }
  const { objects } = labelling, head = { info: { description: "Labels of Seedpaint" }, licenses: [],
    images: [{ id: 1, file_name: fileName, width, height }], categories: categoriesOf(objects, nameOf) };
  yield { share: 1, part: `${JSON.stringify(head).slice(0, -1)},"annotations":[` };
  const present = objects.filter(({ number }) => runs[number]).sort((one, other) => one.number - other.number);
  for (const object of present) {
    const text = JSON.stringify(annotationOf(object, runs[object.number], width, height));
    yield { share: 1, part: `${object === present[0] ? "" : ","}\n${text}` };
  }
  yield { share: 1, part: "\n]}\n" };
}

/** Adds the runs of some columns. A run goes on from the foot of one column at the head of the next. */
function addColumns(runs, { width, height, numbers }, left, right) {
  const columns = turned(numbers, width, height, left, right);
  for (let first = 0, end; first < columns.length; first = end) {
    const number = columns[first];
    for (end = first + 1; end < columns.length && columns[end] === number;) end++;
    if (number > 0) addRunOf(runs[number] ??= [], left * height + first, left * height + end);
  }
}

function addRunOf(runs, start, end) {
  if (runs.at(-1) === start) runs[runs.length - 1] = end;
  else runs.push(start, end);
}

/** Some columns of a picture, one behind the other. */
function turned(numbers, width, height, left, right) {
  const columns = new numbers.constructor((right - left) * height);
  for (let y = 0; y < height; y++) {
    for (let x = left; x < right; x++) columns[(x - left) * height + y] = numbers[y * width + x];
  }
  return columns;
}

/** The classes of objects, each with a name of its own. */
function categoriesOf(objects, nameOf) {
  const classes = [...new Set(objects.map(({ inClass }) => inClass))].sort((one, other) => one - other);
  const names = classes.map(id => nameOf(id) || `Class ${id}`);
  return classes.map((id, k) => {
    const isTwice = names.indexOf(names[k]) !== names.lastIndexOf(names[k]);
    return { id, name: isTwice ? `${names[k]} (${id})` : names[k], supercategory: "" };
  });
}

/** What COCO has of one object. It is no crowd, and its mask is run lengths all the same, since it may have holes. */
function annotationOf({ number, inClass }, runs, width, height) {
  const { left, top, right, bottom, area } = measuresOf(runs, height);
  return { id: number, image_id: 1, category_id: inClass, iscrowd: 0, area,
    bbox: [left, top, right - left, bottom - top],
    segmentation: { size: [height, width], counts: spelledCounts(countsOfRuns(runs, width * height)) } };
}

/** Area and box of the runs of columns. */
function measuresOf(runs, height) {
  const box = { left: Math.floor(runs[0] / height), top: height, right: 0, bottom: 0, area: 0 };
  for (let k = 0; k < runs.length; k += 2) {
    const start = runs[k], last = runs[k + 1] - 1, column = Math.floor(start / height);
    const isInOne = Math.floor(last / height) === column;
    box.top = Math.min(box.top, isInOne ? start % height : 0);
    box.bottom = Math.max(box.bottom, isInOne ? last % height + 1 : height);
    box.right = Math.floor(last / height) + 1;
    box.area += last + 1 - start;
  }
  return box;
}

/** How many pixels are outside, inside, outside and so on in turns. */
function countsOfRuns(runs, size) {
  const counts = runs.map((place, k) => place - (k > 0 ? runs[k - 1] : 0));
  if (runs.at(-1) < size) counts.push(size - runs.at(-1));
  return counts;
}

/**
 * Counts as characters, each of which has five bits and says whether more follow. From the fourth count on it is the
 * difference from the one two before.
 */
function spelledCounts(counts) {
  const codes = [];
  counts.forEach((count, k) => {
    let left = k > 2 ? count - counts[k - 2] : count, isMore = true;
    while (isMore) {
      const bits = left & 31;
      left >>= 5;
      isMore = left !== (bits & 16 ? -1 : 0);
      codes.push(48 + (isMore ? bits | 32 : bits));
    }
  });
  return textOfCodes(codes);
}

function textOfCodes(codes) {
  let text = "";
  for (let start = 0; start < codes.length; start += 4096) {
    text += String.fromCharCode(...codes.slice(start, start + 4096));
  }
  return text;
}
