// ---- Labels: what the worker is told and asked, and which labelling is shown ----

const NEWS_REST = 250, MOST_NEWS_REST = 1500;  // milliseconds behind which new strokes and samples are labelled
const TELLING_WORK = 200;  // and behind which the page says that labels are at work

const labels = {
  choice: null,             // { kind, share, level, isCut, areOwn }, kept over a reload
  conn: 0,                  // the program's neighbours, 4 or 8; 0 while they are not known
  worker: null, asked: 0,   // and when it was asked, 0 while it is not at work
  isWanted: false,          // something changed since it was asked
  shown: null, stamp: 0,    // the last labelling, and how many there were
  spare: null,              // the one before, whose numbers the worker takes for the next one
  classes: new Set(),       // of its objects
  boxes: new Map(), tags: new Set(), isAnew: true,  // news that the worker does not have
  newsFrom: 0, timer: 0,    // since when there are, and what waits for their end
  waiting: [],              // promises of a labelling of now
};

const labelsName = () => `labels ${board.fingerprint}`;
const areLabelsSeen = () => view.name === "labels";

/** The labelling of what is there now, as it is shown in the view of labels. A result that grows is waited for. */
function currentLabelling() {
  const { promise, resolve, reject } = newPromise();
  labels.waiting.push({ resolve, reject });
  askLabels();
  return promise;
}

function newPromise() {
  const made = {};
  made.promise = new Promise((resolve, reject) => Object.assign(made, { resolve, reject }));
  return made;
}

// ---- What is new ----

/** Notes what an answer of the program changes of result and strokes. */
function noteNews({ run, rectangles, edits, isQuiet }) {
  if (!labels.worker) return;
  if (run !== board.run) Object.assign(labels, { isAnew: true, conn: 0 });
  for (const box of rectangles) noteBox(box);
  for (const line of edits) labels.tags.add(line.split(" ", 2)[1]);
  if (rectangles.length + edits.length > 0 || labels.isAnew || isQuiet && labels.waiting.length > 0) labelSoon();
}

function noteBox(box) {
  for (const block of blocks) {
    if (!meets(block.box, box)) continue;
    const part = common(block.box, box), before = labels.boxes.get(block);
    labels.boxes.set(block, before ? around(before, part) : part);
  }
}

/** Labels anew once nothing was new for a while, or news have waited long enough. */
function labelSoon() {
  const now = performance.now();
  labels.newsFrom ||= now;
  clearTimeout(labels.timer);
  labels.timer = setTimeout(askLabels, Math.max(0, Math.min(NEWS_REST, labels.newsFrom + MOST_NEWS_REST - now)));
}

// ---- The worker ----

/** Asks for labels where somebody sees them or waits for them, and the worker is free. */
function askLabels() {
  if (!board.isOpen || !areLabelsSeen() && labels.waiting.length === 0) return;
  labels.isWanted = true;
  if (labels.asked === 0) askWorker().catch(endLabels);
}

async function askWorker() {
  labels.asked = performance.now();
  labels.conn ||= await programsConn();
  sayLabels();
  setTimeout(sayLabels, TELLING_WORK);
  labels.isWanted = false;
  const waiting = board.isQuiet ? labels.waiting.splice(0) : [];
  try {
    const made = await answerOfWorker({ ...labels.choice, conn: labels.conn || 4 });
    labels.spare = labels.shown?.isGivenAway ? null : labels.shown;
    made.isGivenAway = waiting.length > 0;
    showLabelling(made);
    for (const { resolve } of waiting) resolve(made);
  } catch (fault) {
    labels.waiting.push(...waiting);
    throw fault;
  }
  labels.asked = 0;
  sayLabels();
  if (labels.isWanted || labels.waiting.length > 0 && board.isQuiet) askLabels();
}

/** Says why there are no labels. A silent program is asked again; a worker is given up, and the next begins anew. */
function endLabels(fault) {
  const isSilence = fault instanceof Unanswered;
  if (!isSilence) {
    labels.worker?.terminate();
    Object.assign(labels, { worker: null, isAnew: true });
  }
  Object.assign(labels, { asked: 0, isWanted: false });
  for (const { reject } of labels.waiting.splice(0)) reject(fault);
  sayLabels();
  if (isSilence) setTimeout(askLabels, MOST_NEWS_REST);
  else sayFault(`No labels: ${fault.message}. Nothing painted is lost; another choice begins anew.`);
}

/** Tells the worker what is new, and asks it. */
function answerOfWorker(choice) {
  const { promise, resolve, reject } = newPromise();
  if (!labels.worker) openWorker();
  labels.worker.onmessage = ({ data }) => {
    if (data.fault) reject(new Error(data.fault));
    else resolve({ objects: labels.shown?.objects, ...data.labels });  // (it tells the objects where they are others)
  };
  labels.worker.onerror = event => {
    event.preventDefault();
    reject(new Error(event.message || "the browser lets no worker begin"));
  };
  const news = newsForWorker(), spare = takeSpare();
  const arrays = spare ? [spare.numbers, spare.runs.starts, spare.runs.ends, spare.runs.fills] : [];
  for (const { samples } of news.boxes) arrays.push(samples);
  labels.worker.postMessage({ news, choice, spare }, arrays.map(({ buffer }) => buffer));
  return promise;
}

/** The numbers and runs of a labelling that is shown no more, and that nobody was given. */
function takeSpare() {
  const { spare } = labels;
  labels.spare = null;
  return spare && { numbers: spare.numbers, runs: spare.runs };
}

function openWorker() {
  const { width, height } = board, mask = board.mask.slice();
  labels.worker = newLabelsWorker();
  labels.worker.postMessage({ opening: { width, height, mask } }, [mask.buffer]);
  labels.isAnew = true;
}

/** What the worker does not have yet. From now on it has. */
function newsForWorker() {
  if (labels.isAnew) for (const block of blocks) labels.boxes.set(block, block.box);
  const tags = labels.isAnew ? [...labels.tags, ...board.strokes.keys()] : [...labels.tags];
  const boxes = [...labels.boxes.values()].map(box => ({ ...box, samples: samplesIn(box) }));
  const live = [...new Set(tags)].map(tag => board.strokes.get(tag)).filter(Boolean);
  const gone = tags.filter(tag => !board.strokes.has(tag)), { isAnew } = labels;
  Object.assign(labels, { boxes: new Map(), tags: new Set(), isAnew: false, newsFrom: 0 });
  return { boxes, came: live.map(strokeForWorker), gone, isAnew };
}

function strokeForWorker({ tag, gesture, inClass, level, runs }) {
  const numbers = new Int32Array(3 * runs.length);
  let place = 0;
  for (const { y, first, last } of runs) {
    numbers[place++] = y;
    numbers[place++] = first;
    numbers[place++] = last;
  }
  return { tag, gesture, inClass, level: Number(level), runs: numbers };
}

/** A copy of the result's samples in a box. */
function samplesIn({ left, top, right, bottom }) {
  const samples = new board.image.constructor((right - left) * (bottom - top));
  for (let y = top, place = 0; y < bottom; y++, place += right - left) {
    samples.set(board.image.subarray(y * board.width + left, y * board.width + right), place);
  }
  return samples;
}

// ---- Neighbours ----

const CONN_PLACE = 6;  // in a state file the neighbours stand behind the length of its first frame and its magic

/** How many neighbours the program's pixels have, as the start of its state file says; 4 where it is empty. */
async function programsConn() {
  if (board.strokes.size === 0) return 0;
  const bytes = await fetchBytes("state");
  return bytes[CONN_PLACE] === 8 ? 8 : 4;
}
