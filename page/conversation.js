// ---- The conversation: one request at a time, so that answers come in their order ----

// Milliseconds between two requests, behind failures at most.
const REST = 150, REST_WHILE_GROWING = 4, MOST_REST = 5000;
const restBehind = failures => Math.min(250 * 2 ** failures, MOST_REST);
const TELLING_FAILURES = 3;  // so many, and the page asks for a new address
// Where many tiles are left to grow, or an answer has brought many bytes of samples while the image grows, the page
// asks for numbers alone, for so many milliseconds: most of what it would be told changes again.
const MANY_TILES = 256, MANY_BYTES = 1 << 20, MOST_NUMBERS = 100;
const NO_SAMPLES = "1000000000000000000";  // a step that no board comes to
const looking = { samplesFrom: 0 };  // when they are asked for again
const silence = { failures: 0 };
const ALL_SAVED = { failures: 0, code: "", next: 0 };
const saves = { ...ALL_SAVED };  // how often in turn and why edits were not kept, and when they are sent again
let wake = () => {};

function rest(milliseconds) {
  return new Promise(resolve => {
    wake = resolve;
    setTimeout(resolve, milliseconds);
  });
}

async function converse() {
  while (board.isOpen) {
    await exchange().then(endSilence, noteSilence);
    if (silence.failures > 0) await rest(restBehind(silence.failures));
    else if (!nextEdit()) await rest(board.isQuiet ? REST : REST_WHILE_GROWING);
  }
}

/** The edit that is to be sent now. After a silence none is: the program may have been started anew. */
function nextEdit() {
  return silence.failures === 0 && performance.now() >= saves.next ? outbox[0] : undefined;
}

/** Sends an edit, or looks for news. */
async function exchange() {
  const edit = nextEdit();
  if (!edit && performance.now() < looking.samplesFrom && await isGrowing()) return;
  const response = await (edit ? post(edit) : look());
  if (edit && response.status !== 200) return turnDown(edit, response);
  const answer = readAnswer(bytesOf(edit ? await newsBehind(edit, response) : response));
  if (answer.run !== board.run && !isSameMask(readImage(await fetchBytes("mask")))) return closeBoard();
  takeAnswer(answer);
  if (edit) finish(edit, answer);
  sayBoard();
}

const moment = () => `run=${board.run}&since=${board.step}`;
const look = () => request(`changes?${moment()}`);

/** Looks how much is left to grow, without samples. It says whether they are still to be waited for. */
async function isGrowing() {
  const response = await request(`changes?run=${board.run}&since=${NO_SAMPLES}`);
  const { run, isQuiet, tilesLeft } = readAnswer(bytesOf(response));
  if (isQuiet || run !== board.run) return false;
  board.tilesLeft = tilesLeft;
  sayBoard();
  return true;
}

/**
 * Posts an edit. A state file is posted without a moment, and a withdrawal, which may change all of the image twice,
 * with one that brings no samples. What is new is asked for behind them.
 */
function post({ path, body, withdrawn }) {
  const since = withdrawn.length > 0 ? NO_SAMPLES : board.step;
  return request(path === "edits" ? `edits?run=${board.run}&since=${since}` : path, { method: "POST", body });
}

/** What is new behind an edit: its answer, or what is asked for behind it, once little is left to grow. */
async function newsBehind({ path, withdrawn }, response) {
  if (path === "state") return look();
  if (withdrawn.length === 0) return response;
  const { tilesLeft } = readAnswer(bytesOf(response));
  const end = performance.now() + (tilesLeft < MANY_TILES ? 0 : MOST_NUMBERS);
  while (performance.now() < end && outbox.length === 1 && await isGrowing()) await rest(REST_WHILE_GROWING);
  return look();
}

/** The lines up to the first empty one, and the samples behind it. */
function readAnswer(bytes) {
  let end = bytes.indexOf(10);
  while (end >= 0 && bytes[end + 1] !== 10) end = bytes.indexOf(10, end + 1);
  if (end < 0) throw new Unanswered(0);
  const [numbers, ...lines] = new TextDecoder().decode(bytes.subarray(0, end)).split("\n");
  const [run, , step, quiet, tilesLeft] = numbers.split(" ");
  const isRectangle = line => /^\d/.test(line);
  return {
    run, step, isQuiet: quiet === "1", tilesLeft: Number(tilesLeft),
    rectangles: lines.filter(isRectangle).map(readRectangle),
    edits: lines.filter(line => !isRectangle(line)),
    samples: bytes.subarray(end + 2),
  };
}

function readRectangle(line) {
  const [left, top, width, height] = line.split(" ").map(Number);
  return { left, top, right: left + width, bottom: top + height };
}

function takeAnswer(answer) {
  if (answer.run !== board.run) clearBoard();
  takeRectangles(answer);
  answer.edits.forEach(takeLine);
  if (answer.rectangles.length > 0) sayPixel();
  if (answer.edits.length > 0) {
    followClasses();
    sayCounts();
    sayClasses();
    hover();
  }
  if (answer.isQuiet && !board.isQuiet) redrawOverlay();
  noteNews(answer);
  const { run, step, isQuiet, tilesLeft } = answer;
  Object.assign(board, { run, step, isQuiet, tilesLeft });
  looking.samplesFrom = isQuiet || answer.samples.length < MANY_BYTES ? 0 : performance.now() + MOST_NUMBERS;
}

function takeRectangles({ rectangles, samples }) {
  const sampleBytes = board.maxval < 256 ? 1 : 2;
  let place = 0;
  for (const box of rectangles) {
    const count = (box.right - box.left) * (box.bottom - box.top);
    putRows(box, readSamples(samples, place, count, board.maxval));
    place += count * sampleBytes;
    soil(box);
  }
}

/** Puts samples row by row into a box of the image. */
function putRows({ left, top, right, bottom }, samples) {
  const width = right - left;
  for (let y = top, place = 0; y < bottom; y++, place += width) {
    board.image.set(samples.subarray(place, place + width), y * board.width + left);
  }
}

function takeLine(line) {
  const [kind, tag] = line.split(" ", 2);
  if (kind === "withdraw") dropStroke(tag);
  else if (!board.strokes.has(tag)) putStroke(readStroke(line));
}

function finish(edit, answer) {
  dropEdit(edit);
  Object.assign(saves, ALL_SAVED);
  timings.push({ begun: edit.begun, answered: performance.now(), drawn: 0, grown: 0 });
  const came = answer.edits.filter(line => !line.startsWith("withdraw ")).length;
  say(edit.subject ? `Joined ${edit.subject}: ${came} strokes came.` : "");
}

/** Notes of the edits that were answered when they came to be drawn. */
function noteDrawn() {
  const now = performance.now();
  for (let k = timings.length - 1; k >= 0 && timings[k].grown === 0; k--) {
    timings[k].drawn ||= now;
    if (board.isQuiet) timings[k].grown = now;
  }
}

/** An edit that was not taken is refused for good, or waits until the program can keep it. */
function turnDown(edit, { status, bytes }) {
  const [, code] = /^seedpaint: (.+)/.exec(new TextDecoder().decode(bytes)) ?? [];
  if (status === 413) refuse(edit, "413");
  else if (status === 409) refuse(edit, code ?? "");
  else if (status === 503 && code) holdBack(code);
  else throw new Unanswered(status);
  sayBoard();
}

/** Drops an edit, or all parts of a file. */
function refuse(edit, code) {
  outbox.filter(other => other === edit || edit.file && other.file === edit.file).forEach(dropEdit);
  sayFault(`Refused${edit.subject && ` ${edit.subject}`}: ${wordsFor(code)} (${code}).`);
}

/** The program keeps nothing now. Edits are sent again behind a pause that grows; meanwhile the page asks for news. */
function holdBack(code) {
  saves.code = code;
  saves.failures++;
  saves.next = performance.now() + restBehind(saves.failures);
}

function endSilence() {
  if (silence.failures === 0 || !board.isOpen) return;
  silence.failures = 0;
  hideBanner();
  say("The program answers again.");
  sayBoard();
}

function noteSilence(fault) {
  silence.failures++;
  if (!(fault instanceof Unanswered)) reportError(fault);
  Object.assign(saves, ALL_SAVED);
  if (fault.isMoved) showMove("The program was started anew, under another address:");
  else if (silence.failures >= TELLING_FAILURES) showMove("The program does not answer. If it was started anew,");
  sayFault("The program does not answer, or could not save. What is not kept yet is sent again.");
  sayBoard();
}

function showMove(text) {
  showBanner(`${text} open the address that it printed, or the file of its --forward. What is not kept yet stays in `
    + "this browser, and comes along if you enter that address here.", ["move", "moveFault"]);
}

/** Ends the conversation: what was painted here is for another mask. */
function closeBoard() {
  board.isOpen = false;
  showBanner("The program was started anew, with another mask. Nothing more is sent from this page. "
    + "Reload it to paint on the new mask.", ["reload"]);
  sayBoard();
}
