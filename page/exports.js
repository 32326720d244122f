// ---- Exports: files of labels, table, result and strokes, made in slices, between which the page does what comes ----

const SLICE_TIME = 8, REST_UNTIL_GROWN = 50;  // milliseconds
const MOST_SHORT = 65535;  // the highest label that 16 bits hold
const exporting = { name: "", isStopped: false };  // the file that is being made

/** That an export cannot be done, in a sentence; or that it was stopped. */
class NoExport extends Error {}

// Of each button what its file ends with, and what makes the file.
const EXPORTS = {
  exportLabelsPng: ["-labels.png", "image/png", labelsPng],
  exportLabelsTiff: ["-labels.tif", "image/tiff", () => labelsTiff(16)],
  exportLabelsTiff32: ["-labels-32.tif", "image/tiff", () => labelsTiff(32)],
  exportTable: ["-labels.csv", "text/csv", labelsTable],
  exportCoco: ["-coco.json", "application/json", labelsCoco],
  exportResultPgm: ["-result.pgm", "image/x-portable-graymap", async () => pgmParts(await grownResult())],
  exportResultPng: ["-result.png", "image/png", async () => pngParts(await grownResult())],
  exportStrokes: ["-strokes.txt", "text/plain", async () => editParts([...board.strokes.values()], board.fingerprint)],
  exportState: [".spd", "application/octet-stream", stateParts],
};

// ---- What goes into the files ----

async function labelsPng() {
  const labelling = await shownLabelling();
  refuseAbove(labelling, "a PNG of 16 bits does not hold. Take the TIFF of 32 bits");
  return pngParts({ ...labelling, samples: labelling.numbers, bits: 16 });
}

async function labelsTiff(bits) {
  const labelling = await shownLabelling();
  if (bits === 16) refuseAbove(labelling, "16 bits do not hold. Take the TIFF of 32 bits");
  return tiffParts({ ...labelling, samples: labelling.numbers, bits });
}

function refuseAbove(labelling, why) {
  const highest = highestNumber(labelling);
  if (highest > MOST_SHORT) throw new NoExport(`The labels go up to ${highest}, which ${why}.`);
}

async function labelsTable() {
  return tableParts(await shownLabelling(), board.mask, nameOfClass);
}

async function labelsCoco() {
  return cocoParts(await shownLabelling(), pictureName(), nameOfClass);
}

const nameOfClass = number => classes.get(number).name;

/** The labels that are shown now, or would be. */
async function shownLabelling() {
  await untilGrown();
  if (board.strokes.size === 0) throw new NoExport("There are no labels yet: no stroke is kept.");
  if (typeof currentLabelling !== "function") throw new NoExport("This page has no labels yet.");
  const labelling = await currentLabelling();
  if (!labelling.areas.some(area => area > 0)) throw new NoExport("No pixel has a label: lower the level or share.");
  return labelling;
}

/** The result as it is now. It is copied, since painting goes on while the file is made. */
async function grownResult() {
  await untilGrown();
  const { width, height, maxval, image } = board;
  return { width, height, maxval, samples: image.slice(), bits: maxval < 256 ? 8 : 16 };
}

/** Waits until the result is that of the strokes. */
async function untilGrown() {
  while (!board.isQuiet) {
    if (silence.failures > 0) throw new NoExport("The result is not grown yet, and the program does not answer.");
    sayProgress(`${exporting.name} waits until the result is grown.`, 0);
    await new Promise(resolve => setTimeout(resolve, REST_UNTIL_GROWN));
    stopHere();
  }
}

async function stateParts() {
  return [{ share: 1, part: await fetchBytes("state") }];
}

// ---- How a file is made ----

/** Makes a file and gives it to the browser, or says why not. One is made at a time. */
async function exportFile(id) {
  if (!board.isOpen) return sayFault("No picture is open, so there is nothing to export.");
  if (exporting.name) return sayFault(`${exporting.name} is being made. Wait for it, or stop it.`);
  const [ending, type, partsOfFile] = EXPORTS[id], name = stemOf(pictureName()) + ending;
  Object.assign(exporting, { name, isStopped: false });
  sayProgress(`${name} is being made.`, 0);
  try {
    const file = await fileOf(await partsOfFile(), type);
    giveFile(name, file);
    say(`${name} is there: ${sizeInWords(file.size)}${notInIt()}.`);
  } catch (fault) {
    sayFault(whyNoFile(name, fault));
  } finally {
    exporting.name = "";
    sayProgress("", 0);
  }
}

/** One file of parts. Whenever some time is over, the page does what else there is to do. */
async function fileOf(parts, type) {
  const pieces = [], loose = [];
  let begun = performance.now();
  for await (const { share, part } of parts) {
    loose.push(part);
    if (performance.now() - begun < SLICE_TIME) continue;
    pieces.push(new Blob(loose.splice(0)));
    sayProgress(`${exporting.name} is being made.`, share);
    await breathe();
    stopHere();
    begun = performance.now();
  }
  return new Blob([...pieces, ...loose], { type });
}

/** Lets the page do whatever else waits for it. */
function breathe() {
  return new Promise(behindEvent);
}

function stopHere() {
  if (exporting.isStopped) throw new NoExport("It was stopped.");
}

/** Lets the browser save a file. */
function giveFile(name, file) {
  const link = Object.assign(document.createElement("a"), { href: URL.createObjectURL(file), download: name });
  link.click();
  setTimeout(() => URL.revokeObjectURL(link.href), 60000);
}

// ---- What is said ----

function whyNoFile(name, fault) {
  if (fault instanceof NoExport) return `No ${name}: ${fault.message}`;
  if (fault instanceof Unanswered) return `No ${name}: the program does not answer. Nothing painted is lost.`;
  if (fault instanceof RangeError) return `No ${name}: the browser has no memory for it. Nothing painted is lost.`;
  reportError(fault);
  return `No ${name}: ${fault.message}. Nothing painted is lost.`;
}

function notInIt() {
  const waiting = waitingBodies().length;
  return waiting === 0 ? "" : `; edits that are not kept yet, and not in it: ${waiting}`;
}

function sizeInWords(bytes) {
  return bytes < 1e6 ? `${Math.ceil(bytes / 1e3)} kB` : `${(bytes / 1e6).toFixed(1)} MB`;
}

function sayProgress(text, share) {
  sayIn("exportText", text);
  element("exportProgress").hidden = !text;
  element("exportShare").value = share;
}

// ---- Names ----

const nameOfName = () => `picture name ${board.fingerprint}`;

/** The name of the picture: what was typed, or that of the mask's file, or one by the fingerprint of the mask. */
const pictureName = () => element("pictureName").value.trim() || element("pictureName").placeholder;

/** A name without its ending, and without signs that names of files have not everywhere. */
function stemOf(name) {
  const plain = name.replace(/\.(pgm|png|tiff?|jpe?g)$/i, "").replace(/[\p{Cc}"*/:<>?\\|]/gu, "_").replace(/^\.+/, "");
  return plain.trim() || "mask";
}

/** Takes up the name that was typed before for this mask. */
function openExports() {
  element("pictureName").placeholder = board.name || `mask-${board.fingerprint.slice(0, 8)}.pgm`;
  element("pictureName").value = local.get(nameOfName()) ?? "";
}

function keepPictureName() {
  const name = element("pictureName").value.trim();
  if (name) local.set(nameOfName(), name);
  else local.drop(nameOfName());
  showName();
}

// ---- The panel ----

/** Shows or hides the panel. Where a key shows it, the keys go to its first button. */
function showExports(isShown, isByKey = false) {
  element("exports").hidden = !isShown;
  press("exportsShown", isShown);
  if (isShown && isByKey) element("exportLabelsPng").focus();
}

const toggleExports = isByKey => showExports(element("exports").hidden, isByKey);

function listenToExports() {
  for (const id of Object.keys(EXPORTS)) element(id).addEventListener("click", () => exportFile(id));
  element("exportStop").addEventListener("click", () => { exporting.isStopped = true; });
  element("pictureName").addEventListener("change", keepPictureName);
  element("exports").addEventListener("pointerup", giveKeysBack);
  element("exports").addEventListener("keydown", event => { if (event.key === "Escape") showExports(false); });
}
