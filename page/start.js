// ---- Start ----

function start() {
  author = keptAuthor();
  listenToButtons();
  listenToContrast();
  listenToClasses();
  listenToLabels();
  listenToExports();
  listenToPointer();
  listenToKeys();
  listenToFiles();
  new ResizeObserver(resize).observe(element("stage"));
  followRatio();
  setTool("brush");
  setRadius(brush.radius);
  press("strokesShown", true);
  recallShadow();
  press("contrastShown", false);
  press("classesShown", false);
  press("exportsShown", false);
  open().catch(fault => {
    if (!(fault instanceof Unanswered || fault instanceof RangeError)) reportError(fault);
    showBanner(whyNotOpen(fault), ["reload"]);
  });
}

/** Why the picture is not there, or does not go on, in a sentence. */
function whyNotOpen(fault) {
  const isForMemory = fault instanceof RangeError || fault.isForMemory;
  if (fault instanceof Unanswered && !isForMemory) {
    return "The picture could not be fetched: the program does not answer at this address.";
  }
  const why = isForMemory ? "The browser has no memory for a picture of this size" : `The page ends: ${fault.message}`;
  return `${why}. Nothing is lost: what was kept stands in the state file.`;
}

async function open() {
  const [mask, news] = await Promise.all([loadPart("mask"), loadPart("changes?run=0&since=0")]);
  const name = nameInHeader(mask.headers.get("Content-Disposition"));
  openBoard(readImage(mask.bytes), await fingerprintOf(mask.bytes), name);
  board.isOpen = true;
  resize();
  fit();
  setLevel(null);
  recallActs();
  takeAnswer(readAnswer(news.bytes));
  recallEdits();
  takeAlong();
  sayBoard();
  sayCounts();
  sayPixel();
  say(board.strokes.size === 0 ? "Paint over what is to be kept." : "");
  showName();
  await converse();
}

const loads = new Map();  // of each part that is needed to begin, how many bytes came, and of how many

/** Fetches a part of what is needed to begin, and says how much is there. */
async function loadPart(path) {
  const answer = await request(path, {}, (read, total) => {
    loads.set(path, [read, total]);
    const [come, all] = [0, 1].map(k => [...loads.values()].reduce((sum, sizes) => sum + sizes[k], 0) / 1e6);
    sayIn("message", `Loading: ${come.toFixed(1)} of ${all.toFixed(1)} MB`);
  });
  bytesOf(answer);
  return answer;
}

/** The start of the SHA-256 of a file, in hexadecimal. */
async function fingerprintOf(file) {
  const digest = new Uint8Array(await crypto.subtle.digest("SHA-256", file));
  return Array.from(digest.subarray(0, 16), byte => byte.toString(16).padStart(2, "0")).join("");
}

// What a browser stores it stores for one host: the page is always at 127.0.0.1.
if (location.hostname === "localhost") location.replace(location.href.replace("//localhost", "//127.0.0.1"));
else start();
