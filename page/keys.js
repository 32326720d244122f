// ---- Keys and buttons ----

const KEYS = {
  b: () => setTool("brush"),
  i: () => setTool("line"),
  g: () => setTool("polygon"),
  d: () => setTool("eraser"),
  x: () => setTool("withdraw"),
  a: () => setLevel(null),
  m: () => setLevel(board.maxval),
  h: () => showStrokes(!view.areStrokesShown),
  s: () => toggleShadow(),
  c: () => toggleContrast(true),
  p: setByPercentiles,
  l: () => setView("labels"),
  e: () => toggleExports(true),
  "[": () => stepRadius(-1),
  "]": () => stepRadius(1),
  k: () => toggleClasses(true),
  t: () => bringPointed(),
  "+": () => zoomStep(1, hand.point ?? screenMiddle()),
  "-": () => zoomStep(-1, hand.point ?? screenMiddle()),
  "?": () => toggleHelp(),
};

function keyDown(event) {
  if (event.key === "Enter" && event.target.type === "number") return keysToPicture();
  if (isForElement(event) || !board.isOpen) return;
  const action = actionOf(event);
  if (!action) return;
  event.preventDefault();
  action();
}

/** The picture has the keys, and no button, slider or panel. */
const keysToPicture = () => overlay.focus({ preventScroll: true });

// Elements that one types or chooses in, and those that are pressed.
const TYPED_IN = "input:not([type=range]):not([type=file]):not([type=checkbox]):not([type=radio]), select, textarea";
const PRESSED = "button, a, label, summary, input:not([type=range]), [role=button], [role=option]";

/** Whether a key is for the element that has the focus: what is typed, what moves a slider, what presses a button. */
function isForElement({ target, key }) {
  if (key === "Escape" || !(target instanceof Element)) return false;
  if (key === "Tab" || target.matches(TYPED_IN)) return true;
  if (target.matches("input[type=range], input[type=radio]") && /^(Arrow|Home|End|Page)/.test(key)) return true;
  return target.matches(PRESSED) && (key === " " || key === "Enter");
}

const ARROWS = { arrowleft: [-1, 0], arrowright: [1, 0], arrowup: [0, -1], arrowdown: [0, 1] };
const SHORT_WAY = 1 / 12, LONG_WAY = 2 / 3;  // of the canvas, for one press of an arrow

/** Moves what is seen of the picture to a side. */
function lookAside([across, down], isFar) {
  const way = Math.min(picture.width, picture.height) * (isFar ? LONG_WAY : SHORT_WAY);
  sight.left -= across * way;
  sight.top -= down * way;
  followSight();
}

/** Takes back the last corner of a polygon in hand, or else the last act. */
const undoInHand = () => (cornerAction("backspace") ?? undo)();

function actionOf(event) {
  const key = event.key.toLowerCase(), isCommand = event.ctrlKey || event.metaKey;
  if (isCommand && key === "z") return event.shiftKey ? redo : undoInHand;
  if (isCommand && key === "y") return redo;
  if (key === " ") return () => holdSpace(true);
  if (key === "escape") return () => escape(event);
  if (isAtPicture(event) && cornerAction(key)) return cornerAction(key);
  if (key in ARROWS && !event.altKey && !isCommand) return () => lookAside(ARROWS[key], event.shiftKey);
  if (key === "f" && !isCommand) return event.shiftKey ? pixelForPixel : fit;
  if (/^\d$/.test(key) && !isCommand && !event.altKey) return () => typeDigit(event);
  if (key === "v" && !isCommand) return () => nextView(event.shiftKey ? -1 : 1);
  return isCommand && key !== "[" && key !== "]" ? undefined : KEYS[key];
}

/** Closes the table of keys, or drops what is in hand, or gives the keys to the picture where it does not have them. */
function escape(event) {
  if (!element("help").hidden) toggleHelp();
  else if (isAtPicture(event)) dropWhatIsInHand();
  keysToPicture();
}

const isAtPicture = ({ target }) => target === overlay || target === document.body;

function dropWhatIsInHand() {
  lineInHand.start = null;
  if (!hand.gesture) cornerAction("escape")?.();
  dropHand();
}

function holdSpace(isHeld) {
  hand.isSpaceHeld = isHeld;
  showCursor();
}

const pixelForPixel = () => zoomTo(1, hand.point ?? screenMiddle());

function toggleHelp() {
  element("help").hidden = !element("help").hidden;
}

const BUTTONS = {
  brush: KEYS.b, line: KEYS.i, polygon: KEYS.g, eraser: KEYS.d, withdraw: KEYS.x, undo: undoInHand, redo, fit,
  autoLevel: KEYS.a, mostLevel: KEYS.m, strokesShown: KEYS.h, shadowShown: KEYS.s,
  contrastShown: () => toggleContrast(false), classesShown: () => toggleClasses(false),
  byClass: () => markBy("class"), byAuthor: () => markBy("author"),
  exportsShown: () => toggleExports(false),
  showKept: () => setView("kept"), showResult: () => setView("result"), showMask: () => setView("mask"),
  showLabels: KEYS.l,
  helpButton: toggleHelp, reload: () => location.reload(), goThere: () => goTo(element("newAddress").value.trim()),
  saveStray, saveWaiting: () => saveEdits(board.fingerprint, waitingBodies()),
};

/** A button acts. One that a pointer pressed gives the keys back to the picture. */
function listenToButtons() {
  for (const [id, action] of Object.entries(BUTTONS)) {
    element(id).addEventListener("click", event => {
      action();
      if (event.detail > 0) keysToPicture();
    });
  }
  element("radius").addEventListener("input", event => setRadius(event.target.valueAsNumber));
  element("radius").addEventListener("pointerup", keysToPicture);
  element("level").addEventListener("change", event => setLevel(event.target.valueAsNumber || null));
  element("newAddress").addEventListener("keydown", event => { if (event.key === "Enter") BUTTONS.goThere(); });
  element("file").addEventListener("change", event => {
    joinFiles([...event.target.files]);
    event.target.value = "";
  });
}

function listenToPointer() {
  overlay.addEventListener("pointerdown", pointerDown);
  overlay.addEventListener("pointermove", pointerMove);
  overlay.addEventListener("pointerup", pointerUp);
  overlay.addEventListener("pointercancel", pointerLost);
  overlay.addEventListener("lostpointercapture", pointerLost);
  overlay.addEventListener("pointerleave", pointerLeave);
  overlay.addEventListener("mousedown", event => event.preventDefault());
  overlay.addEventListener("contextmenu", event => event.preventDefault());
  overlay.addEventListener("wheel", turnWheel, { passive: false });
}

function listenToKeys() {
  addEventListener("keydown", keyDown);
  addEventListener("keyup", event => { if (event.key === " ") holdSpace(false); });
  addEventListener("blur", () => holdSpace(false));
}

function listenToFiles() {
  const showDropping = isDropping => element("stage").classList.toggle("isDropping", isDropping);
  addEventListener("dragover", event => {
    event.preventDefault();
    event.dataTransfer.dropEffect = "copy";
    showDropping(true);
  });
  addEventListener("dragleave", event => { if (!event.relatedTarget) showDropping(false); });
  addEventListener("drop", event => {
    event.preventDefault();
    showDropping(false);
    joinFiles(event.dataTransfer.files);
  });
}

function joinFiles(files) {
  if (!board.isOpen) return;
  for (const file of files) joinFile(file).catch(() => sayFault(`${file.name} cannot be read.`));
}
