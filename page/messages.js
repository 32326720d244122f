// ---- What the page says ----

// What is refused, by the first word of its code.
const DAMAGED = "it is damaged, or no state file";
const FAULTS = {
  E1: "a line of the edit cannot be read", E2: "a tag of the edit is none", E3: "a stroke of the edit is none",
  C1: "a stroke does not lie in the picture", C2: "one of its tags names another stroke already",
  D1: "it is for another picture, or for other neighbours",
  M1: "it is no state file", M2: "it is no state file", M3: "it is cut off, or no state file",
  M4: DAMAGED, M5: DAMAGED, M6: DAMAGED, M7: DAMAGED,
  V2: "the state file could not be written", 413: "it is too large for one request",
};

// Why nothing is kept, by the first word of the code, or by its letter.
const SAVING_FAULTS = {
  V2: "the state file cannot be written (disk full, read-only, locked)",
  D1: "a state file for another picture, or for other neighbours, stands there now",
  M: "the state file is damaged", M8: "the program has no memory", C4: "the program has no memory",
  C: "the state file has a stroke that does not go with those here",
};

function wordsFor(code) {
  return FAULTS[code.split(" ")[0]] ?? "the program has no memory or no place for it";
}

function savingWordsFor(code) {
  return SAVING_FAULTS[code.split(" ")[0]] ?? SAVING_FAULTS[code[0]] ?? "the program has no memory";
}

function say(text) {
  element("message").textContent = text;
  element("message").classList.remove("isFault");
}

function sayFault(text) {
  say(text);
  element("message").classList.add("isFault");
}

/** Shows a text over the picture, and those of its elements that go with it. */
function showBanner(text, names) {
  sayIn("bannerText", text);
  for (const name of ["move", "moveFault", "reload", "saveStray"]) element(name).hidden = !names.includes(name);
  element("banner").hidden = false;
}

function hideBanner() {
  element("banner").hidden = true;
  if (stray.bodies.length > 0) showStray();
}

function sayBoard() {
  const waiting = outbox.length + stray.bodies.length;
  const isInTrouble = saves.failures > 0 || silence.failures > 0 || !board.isOpen;
  sayIn("growth", board.isQuiet ? "" : `growing: ${board.tilesLeft} tiles left`);
  sayIn("kept", waiting > 0 ? `${waiting} not kept${whyNotKept()}` : "all kept");
  element("kept").classList.toggle("isWaiting", waiting > 0);
  element("saveWaiting").hidden = !isInTrouble || waitingBodies().length === 0;
}

function whyNotKept() {
  if (saves.failures === 0) return " yet";
  return `: ${savingWordsFor(saves.code)} (${saves.code}). Sent again and again; Save gives a copy of what is there.`;
}

function sayStorage() {
  const isLosing = local.inPage.size > 0 || session.inPage.size > 0;
  const lost = local.inPage.size > 0 ? "nothing outlives" : "undo does not outlive";
  sayIn("storage", isLosing ? `The browser's storage is full or off: ${lost} a reload.` : "");
}

/** Changes a text where it is another one. */
function sayIn(id, text) {
  if (element(id).textContent !== text) element(id).textContent = text;
}

/** How many strokes there are, one's own and those of others, each in its colour where that is drawn. */
function sayCounts() {
  const counts = COLOURS.map(() => 0);
  for (const { colour } of board.strokes.values()) counts[colour]++;
  const others = [2, 3, 4, 5].filter(colour => counts[colour] > 0);
  const mine = count([1], `${counts[1]} mine`);
  element("counts").replaceChildren(mine, count(others, `${board.strokes.size - counts[1]} of others`));
}

function count(colours, text) {
  const whole = document.createElement("span");
  whole.append(...marking.isByClass ? [] : colours.map(dot), text);
  return whole;
}

function dot(colour) {
  const square = document.createElement("span");
  square.className = "dot";
  square.style.background = cssColour(colour);
  return square;
}

function sayPixel() {
  const { pixel } = hand;
  if (!pixel || !holds(wholeBoard(), pixel)) {
    return sayIn("pixel", `${board.width} × ${board.height}`);
  }
  if (areLabelsSeen()) return sayIn("pixel", `x ${pixel.x} · y ${pixel.y} · ${labelInWords(pixel)}`);
  const place = pixel.y * board.width + pixel.x, values = `mask ${board.mask[place]} · result ${board.image[place]}`;
  sayIn("pixel", `x ${pixel.x} · y ${pixel.y} · ${values}`);
}

function sayActs() {
  element("undo").disabled = done.length === 0;
  element("redo").disabled = undone.length === 0;
}
