// ---- The class that is painted with: chosen by digits or in the panel, shown in the header, kept over a reload ----

const typed = { text: "", at: -Infinity };
const choiceName = () => `class ${board.fingerprint}`;

function chooseClass(number) {
  brush.inClass = number;
  keepChoice();
  followClasses();
  sayClass();
  sayClasses();
  redrawOverlay();
}

/** Takes a digit for a class, or for a further digit of its number where it came soon behind the one before. */
function typeDigit({ key, timeStamp, repeat }) {
  if (repeat) return;
  typed.text = typedNumber(typed.text, key, timeStamp - typed.at < TYPING);
  typed.at = timeStamp;
  if (isClass(Number(typed.text))) chooseClass(Number(typed.text));
}

/** Draws strokes by their class, or by their author. */
function markBy(kind) {
  marking.chosen = kind;
  keepChoice();
  followClasses();
}

function keepChoice() {
  const { inClass } = brush, by = marking.chosen;
  if (inClass === 1 && by === "") local.drop(choiceName());
  else local.set(choiceName(), JSON.stringify({ inClass, by }));
}

function recallChoice() {
  const { inClass, by } = readObject(local.get(choiceName()));
  brush.inClass = isClass(inClass) ? inClass : 1;
  marking.chosen = by === "class" || by === "author" ? by : "";
  followClasses();
}

/** Takes up what was kept of classes. */
function openClasses() {
  recallChoice();
  recallClasses();
}

/** Whether a class takes a stroke: a hidden one is shown again, a locked one takes none, which is said. */
function letsPaint(inClass = brush.inClass) {
  const { name, isHidden, isLocked } = classes.get(inClass);
  if (isLocked) sayFault(`${name} is locked and takes no strokes: unlock it under Classes, or choose another class.`);
  else if (isHidden) classes.change(inClass, { isHidden: false });
  return !isLocked;
}

function sayLocked(inClass) {
  sayFault(`${classes.get(inClass).name} is locked and stays as it is: unlock it under Classes.`);
}

/** The locked class of a stroke of an act, or undefined where there is none. */
const lockedIn = act => act.flatMap(side => side.strokes).map(({ inClass }) => inClass ?? 1).find(isLockedClass);

/** Says which class is painted with. */
function sayClass() {
  const { number, name, colour, isHidden, isLocked } = classes.get(brush.inClass);
  const state = `${isHidden ? " · hidden" : ""}${isLocked ? " · locked" : ""}`;
  const told = (name === `Class ${number}` ? name : `${number} · ${name}`) + state;
  sayIn("className", told);
  sayNamed(element("classesShown"), `Painted with: ${told}. The list of classes`, " (K)");
  element("classSwatch").style.background = cssOf(colour);
  press("byClass", marking.isByClass);
  press("byAuthor", !marking.isByClass);
}
