// ---- Classes: their names and colours, and which are hidden or locked. Each browser keeps its own for each mask ----

const MOST_CLASS = 255, MOST_NAME = 60;

const classes = {
  kept: new Map(),  // of each class what is not as at first: name, colour, isHidden, isLocked, isListed
  listeners: [],    // called with the number of a class and what changed of it, or with 0 where all may have

  /** What is known of a class. */
  get(number) {
    const first = { name: `Class ${number}`, colour: firstColour(number), isHidden: false, isLocked: false };
    return { number, ...first, isListed: false, ...this.kept.get(number) };
  },

  /** Changes a class, and keeps that. */
  change(number, change) {
    const kept = differing(number, { ...this.kept.get(number), ...change });
    if (Object.keys(kept).length > 0) this.kept.set(number, kept);
    else this.kept.delete(number);
    keepClasses();
    this.tell(number, change);
  },

  listen(listener) {
    this.listeners.push(listener);
  },

  tell(number, change) {
    for (const listener of this.listeners) listener(number, change);
  },
};

const classColour = number => classes.kept.get(number)?.colour ?? firstColour(number);
const isHiddenClass = number => classes.kept.get(number)?.isHidden ?? false;
const isLockedClass = number => classes.kept.get(number)?.isLocked ?? false;
const isWithinReach = ({ inClass }) => !isHiddenClass(inClass) && !isLockedClass(inClass);

/** A name on one line, without blanks at its ends. */
function plainName(text) {
  return text.replace(/[\p{Cc}\s]+/gu, " ").trim().slice(0, MOST_NAME).trim();
}

/** What of a class is not as at first. */
function differing(number, { name = "", colour, isHidden, isLocked, isListed }) {
  const kept = {}, plain = plainName(name);
  if (plain && plain !== `Class ${number}`) kept.name = plain;
  if (colour && hexOf(colour) !== hexOf(firstColour(number))) kept.colour = colour;
  for (const [key, holds] of Object.entries({ isHidden, isLocked, isListed })) if (holds) kept[key] = true;
  return kept;
}

// ---- The text that is kept ----

function spellClasses(kept) {
  const spelled = [...kept].map(([number, { colour, ...more }]) => {
    return [number, colour ? { ...more, colour: hexOf(colour) } : more];
  });
  return JSON.stringify(Object.fromEntries(spelled));
}

/** What a text spells of classes. What it spells wrongly is left out. */
function readClasses(text) {
  const kept = new Map();
  for (const [key, spelled] of Object.entries(readObject(text))) {
    const number = Number(key);
    if (!isClass(number) || spelled === null || typeof spelled !== "object") continue;
    const { name, colour, isHidden, isLocked, isListed } = spelled;
    const shown = { name: typeof name === "string" ? name : "", colour: readHex(String(colour)) };
    const known = differing(number, { ...shown, ...trueOnly({ isHidden, isLocked, isListed }) });
    if (Object.keys(known).length > 0) kept.set(number, known);
  }
  return kept;
}

const isClass = number => Number.isInteger(number) && number >= 1 && number <= MOST_CLASS;
const trueOnly = flags => Object.fromEntries(Object.entries(flags).filter(([, holds]) => holds === true));

function readObject(text) {
  try {
    return Object(JSON.parse(text));
  } catch (_) {
    return {};
  }
}

const classesName = () => `classes ${board.fingerprint}`;

function keepClasses() {
  if (classes.kept.size === 0) local.drop(classesName());
  else local.set(classesName(), spellClasses(classes.kept));
}

/** Takes up what was kept of the classes of this mask, here or in another tab. */
function recallClasses() {
  classes.kept = readClasses(local.get(classesName()));
  classes.tell(0, {});
}

/** Takes up what another address kept of the classes of a mask, where nothing of them is kept here. */
function bringClasses(mask, text) {
  const name = `classes ${mask}`, kept = readClasses(text);
  if (kept.size === 0 || local.get(name) !== null) return;
  local.set(name, spellClasses(kept));
  if (mask === board.fingerprint) recallClasses();
}

// ---- Numbers that are typed ----

const TYPING = 500;  // milliseconds in which a further digit goes on with a number

/** The number behind a further digit: it goes on with the one before where it came soon, and that is a class. */
function typedNumber(before, digit, wasSoon) {
  const longer = `${before}${digit}`;
  return wasSoon && isClass(Number(longer)) && longer.length <= 3 ? longer : digit;
}
