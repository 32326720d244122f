// ---- The panel for classes: a row for each that is used or known, with its objects ----

const classRows = new Map();  // by number
let areClassesAsked = false;
const CLASSES_REST = 100;  // milliseconds behind which the panel follows what changed

function showClasses(isShown, isByKey = false) {
  element("classes").hidden = !isShown;
  press("classesShown", isShown);
  if (!isShown) return;
  drawClasses();
  if (isByKey) classRows.get(brush.inClass).pick.focus();
}

const toggleClasses = isByKey => showClasses(element("classes").hidden, isByKey);

/** Brings the panel up to date, a moment later: what was painted is drawn before. */
function sayClasses() {
  if (areClassesAsked || element("classes").hidden) return;
  areClassesAsked = true;
  setTimeout(drawClasses, CLASSES_REST);
}

function drawClasses() {
  areClassesAsked = false;
  if (element("classes").hidden) return;
  const listed = listedClasses(), list = element("classList");
  for (const [number, { whole }] of classRows) {
    if (listed.includes(number)) continue;
    whole.remove();
    classRows.delete(number);
  }
  listed.forEach((number, place) => {
    if (!classRows.has(number)) list.insertBefore(newRow(number).whole, list.children[place] ?? null);
    sayRow(classRows.get(number));
  });
}

/** The classes that are used, known, or painted with. */
function listedClasses() {
  const numbers = new Set([...liveClasses.keys(), ...classes.kept.keys(), brush.inClass]);
  return [...numbers].sort((one, other) => one - other);
}

// ---- A row ----

function newPart(kind, className, parent) {
  const part = Object.assign(document.createElement(kind), { className });
  parent?.append(part);
  return part;
}

function newRow(number) {
  const whole = newPart("li", "classRow", null), line = newPart("div", "classLine", whole);
  whole.dataset.number = number;
  const pick = newPart("button", "pick", line);
  const colour = Object.assign(newPart("input", "colour", line), { type: "color" });
  const name = Object.assign(newPart("input", "name", line), { type: "text", maxLength: MOST_NAME });
  name.spellcheck = false;
  name.autocomplete = "off";
  const hide = newPart("button", "hide", line), lock = newPart("button", "lock", line);
  const unfold = newPart("button", "unfold", whole), list = newPart("ol", "objects", whole);
  const more = newPart("button", "more", whole);
  sayTo(pick, String(number));
  list.hidden = more.hidden = true;
  const parts = { number, whole, pick, colour, name, hide, lock, unfold, list, more };
  classRows.set(number, { ...parts, items: new Map(), most: 0 });
  return classRows.get(number);
}

function sayRow(row) {
  const { number, name, colour, isHidden, isLocked } = classes.get(row.number), { activeElement } = document;
  row.whole.classList.toggle("isHidden", isHidden);
  row.pick.setAttribute("aria-pressed", number === brush.inClass);
  row.hide.setAttribute("aria-pressed", isHidden);
  row.lock.setAttribute("aria-pressed", isLocked);
  if (row.colour !== activeElement) row.colour.value = hexOf(colour);
  if (row.name !== activeElement) row.name.value = name;
  sayTo(row.hide, isHidden ? "Hidden" : "Hide");
  sayTo(row.lock, isLocked ? "Locked" : "Lock");
  sayNamed(row.pick, `Paint with ${name}`, number < 10 ? ` (${number})` : "");
  sayNamed(row.colour, `Colour of ${name}`);
  sayNamed(row.name, `Name of class ${number}`);
  sayNamed(row.hide, `Hide ${name}`);
  sayNamed(row.lock, `Lock ${name}: its strokes are not withdrawn, and it takes no others`);
  sayObjects(row);
}

function sayObjects(row) {
  const { objects, strokes } = liveOf(row.number), isUnfolded = row.most > 0;
  sayTo(row.unfold, `${isUnfolded ? "▾" : "▸"} ${counted(objects.size, "object")} · ${counted(strokes, "stroke")}`);
  row.unfold.setAttribute("aria-expanded", isUnfolded);
  row.list.hidden = !isUnfolded;
  row.more.hidden = true;
  if (isUnfolded) listObjects(row);
}

/** Changes a text where it is another one. */
function sayTo(part, text) {
  if (part.textContent !== text) part.textContent = text;
}

/** Names a part for a screen reader, and for a pointer that rests on it. */
function sayNamed(part, name, more = "") {
  if (part.title === name + more) return;
  part.title = name + more;
  part.setAttribute("aria-label", name);
}

// ---- Events of the panel ----

// What a click on each kind of button does.
const ROW_ACTIONS = {
  pick: ({ number }) => chooseClass(number),
  hide: ({ number }) => classes.change(number, { isHidden: !isHiddenClass(number) }),
  lock: ({ number }) => classes.change(number, { isLocked: !isLockedClass(number) }),
  unfold: row => { row.most = row.most > 0 ? 0 : MOST_LISTED; },
  more: row => { row.most += MOST_LISTED; },
  goTo: (_, gesture) => pointAt(gesture),
  toClass: (_, gesture) => bringToClass(gesture, brush.inClass),
};

const rowOf = part => classRows.get(Number(part.closest(".classRow").dataset.number));

/** A button of a row acts. One that a pointer pressed gives the keys back to the picture. */
function clickInClasses({ target, detail }) {
  const action = ROW_ACTIONS[target.className];
  if (!action) return;
  const row = rowOf(target);
  action(row, target.closest("[data-gesture]")?.dataset.gesture);
  sayRow(row);
  if (detail > 0) keysToPicture();
}

function changeInClasses({ target }) {
  const { number } = rowOf(target);
  if (target.className === "colour") classes.change(number, { colour: readHex(target.value) });
  if (target.className === "name") renameClass(number, target);
}

/** Gives a class another name; without one it has its first name again. */
function renameClass(number, input) {
  const name = plainName(input.value);
  classes.change(number, { name, ...name ? {} : { isListed: false } });
  input.value = classes.get(number).name;
}

/** Lists the first class that is not listed, and paints with it. */
function addClass() {
  const listed = new Set(listedClasses());
  const number = Array.from({ length: MOST_CLASS }, (_, k) => k + 1).find(each => !listed.has(each));
  if (!number) return sayFault(`There are ${MOST_CLASS} classes, and no more.`);
  classes.change(number, { isListed: true });
  chooseClass(number);
  drawClasses();
  classRows.get(number).name.focus();
  classRows.get(number).name.select();
}

function keyInClasses(event) {
  const isName = event.target.className === "name";
  if (event.key === "Escape" && isName) {
    event.target.value = classes.get(rowOf(event.target).number).name;
    keysToPicture();
  } else if (event.key === "Escape") {
    showClasses(false);
    keysToPicture();
  } else if (event.key === "Enter" && isName) keysToPicture();
  else if (!stepInList(event)) return;
  event.preventDefault();
  event.stopPropagation();
}

/** Follows what changed of classes: here, or in another tab. */
function followClass(number, change) {
  if (number === 0 || "isHidden" in change) remark();
  else if ("colour" in change) recolourMarks(number);
  hover();
  sayClass();
  sayClasses();
}

function listenToClasses() {
  classes.listen(followClass);
  const list = element("classList");
  list.addEventListener("click", clickInClasses);
  list.addEventListener("change", changeInClasses);
  list.addEventListener("input", event => { if (event.target.className === "colour") changeInClasses(event); });
  element("classes").addEventListener("keydown", keyInClasses);
  element("addClass").addEventListener("click", addClass);
  addEventListener("storage", ({ key }) => { if (board.isOpen && key === classesName()) recallClasses(); });
}
