// ---- The list of a class's objects: each is gone to, or brought to the class that is painted with ----

const MOST_LISTED = 200;  // so many at first, and so many more each time they are asked for

/** Lists the first objects of a class, by the list items that are there. */
function listObjects(row) {
  const { number, list, items } = row, { objects } = liveOf(number), listed = new Map();
  for (const [gesture, strokes] of objects) {
    if (listed.size === row.most) break;
    const item = items.get(gesture) ?? newItem(gesture);
    listed.set(gesture, item);
    sayObject(item, strokes, number);
  }
  dropItems(row, listed);
  let next = list.firstElementChild;
  for (const item of listed.values()) {
    if (item === next) next = next.nextElementSibling;
    else list.insertBefore(item, next);
  }
  row.items = listed;
  row.more.hidden = objects.size <= row.most;
  sayTo(row.more, `and ${objects.size - row.most} more`);
}

/** Takes items off the list. The keys go on to the next one where they were on one of these. */
function dropItems({ items }, listed) {
  for (const [gesture, item] of items) {
    if (listed.has(gesture)) continue;
    const next = item.nextElementSibling ?? item.previousElementSibling;
    if (item.contains(document.activeElement)) next?.querySelector(".goTo").focus();
    item.remove();
  }
}

function newItem(gesture) {
  const item = newPart("li", "", null);
  item.dataset.gesture = gesture;
  newPart("button", "goTo", item);
  newPart("button", "toClass", item);
  return item;
}

function sayObject(item, strokes, inClass) {
  const [goTo, toClass] = item.children, place = placeOf(strokes), name = classes.get(brush.inClass).name;
  const size = counted(strokes.size, "stroke");
  sayTo(goTo, `x ${place.x} · y ${place.y} · ${size}${place.isMine ? "" : " · of another"}`);
  sayNamed(goTo, `Go to the object at x ${place.x}, y ${place.y}: ${size}${place.isMine ? "" : " of another"}`);
  sayTo(toClass, `to ${brush.inClass}`);
  sayNamed(toClass, `Bring the object at x ${place.x}, y ${place.y} to ${name}`);
  toClass.disabled = inClass === brush.inClass || isLockedClass(inClass) || isLockedClass(brush.inClass);
}

/** The middle of an object's first stroke, and whether this browser painted it. */
function placeOf(strokes) {
  const [{ box, colour }] = strokes;
  return { x: box.left + box.right >> 1, y: box.top + box.bottom >> 1, isMine: colour === 1 };
}

const counted = (count, noun) => `${count} ${noun}${count === 1 ? "" : "s"}`;

// Where in a list keys go from an item.
const STEPS = {
  ArrowUp: item => item.previousElementSibling, ArrowDown: item => item.nextElementSibling,
  Home: item => item.parentElement.firstElementChild, End: item => item.parentElement.lastElementChild,
};

/** Goes by a key from object to object, or from class to class. Says whether the key does that. */
function stepInList({ target, key }) {
  const item = target.closest("li"), isText = target.type === "text" && (key === "Home" || key === "End");
  if (!item || isText || !Object.hasOwn(STEPS, key)) return false;
  STEPS[key](item)?.querySelector(`.${target.className}`).focus();
  return true;
}

/** Brings the object under the pointer to the class that is painted with. */
function bringPointed() {
  const stroke = hand.pixel && strokeAt(hand.pixel, ({ inClass }) => !isHiddenClass(inClass));
  if (stroke) bringToClass(stroke.gesture, brush.inClass);
}

/** Brings all strokes of an object to a class: they are withdrawn, and placed anew under its tags. */
function bringToClass(gesture, inClass) {
  const strokes = strokesOfGesture(gesture).filter(stroke => stroke.inClass !== inClass);
  if (strokes.length === 0) return;
  const locked = strokes.find(stroke => isLockedClass(stroke.inClass));
  if (locked) return sayLocked(locked.inClass);
  if (letsPaint(inClass)) replaceStrokes(strokes, strokes.map(stroke => ({ ...asPlaced(stroke), inClass })));
}
