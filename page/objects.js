// ---- Objects: the live strokes by their class, and by their gesture: all strokes of a gesture are one object ----

const liveClasses = new Map();  // of each class its objects by gesture, each of them a set of strokes, and their number
const NO_OBJECTS = { objects: new Map(), strokes: 0 };

const liveOf = inClass => liveClasses.get(inClass) ?? NO_OBJECTS;
const isOtherThanFirst = () => liveClasses.size > 1 || liveClasses.size === 1 && !liveClasses.has(1);

function addToObjects(stroke) {
  if (!liveClasses.has(stroke.inClass)) liveClasses.set(stroke.inClass, { objects: new Map(), strokes: 0 });
  const live = liveClasses.get(stroke.inClass), object = live.objects.get(stroke.gesture);
  if (object) object.add(stroke);
  else live.objects.set(stroke.gesture, new Set([stroke]));
  live.strokes++;
}

function takeFromObjects(stroke) {
  const live = liveClasses.get(stroke.inClass), object = live.objects.get(stroke.gesture);
  object.delete(stroke);
  if (object.size === 0) live.objects.delete(stroke.gesture);
  live.strokes--;
  if (live.strokes === 0) liveClasses.delete(stroke.inClass);
}

function strokesOfGesture(gesture) {
  return [...liveClasses.values()].flatMap(({ objects }) => [...objects.get(gesture) ?? []]);
}

const boxOfStrokes = strokes => strokes.map(stroke => stroke.box).reduce(around);

function boxesOfClass(inClass) {
  return [...liveOf(inClass).objects.values()].map(object => boxOfStrokes([...object]));
}
