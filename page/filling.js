// ---- Filling: the pixels of a polygon, whose corners are pixels ----

/** Adds the pixels of a polygon: its border, and those from which a line outwards crosses it an odd number of times. */
function addPolygon(rows, corners) {
  const crossings = new Map();
  for (const [one, other] of sidesOf(corners)) addCrossings(crossings, one, other);
  for (const [y, places] of crossings) {
    places.sort((one, other) => one - other);
    for (let k = 0; k < places.length; k += 2) addRun(rows, y, Math.ceil(places[k]), Math.floor(places[k + 1]));
  }
  for (const [one, other] of sidesOf(corners)) addLine(rows, one, other, 0);
}

const sidesOf = corners => corners.map((corner, k) => [corner, corners[(k + 1) % corners.length]]);

/** Where a side crosses the rows from its upper end on, without that of its lower end. */
function addCrossings(crossings, one, other) {
  const [upper, lower] = one.y < other.y ? [one, other] : [other, one], last = Math.min(lower.y, board.height);
  for (let y = Math.max(upper.y, 0); y < last; y++) {
    if (!crossings.has(y)) crossings.set(y, []);
    crossings.get(y).push(upper.x + (y - upper.y) * (lower.x - upper.x) / (lower.y - upper.y));
  }
}
