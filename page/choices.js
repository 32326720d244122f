// ---- Choices: tool, size, level, view ----

const brush = { radius: 6, level: null, inClass: 1 };  // a level of null stands for the highest under the stroke
const press = (id, isPressed) => element(id).setAttribute("aria-pressed", isPressed);

const TOOLS = ["brush", "line", "polygon", "eraser", "withdraw"];

function setTool(tool) {
  hand.tool = tool;
  for (const other of TOOLS) press(other, tool === other);
  hover();
}

function setRadius(radius) {
  brush.radius = limited(radius, 0, MOST_RADIUS);
  element("radius").value = brush.radius;
  element("radiusText").textContent = brush.radius;
  redrawOverlay();
}

/** Makes the brush larger or smaller by a tenth, and by 1 at least. */
function stepRadius(direction) {
  setRadius(brush.radius + direction * Math.max(1, Math.round(brush.radius / 10)));
}

function setLevel(level) {
  brush.level = level === null ? null : limited(Math.round(level), 1, MOST_LEVEL);
  if (brush.level !== null) element("level").value = brush.level;
  press("autoLevel", brush.level === null);
  press("mostLevel", brush.level === board.maxval);
}

function setView(name) {
  view.name = name;
  for (const other of Object.keys(VIEWS)) press(`show${other[0].toUpperCase()}${other.slice(1)}`, other === name);
  sayTable();
  recolour();
  followView();
}

function nextView(direction) {
  const names = Object.keys(VIEWS);
  setView(names[(names.indexOf(view.name) + direction + names.length) % names.length]);
}

function showStrokes(areShown) {
  view.areStrokesShown = areShown;
  press("strokesShown", areShown);
  soil(wholeBoard());
}
