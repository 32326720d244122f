// ---- The view of labels: regions over the dimmed mask, drawn on a layer as large as the screen ----

const REGION_ALPHA = 150, BORDER = packed([0, 0, 0], 225);
const OWN_LIGHTNESSES = [.62, .47, .75], OWN_STEP = 137.508;  // degrees of hue from number to number
const layer = document.createElement("canvas"), layerContext = layer.getContext("2d");
let layerImage = null;  // its pixels
let layerOf = "";       // what the layer was drawn for

/** Draws the regions over the picture, from a layer that is drawn anew where something of it changed. */
function drawLabels() {
  if (!areLabelsSeen() || !labels.shown) return;
  const { width, height } = picture, colours = coloursOfClasses();
  const now = [width, height, sight.zoom, sight.left, sight.top, labels.stamp, labels.choice.areOwn, colours].join();
  if (now !== layerOf) drawLayer(width, height, coloursOfLabels(colours));
  layerOf = now;
  pictureContext.drawImage(layer, 0, 0);
}

/** The colour of each class of the objects, as a packed number; 0 where it is hidden. */
function coloursOfClasses() {
  const colours = new Uint32Array(MOST_CLASS + 1);
  for (const number of labels.classes) {
    if (!isHiddenClass(number)) colours[number] = packed(classColour(number), REGION_ALPHA);
  }
  return colours;
}

/** The colour of each label: that of its class, or its own; 0 where nothing is drawn. */
function coloursOfLabels(ofClasses) {
  const colours = new Uint32Array(labels.shown.objects.length + 1), { areOwn } = labels.choice;
  for (const { number, inClass } of labels.shown.objects) {
    colours[number] = areOwn && ofClasses[inClass] > 0 ? packed(ownColour(number), REGION_ALPHA) : ofClasses[inClass];
  }
  return colours;
}

function ownColour(number) {
  return fromHue(number * OWN_STEP % 360, .8, OWN_LIGHTNESSES[number % OWN_LIGHTNESSES.length]);
}

function drawLayer(width, height, colours) {
  if (layer.width !== width || layer.height !== height) Object.assign(layer, { width, height });
  if (layerImage?.width !== width || layerImage.height !== height) layerImage = new ImageData(width, height);
  const image = layerImage, pixels = new Uint32Array(image.data.buffer);
  const columns = placesOnScreen(width, sight.left, board.width);
  const rows = placesOnScreen(height, sight.top, board.height);
  let above = new Uint32Array(width), here = new Uint32Array(width);
  for (let y = 0; y < height; y++) {
    if (rows[y] < 0) here.fill(0);
    else readLine(here, columns, rows[y] * board.width);
    drawLine(pixels.subarray(y * width, (y + 1) * width), here, above, colours);
    [above, here] = [here, above];
  }
  layerContext.putImageData(image, 0, 0);
}

/** For each place on the screen, across or down, the picture's, or -1 beside the picture. */
function placesOnScreen(count, start, end) {
  const places = new Int32Array(count), { zoom } = sight, first = Math.round(start);
  for (let place = 0; place < count; place++) {
    const found = Math.floor((place + .5 - first) / zoom);
    places[place] = found >= 0 && found < end ? found : -1;
  }
  return places;
}

/** The labels of a line of the screen. */
function readLine(here, columns, start) {
  const { numbers } = labels.shown;
  for (let x = 0; x < columns.length; x++) here[x] = columns[x] < 0 ? 0 : numbers[start + columns[x]];
}

/** Draws a line: dark where a label ends that is drawn, else in the colour of the label. */
function drawLine(pixels, here, above, colours) {
  let left = 0;
  for (let x = 0; x < here.length; x++) {
    const number = here[x], colour = colours[number];
    const isEnd = number !== left && (colour | colours[left]) !== 0
      || number !== above[x] && (colour | colours[above[x]]) !== 0;
    pixels[x] = isEnd ? BORDER : colour;
    left = number;
  }
}

// ---- What is said of a label ----

/** What label a pixel has, in words. */
function labelInWords({ x, y }) {
  const { numbers, objects, areas } = labels.shown ?? {}, number = numbers?.[y * board.width + x] ?? 0;
  if (number === 0) return "no label";
  const { inClass } = objects[number - 1], { name } = classes.get(inClass);
  const called = name === `Class ${inClass}` ? `class ${inClass}` : `class ${inClass} ${name}`;
  return `label ${number} · ${called} · ${counted(areas[number], "pixel")}`;
}
