// ---- The panel for contrast: how this mask and its result are shown. That is kept over a reload ----

const contrast = { counts: null, axis: null, columns: [], look: firstLook(new Uint32Array(256)) };
const lookName = () => `contrast ${board.fingerprint}`;

/** Takes up how the picture was shown before, or shows it as at first. */
function openContrast() {
  const counts = countsOf(board.mask, board.maxval), axis = axisOf(counts);
  const columns = columnsOf(counts, axis, Math.min(element("histogram").width, axis.high - axis.low + 1));
  const look = readLook(local.get(lookName()), board.maxval) ?? firstLook(counts);
  Object.assign(contrast, { counts, axis, columns, look });
  for (const id of ["low", "high"]) Object.assign(element(id), { min: axis.low, max: axis.high });
  for (const id of ["lowValue", "highValue"]) element(id).max = board.maxval;
  sayLook();
}

/** Shows the picture otherwise, and keeps how. */
function setLook(change) {
  if (!contrast.counts) return;
  Object.assign(contrast.look, change);
  local.set(lookName(), JSON.stringify(contrast.look));
  sayLook();
  recolour();
}

/** Shows the picture as at first, and keeps nothing. */
function resetLook() {
  if (!contrast.counts) return;
  contrast.look = firstLook(contrast.counts);
  local.drop(lookName());
  sayLook();
  recolour();
}

const setLow = value => setLook(withLow(contrast.look, value, board.maxval));
const setHigh = value => setLook(withHigh(contrast.look, value, board.maxval));
const setGamma = gamma => setLook({ gamma: limited(gamma, LEAST_GAMMA, MOST_GAMMA) });
const setByPercentiles = () => contrast.counts && setLook(windowByPercentiles(contrast.counts, contrast.look.cut));

function setCut(percent) {
  setLook({ cut: limited(percent, 0, MOST_CUT) });
  setByPercentiles();
}

/** Gives the result another colour table in the view that is shown. The mask alone has none. */
function setTable(name) {
  if (view.name in contrast.look.tables) setLook({ tables: { ...contrast.look.tables, [view.name]: name } });
}

function sayLook() {
  const { low, high, gamma, cut } = contrast.look;
  for (const id of ["low", "lowValue"]) element(id).value = low;
  for (const id of ["high", "highValue"]) element(id).value = high;
  element("low").setAttribute("aria-valuetext", low);
  element("high").setAttribute("aria-valuetext", high);
  element("cut").value = cut;
  element("gamma").value = Math.log2(gamma);
  element("gamma").setAttribute("aria-valuetext", gamma.toFixed(2));
  sayIn("gammaText", gamma.toFixed(2));
  const isPlain = low === 0 && high === board.maxval && gamma === 1;
  sayIn("shown", isPlain ? "" : `shown ${low} to ${high}${gamma === 1 ? "" : ` · gamma ${gamma.toFixed(2)}`}`);
  sayTable();
  drawHistogram();
}

/** Which colour table the view has that is shown. */
function sayTable() {
  const { tables } = contrast.look;
  for (const name of Object.keys(COLOUR_TABLES)) {
    press(`${name}Table`, tables[view.name] === name);
    element(`${name}Table`).disabled = !(view.name in tables);
  }
}

/** The logarithms of the counts, bright within the window. */
function drawHistogram() {
  if (element("contrast").hidden || !contrast.counts) return;
  const canvas = element("histogram"), context = canvas.getContext("2d"), { axis, columns, look } = contrast;
  const width = canvas.width / columns.length, tallest = Math.log1p(Math.max(...columns));
  context.clearRect(0, 0, canvas.width, canvas.height);
  columns.forEach((count, column) => {
    const value = axis.low + Math.floor((column + .5) * (axis.high - axis.low + 1) / columns.length);
    const height = Math.ceil(canvas.height * Math.log1p(count) / tallest);
    context.fillStyle = look.low <= value && value <= look.high ? "#d9dde2" : "#69727d";
    context.fillRect(column * width, canvas.height - height, width, height);
  });
}

/** Shows or hides the panel. Where a key shows it, the keys go to its first handle. */
function showContrast(isShown, isByKey = false) {
  element("contrast").hidden = !isShown;
  press("contrastShown", isShown);
  drawHistogram();
  if (isShown && isByKey) element("low").focus();
}

const toggleContrast = isByKey => showContrast(element("contrast").hidden, isByKey);

// ---- Events of the panel ----

/** Calls an action with the number that an element has, once it has one. */
function listenToNumber(id, kind, action) {
  element(id).addEventListener(kind, ({ target }) => {
    if (Number.isNaN(target.valueAsNumber)) sayLook();
    else action(target.valueAsNumber);
  });
}

function listenToContrast() {
  listenToNumber("low", "input", setLow);
  listenToNumber("high", "input", setHigh);
  listenToNumber("lowValue", "change", setLow);
  listenToNumber("highValue", "change", setHigh);
  listenToNumber("cut", "change", setCut);
  listenToNumber("gamma", "input", octaves => setGamma(2 ** octaves));
  for (const name of Object.keys(COLOUR_TABLES)) {
    element(`${name}Table`).addEventListener("click", () => setTable(name));
  }
  element("byPercentiles").addEventListener("click", setByPercentiles);
  element("resetLook").addEventListener("click", resetLook);
  element("contrast").addEventListener("pointerup", giveKeysBack);
  element("contrast").addEventListener("keydown", event => { if (event.key === "Escape") showContrast(false); });
}

/** What the pointer was used on gives the keys back to the picture, but for what is typed into. */
function giveKeysBack() {
  if (!["number", "text"].includes(document.activeElement?.type)) keysToPicture();
}
