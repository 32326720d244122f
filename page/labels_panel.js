// ---- The panel of labels: what is kept, and how it is cut and coloured. That is kept over a reload ----

const FIRST_SHARE = .5;

/** How labels are made at first: of what is at least half as bright as the brightest of its object. */
function firstLabelChoice() {
  const { low, high } = contrast.look, level = limited(Math.round((low + high) / 2), 1, board.maxval);
  return { kind: "share", share: FIRST_SHARE, level, isCut: true, areOwn: false };
}

/** The choice that a text spells for pictures of this maxval, or null where it spells none. */
function readLabelChoice(text, maxval) {
  const { kind, share, level, isCut, areOwn } = readObject(text);
  const isKind = ["share", "level"].includes(kind), areFlags = [isCut, areOwn].every(flag => typeof flag === "boolean");
  const isShare = isBetween(share, 0, 1) && share > 0, isLevel = isBetween(level, 1, maxval) && Number.isInteger(level);
  return isKind && areFlags && isShare && isLevel ? { kind, share, level, isCut, areOwn } : null;
}

/** Takes up how labels of this mask were made before. */
function openLabels() {
  labels.choice = readLabelChoice(local.get(labelsName()), board.maxval) ?? firstLabelChoice();
  sayLabelChoice();
}

/** Makes labels otherwise, and keeps how. */
function setLabelChoice(change) {
  if (!labels.choice) return;
  Object.assign(labels.choice, change);
  local.set(labelsName(), JSON.stringify(labels.choice));
  sayLabelChoice();
  if ("areOwn" in change) redraw();
  else askLabels();
}

/** Keeps pixels from another share, or from another level on: that which is chosen. */
function setThreshold(value) {
  if (labels.choice?.kind === "share") setLabelChoice({ share: limited(value, .001, 1) });
  else setLabelChoice({ level: limited(Math.round(value), 1, board.maxval) });
}

/** Shows the panel with the view of labels. */
function followView() {
  element("labels").hidden = !areLabelsSeen();
  sayPixel();
  sayLabels();
  askLabels();
}

/** Takes up a labelling that the worker made. */
function showLabelling(made) {
  labels.shown = made;
  labels.classes = new Set(made.objects.map(({ inClass }) => inClass));
  labels.stamp++;
  if (!areLabelsSeen()) return;
  sayPixel();
  redraw();
}

// ---- What the panel says ----

function sayLabelChoice() {
  const { kind, share, level, isCut, areOwn } = labels.choice, isShare = kind === "share";
  const range = isShare ? { min: .01, max: 1, step: .01 } : { min: 1, max: contrast.axis.high, step: 1 };
  const name = isShare ? "Share of the brightest of each object" : "Level";
  for (const id of ["threshold", "thresholdValue"]) {
    Object.assign(element(id), range, { value: isShare ? share : level });
    element(id).setAttribute("aria-label", `${name} from which on pixels are kept`);
  }
  Object.assign(element("thresholdValue"), isShare ? { min: .001, step: "any" } : { max: board.maxval });
  press("byShare", isShare);
  press("byLevel", !isShare);
  press("cutApart", isCut);
  press("joinedUp", !isCut);
  press("ownColours", areOwn);
  press("classColours", !areOwn);
}

/** How many labels there are, or that they are at work. */
function sayLabels() {
  const { shown, asked, conn } = labels, isLate = asked > 0 && performance.now() - asked >= TELLING_WORK;
  sayIn("labelsWork", isLate && areLabelsSeen() ? "labels: at work" : "");
  if (!shown) return sayIn("labelCount", "");
  const count = shown.areas.reduce((sum, area) => sum + (area > 0), 0);
  const lonely = shown.lonely > 0 && board.isQuiet ? ` · ${counted(shown.lonely, "region")} without a stroke` : "";
  sayIn("labelCount", `${counted(count, "label")} · ${conn || 4} neighbours${lonely}`);
}

// ---- Events of the panel ----

const LABEL_BUTTONS = {
  byShare: { kind: "share" }, byLevel: { kind: "level" }, cutApart: { isCut: true }, joinedUp: { isCut: false },
  classColours: { areOwn: false }, ownColours: { areOwn: true },
};

function listenToLabels() {
  for (const [id, change] of Object.entries(LABEL_BUTTONS)) {
    element(id).addEventListener("click", () => setLabelChoice(change));
  }
  for (const [id, kind] of [["threshold", "input"], ["thresholdValue", "change"]]) {
    element(id).addEventListener(kind, ({ target }) => {
      if (Number.isNaN(target.valueAsNumber)) sayLabelChoice();
      else setThreshold(target.valueAsNumber);
    });
  }
  classes.listen(() => { if (areLabelsSeen()) redraw(); });
  element("labels").addEventListener("pointerup", giveKeysBack);
}
