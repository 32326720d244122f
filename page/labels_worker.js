// ---- The worker of labels: it has a copy of mask, result and strokes, and labels them while the page goes on ----

// All that it runs. Its text is made of theirs, so that it needs no file of its own.
const LABELLING_PARTS = [objectsOf, seedsOf, addSpan, placesInOrder, numbersFor, brightestOf, newFlood, floodDownTo,
  placesByValue, putLit, reachFour, reachEight, take, thresholdsOf, ceilingsOf, findCeilings, runsByLevel, newRuns,
  addKept, connectedParts, firstOf, join, endsOfParts, newRegions, regionsFrom, ownersOfRuns, sharedRuns, floodShared,
  rangesOf, newLevels, pixelsIn, runsFrom, runsByOwner, keepFrom, keepByPixels, labelsOf, fillsOf, oldNumbers,
  changeRuns, fillRuns, fillRun, shareOut, stepFour, stepEight, newScene, labelling, runsAbove, runsByShare, putSamples,
  changeScene, takeOpening, takeNews, listenAsWorker];
const LABELLING_VALUES = `const SEVERAL = ${SEVERAL}, openNumber = ${openNumber};`;

function workerText() {
  return ['"use strict";', LABELLING_VALUES, ...LABELLING_PARTS.map(String), "listenAsWorker();"].join("\n\n");
}

function newLabelsWorker() {
  const address = URL.createObjectURL(new Blob([workerText()], { type: "text/javascript" }));
  const worker = new Worker(address);
  worker.addEventListener("message", () => URL.revokeObjectURL(address), { once: true });
  return worker;
}

/** Answers the page from within the worker: each choice with a labelling, or with why there is none. */
function listenAsWorker() {
  const held = { scene: null, strokes: new Map(), told: null };
  addEventListener("message", ({ data }) => {
    try {
      if (data.opening) takeOpening(held, data.opening);
      if (data.news) takeNews(held, data.news);
      if (!data.choice) return;
      held.scene.spare = data.spare;
      const { objects, ...labels } = labelling(held.scene, data.choice), { numbers, runs } = labels;
      if (objects !== held.told) labels.objects = held.told = objects;  // (which take their time where they are many)
      postMessage({ labels }, [numbers, runs.starts, runs.ends, runs.fills].map(({ buffer }) => buffer));
    } catch (fault) {
      postMessage({ fault: String(fault) });
    }
  });
}

function takeOpening(held, { width, height, mask }) {
  held.scene = newScene(width, height, mask, new mask.constructor(mask.length));
  held.strokes.clear();
}

/** Takes boxes of the result with their samples, and strokes that came or went. */
function takeNews({ scene, strokes }, { boxes, came, gone, isAnew }) {
  if (isAnew) strokes.clear();
  for (const box of boxes) putSamples(scene, box);
  for (const tag of gone) strokes.delete(tag);
  for (const stroke of came) strokes.set(stroke.tag, stroke);
  const areOthers = isAnew || came.length + gone.length > 0;
  if (areOthers || boxes.length > 0) changeScene(scene, areOthers ? [...strokes.values()] : null);
}
