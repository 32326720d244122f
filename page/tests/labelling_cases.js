"use strict";

// Labels by page/labelling.js of cases that stand in a file:  node page/tests/labelling_cases.js CASES ANSWERS
// Both files are JSON, a list; tools/test_labels_page.py writes the one and compares the other.

const { readFileSync, writeFileSync } = require("node:fs");
const { load } = require("./load.js");

const { changeScene, classOf, gestureOf, labelling, newScene, tableParts } = load(
  ["basics.js", "tags.js", "labelling.js", "png.js", "tables.js"],
  ["changeScene", "classOf", "gestureOf", "labelling", "newScene", "tableParts"]);

/** The samples that a text holds in base 64, two bytes each with the less significant first. */
function samplesOf(text, maxval) {
  const bytes = Buffer.from(text, "base64"), samples = new Uint16Array(bytes.length / 2);
  for (let k = 0; k < samples.length; k++) samples[k] = bytes.readUInt16LE(2 * k);
  return maxval < 256 ? Uint8Array.from(samples) : samples;
}

function answerTo({ width, height, maxval, mask, result, strokes, choices }, number) {
  const scene = newScene(width, height, samplesOf(mask, maxval), samplesOf(result, maxval));
  changeScene(scene, strokes.map(({ tag, level, runs }) => {
    return { tag, level, runs: Int32Array.from(runs), gesture: gestureOf(tag), inClass: classOf(tag) };
  }));
  scene.mostShared = number % 2 === 0 ? 0 : scene.mostShared;  // (so that floods of all the picture are seen, too)
  return choices.map(choice => {
    const labels = labelling(scene, choice);
    scene.spare = { numbers: labels.numbers.slice(), runs: labels.runs };
    return { numbers: [...labels.numbers], areas: [...labels.areas], lonely: labels.lonely,
      table: [...tableParts(labels, scene.mask, number => `Name of ${number}`)].map(({ part }) => part).join("") };
  });
}

const [, , cases, answers] = process.argv;
writeFileSync(answers, JSON.stringify(JSON.parse(readFileSync(cases, "utf8")).map(answerTo)));
