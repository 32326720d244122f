"use strict";

// How long page/labelling.js takes:  node page/tests/labelling_timing.js [SIDE [STROKES]]
// A picture of 8 bits, 4096 by 4096 where no side is named, with 4,000 cells in rows that touch, and a stroke on each.

const { load } = require("./load.js");

const { changeScene, labelling, newScene } = load(["labelling.js"], ["changeScene", "labelling", "newScene"]);

const side = Number(process.argv[2] ?? 4096), strokes = Number(process.argv[3] ?? 4000);
const columns = Math.ceil(Math.sqrt(strokes)), step = side / columns;

/** Cells as round hills over a ground. */
function picture() {
  const mask = new Uint8Array(side * side);
  for (let y = 0; y < side; y++) {
    const down = y % step - step / 2;
    for (let x = 0; x < side; x++) {
      const across = x % step - step / 2, height = 1 - Math.hypot(across, down) / (.55 * step);
      mask[y * side + x] = 20 + Math.max(0, 200 * height);
    }
  }
  return mask;
}

/** Discs of radius 4 on the cells, with tags in no order. */
function discs() {
  return Array.from({ length: strokes }, (_, k) => {
    const x = Math.floor((k % columns + .5) * step), y = Math.floor((Math.floor(k / columns) + .5) * step), runs = [];
    for (let down = -4; down <= 4; down++) {
      const half = Math.floor(Math.sqrt(16 - down * down));
      runs.push(y + down, x - half, x + half);
    }
    const tag = (Math.imul(k, 2654435761) >>> 0).toString(16).padStart(8, "0");
    return { tag, gesture: tag, inClass: 1, level: 255, runs: Int32Array.from(runs) };
  });
}

function timed(name, action) {
  const begun = performance.now(), before = process.cpuUsage(), answer = action();
  const { user, system } = process.cpuUsage(before), took = Math.round(performance.now() - begun);
  console.log(`${name}: ${took} ms, ${Math.round((user + system) / 1000)} of the processor`);
  return answer;
}

const mask = picture(), scene = newScene(side, side, mask, mask.slice()), given = discs();
console.log(`${side} by ${side} pixels, ${strokes} strokes`);
timed("strokes in order", () => changeScene(scene, given));
timed("first labels, with the flood", () => labelling(scene, { kind: "share", share: .5, conn: 4, isCut: false }));
for (let round = 0; round < 4; round++) {
  for (const isCut of [false, true]) {
    for (const kind of ["share", "level"]) {
      const choice = { kind, share: .3 + .1 * round, level: 80 + 20 * round, conn: 4, isCut };
      const name = `${kind} ${kind === "share" ? choice.share.toFixed(1) : choice.level}${isCut ? ", cut" : ""}`;
      const labels = timed(name, () => labelling(scene, choice));
      if (round === 0) console.log(`  ${labels.areas.filter(area => area > 0).length} labels`);
    }
  }
}
timed("all of it cut", () => labelling(scene, { kind: "level", level: 1, conn: 4, isCut: true }));
changeScene(scene, null);
timed("share 0.5, with the flood again", () => labelling(scene, { kind: "share", share: .5, conn: 4, isCut: true }));
timed("share 0.01, the flood goes on", () => labelling(scene, { kind: "share", share: .01, conn: 4, isCut: true }));
