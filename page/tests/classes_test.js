"use strict";

// Tests of page/palette.js and page/classes.js:  node page/tests/classes_test.js

const assert = require("node:assert/strict");
const { test } = require("node:test");
const { load } = require("./load.js");

const { FIRST_COLOURS, bringClasses, classColour, classes, firstColour, hexOf, isHiddenClass, isLockedClass,
  isWithinReach, local, plainName, readClasses, readHex, recallClasses, spellClasses, typedNumber,
} = load(["basics.js", "storage.js", "palette.js", "classes.js"], ["FIRST_COLOURS", "bringClasses", "classColour",
  "classes", "firstColour", "hexOf", "isHiddenClass", "isLockedClass", "isWithinReach", "local", "plainName",
  "readClasses", "readHex", "recallClasses", "spellClasses", "typedNumber"]);

Object.assign(globalThis, { board: { fingerprint: "abc" }, sayStorage() {} });  // what of the page is asked for

const ALL = Array.from({ length: 255 }, (_, k) => k + 1);

// ---- How colours are seen: by everybody, and without red or without green (Machado, Oliveira and Fernandes 2009) ----

const SIGHTS = [
  [[1, 0, 0], [0, 1, 0], [0, 0, 1]],
  [[.152286, 1.052583, -.204868], [.114503, .786281, .099216], [-.003882, -.048116, 1.051998]],
  [[.367322, .860646, -.227968], [.280085, .672501, .047413], [-.01182, .04294, .968881]],
];

const linear = part => part <= 10 ? part / 255 / 12.92 : ((part / 255 + .055) / 1.055) ** 2.4;
const times = (matrix, vector) => matrix.map(row => row.reduce((sum, part, k) => sum + part * vector[k], 0));

/** A colour in CIELAB, where distances are about as they are seen. */
function labOf(colour, sight) {
  const seen = times(sight, colour.map(linear)).map(part => Math.min(Math.max(part, 0), 1));
  const [x, y, z] = times([[.4339, .3762, .1899], [.2126, .7152, .0722], [.0177, .1095, .8729]], seen)
    .map(part => part > .008856 ? Math.cbrt(part) : 7.787 * part + 16 / 116);
  return [116 * y - 16, 500 * (x - y), 200 * (y - z)];
}

/** The least distance between two of these colours. */
function leastDistance(colours, sight) {
  const places = colours.map(colour => labOf(colour, sight));
  let least = Infinity;
  for (let one = 0; one < places.length; one++) {
    for (let other = 0; other < one; other++) {
      least = Math.min(least, Math.hypot(...places[one].map((part, k) => part - places[other][k])));
    }
  }
  return least;
}

test("the first 14 colours differ clearly, also for people who see no red or no green", () => {
  assert.equal(FIRST_COLOURS.length, 14);
  for (const sight of SIGHTS) assert.ok(leastDistance(FIRST_COLOURS, sight) > 13, leastDistance(FIRST_COLOURS, sight));
});

test("all 255 colours differ, and none is as dark as the ground", () => {
  const colours = ALL.map(firstColour);
  assert.equal(new Set(colours.map(hexOf)).size, 255);
  assert.ok(leastDistance(colours, SIGHTS[0]) > 2.9);
  for (const colour of colours) {
    assert.ok(colour.every(part => Number.isInteger(part) && part >= 0 && part <= 255));
    assert.ok(labOf(colour, SIGHTS[0])[0] > 20, hexOf(colour));
  }
});

test("colours are spelled and read", () => {
  assert.equal(hexOf([86, 180, 5]), "#56b405");
  assert.deepEqual(readHex("#56b405"), [86, 180, 5]);
  assert.deepEqual(readHex("#56B405"), [86, 180, 5]);
  for (const wrong of ["56b405", "#56b40", "#56b4055", "red", "", "#56b40g", " #56b405"]) {
    assert.equal(readHex(wrong), null);
  }
});

// ---- The register ----

test("a class of which nothing is known has a name and a colour", () => {
  assert.deepEqual(classes.get(7), { number: 7, name: "Class 7", colour: [230, 159, 0], isHidden: false,
    isLocked: false, isListed: false });
  assert.deepEqual(classColour(7), [230, 159, 0]);
  assert.ok(!isHiddenClass(7) && !isLockedClass(7) && isWithinReach({ inClass: 7 }));
  assert.equal(classes.get(255).name, "Class 255");
});

test("changes are kept for the mask, told, and taken up again", () => {
  const told = [];
  classes.listen((number, change) => told.push([number, change]));
  classes.change(7, { name: "  nucleus\n of a cell ", colour: [1, 2, 3] });
  classes.change(7, { isLocked: true });
  classes.change(9, { isHidden: true });
  assert.deepEqual(told.map(([number]) => number), [7, 7, 9]);
  assert.ok("colour" in told[0][1] && "isHidden" in told[2][1]);
  const kept = local.get("classes abc");
  classes.kept = new Map();
  recallClasses();
  assert.equal(told.at(-1)[0], 0);
  assert.deepEqual(classes.get(7), { number: 7, name: "nucleus of a cell", colour: [1, 2, 3], isHidden: false,
    isLocked: true, isListed: false });
  assert.ok(isHiddenClass(9) && isLockedClass(7) && !isWithinReach({ inClass: 7 }) && !isWithinReach({ inClass: 9 }));
  assert.equal(spellClasses(classes.kept), kept);
  board.fingerprint = "another";
  recallClasses();
  assert.equal(classes.get(7).name, "Class 7");
  board.fingerprint = "abc";
  recallClasses();
});

test("what is as at first again is not kept", () => {
  classes.change(7, { name: "", colour: firstColour(7), isLocked: false });
  classes.change(9, { isHidden: false });
  assert.equal(classes.kept.size, 0);
  assert.equal(local.get("classes abc"), null);
  classes.change(3, { name: "Class 3" });
  assert.equal(classes.kept.size, 0);
  classes.change(3, { isListed: true });
  assert.deepEqual([...classes.kept], [[3, { isListed: true }]]);
});

test("names are on one line, and not long", () => {
  assert.equal(plainName(" a\t\u0000b\r\nc "), "a b c");
  assert.equal(plainName("x".repeat(100)).length, 60);
  assert.equal(plainName("\n \t"), "");
  assert.equal(plainName("Zellkern, außen; „innen“ 细胞"), "Zellkern, außen; „innen“ 细胞");
});

test("a text that spells classes wrongly is left out, and breaks nothing", () => {
  for (const wrong of [null, "", "null", "3", "[]", "{", "\"text\"", "{\"0\":{\"name\":\"a\"}}", "[null,null]",
    "{\"256\":{\"name\":\"a\"}}", "{\"1.5\":{\"name\":\"a\"}}", "{\"2\":null}", "{\"2\":7}", "{\"2\":{}}",
    "{\"2\":{\"name\":5,\"colour\":\"red\",\"isHidden\":\"yes\",\"isLocked\":1}}",
    "{\"__proto__\":{\"name\":\"a\"}}"]) {
    assert.equal(readClasses(wrong).size, 0, wrong);
  }
  const text = "{\"2\":{\"name\":\"a\",\"colour\":\"#010203\",\"more\":[]},\"300\":{},\"4\":{\"isLocked\":true}}";
  assert.deepEqual([...readClasses(text)], [[2, { name: "a", colour: [1, 2, 3] }], [4, { isLocked: true }]]);
  assert.deepEqual(readClasses(spellClasses(readClasses(text))), readClasses(text));
});

test("what another address kept is taken up where nothing is kept here, and nothing else is", () => {
  board.fingerprint = "moved";
  recallClasses();
  for (const wrong of [undefined, null, 7, {}, "", "{}", "{\"0\":{}}"]) bringClasses("moved", wrong);
  assert.equal(local.get("classes moved"), null);
  bringClasses("elsewhere", "{\"2\":{\"name\":\"a\"}}");
  assert.equal(classes.get(2).name, "Class 2");
  bringClasses("moved", "{\"2\":{\"name\":\"nucleus\",\"more\":1}}");
  assert.equal(classes.get(2).name, "nucleus");
  bringClasses("moved", "{\"2\":{\"name\":\"another\"}}");
  assert.equal(local.get("classes moved"), "{\"2\":{\"name\":\"nucleus\"}}");
  assert.equal(local.get("classes elsewhere"), "{\"2\":{\"name\":\"a\"}}");
});

test("digits that come soon go on with a number, up to 255", () => {
  const type = keys => [...keys].reduce((text, key) => typedNumber(text, key, true), "");
  for (const number of ALL) assert.equal(type(String(number)), String(number));
  assert.equal(type("256"), "6");
  assert.equal(type("999"), "9");
  assert.equal(type("1000"), "0");
  assert.equal(type("05"), "05");
  assert.equal(typedNumber("1", "2", false), "2");
});
