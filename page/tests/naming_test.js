"use strict";

// Tests of page/naming.js: the name of the mask's file in a header, and what is shown of it.
//   node page/tests/naming_test.js

const assert = require("node:assert/strict");
const { readFileSync } = require("node:fs");
const { join } = require("node:path");
const { test } = require("node:test");
const { load } = require("./load.js");

const { nameInHeader } = load(["naming.js"], ["nameInHeader"]);
const named = spelled => nameInHeader(`inline; filename*=UTF-8''${spelled}`);

test("the name is read as it is spelled", () => {
  assert.equal(named("cells.pgm"), "cells.pgm");
  assert.equal(named("%C3%BCber%20den%20Zellen%20%281%29.pgm"), "über den Zellen (1).pgm");
  assert.equal(named("%E7%B4%B0%E8%83%9E%F0%9F%94%AC.pgm"), "細胞🔬.pgm");
  assert.equal(named("%22a%22%3B%20b%25.pgm"), "\"a\"; b%.pgm");
  assert.equal(named(encodeURIComponent("it's*.pgm").replace("'", "%27").replace("*", "%2A")), "it's*.pgm");
  assert.equal(nameInHeader("attachment;filename*=utf-8'en'a.pgm; size=7"), "a.pgm");
  assert.equal(nameInHeader("inline; filename=\"b.pgm\"; FileName* = UTF-8''a.pgm"), "a.pgm");
});

test("of a path it is the last part", () => {
  assert.equal(named("%2Fhome%2Fme%2Fcells.pgm"), "cells.pgm");
  assert.equal(named("..%2F..%2Fetc%2Fpasswd"), "passwd");
  assert.equal(named("C%3A%5Cplates%5Cone.pgm"), "one.pgm");
  for (const none of ["cells%2F", "..", ".", "a%2F..", "%20", "%2F"]) assert.equal(named(none), "", none);
});

test("signs that control a text are left out", () => {
  assert.equal(named("a%00b%0D%0Ac%1B%7F%C2%85.pgm"), "abc.pgm");
  assert.equal(named("cells%E2%80%AEmgp.exe"), "cellsmgp.exe");
  assert.equal(named("one%E2%80%A8two%E2%80%A9"), "onetwo");
  assert.equal(named("%0A%09"), "");
});

test("what is malformed or missing is no name", () => {
  for (const header of [null, undefined, "", "inline", "inline; filename=\"a.pgm\"", "filename*", "filename*=",
    "inline; filename*=UTF-8''", "inline; filename*=a.pgm", "inline; filename*=ISO-8859-1''a.pgm",
    "inline; xfilename*=UTF-8''a.pgm", "inline; filename=\"; filename*=UTF-8''a.pgm\""]) {
    assert.equal(nameInHeader(header), "", String(header));
  }
  for (const spelled of ["%C3", "%FF%FE", "%ZZ", "%", "a%2", "a b.pgm", "\u00fc.pgm", "a\"b", "%ED%A0%80"]) {
    assert.equal(named(spelled), "", spelled);
  }
});

test("a long name is cut, and no header throws", () => {
  assert.equal(named("a".repeat(5000)).length, 200);
  assert.equal([...named("%F0%9F%94%AC".repeat(300))].length, 200);
  const parts = ["inline", ";", " ", "filename", "*", "=", "UTF-8", "'", "%", "2", "F", "\"", "\\", "a", "é", "\n"];
  let state = 7;
  for (let round = 0; round < 20000; round++) {
    let text = "";
    for (let k = 0; k < 12; k++) {
      state = (Math.imul(state, 1664525) + 1013904223) >>> 0;
      text += parts[state >>> 28];
    }
    assert.equal(typeof nameInHeader(text), "string");
    assert.doesNotMatch(nameInHeader(text), /[/\p{Cc}]/u);
  }
});

// ---- What is shown ----

/** What title, footer and Save say, where a name was typed and where the program told one, or not. */
function shown(typed, told) {
  const page = { pictureName: { value: typed, placeholder: "" }, name: {}, save: {} }, texts = {};
  const around = { board: { width: 40, height: 30, fingerprint: "ab".repeat(16), name: told }, document: {},
    local: { get: () => typed || null }, element: id => page[id], sayIn: (id, text) => { texts[id] = text; } };
  const text = ["exports.js", "naming.js"].map(name => readFileSync(join(__dirname, "..", name), "utf8")).join("\n");
  new Function(...Object.keys(around), `${text}\nopenExports(); showName();`)(...Object.values(around));
  return [around.document.title, texts.name, page.save.download];
}

test("a name that was typed goes before that of the file, and without either all is by the fingerprint", () => {
  assert.deepEqual(shown("mine.png", "cells.pgm"), ["mine.png · Seedpaint 40 × 30", "mine.png", "mine.spd"]);
  assert.deepEqual(shown("", "cells.pgm"), ["cells.pgm · Seedpaint 40 × 30", "cells.pgm", "cells.spd"]);
  assert.deepEqual(shown("", ""), ["Seedpaint 40 × 30", "", "mask-abababab.spd"]);
  assert.deepEqual(shown("", "-.pgm"), ["-.pgm · Seedpaint 40 × 30", "-.pgm", "-.spd"]);
});
