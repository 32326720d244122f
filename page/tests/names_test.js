"use strict";

// The scripts of the page are one: a name that two of them define would mean the later one in both.
//   node page/tests/names_test.js

const assert = require("node:assert/strict");
const { readFileSync } = require("node:fs");
const { join } = require("node:path");
const { test } = require("node:test");
const { Script } = require("node:vm");

const textOf = name => readFileSync(join(__dirname, "..", name), "utf8");
const scripts = [...textOf("page.html").matchAll(/<script src="(\w+\.js)">/g)].map(([, name]) => name);

test("together they are one script", () => {
  assert.ok(scripts.length > 20);
  new Script(scripts.map(textOf).join("\n"));
});

test("no two of them define a name", () => {
  const places = new Map();
  for (const script of scripts) {
    const found = textOf(script).matchAll(/^(?:async )?(?:function\*? |const |let |class )([\w$]+|[[{].*?[\]}])/gm);
    for (const name of [...found].flatMap(([, names]) => names.match(/[\w$]+/g))) {
      assert.equal(places.get(name), undefined, `${name} of ${script}`);
      places.set(name, script);
    }
  }
});
