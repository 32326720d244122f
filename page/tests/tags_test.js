"use strict";

// Tests of page/tags.js:  node page/tests/tags_test.js

const assert = require("node:assert/strict");
const { randomUUID } = require("node:crypto");
const { test } = require("node:test");
const { load } = require("./load.js");

const { authorOf, classOf, gestureOf, hyphenated, newTags, randomDigits } = load(["tags.js"],
  ["authorOf", "classOf", "gestureOf", "hyphenated", "newTags", "randomDigits"]);

const TAG = /^[0-9a-f]{8}(-[0-9a-f]{4}){3}-[0-9a-f]{12}$/;
const strokesOf = (count, stroke) => Array.from({ length: count }, () => ({ ...stroke }));

/** The tags of a gesture as the page spelled them before there were classes. */
function earlierTags(count) {
  const gesture = randomDigits(8) + randomDigits(6);
  return Array.from({ length: count }, (_, k) => hyphenated(gesture + k.toString(16).padStart(4, "0")));
}

test("a tag tells its author and its class, 1 to 255", () => {
  for (let inClass = 1; inClass <= 255; inClass++) {
    const [tag] = newTags([{ author: "00112233445566ff", inClass }]);
    assert.match(tag, TAG);
    assert.equal(classOf(tag), inClass);
    assert.equal(classOf(tag.toUpperCase()), inClass);
    assert.equal(authorOf(tag), "00112233445566ff");
  }
  assert.equal(classOf(newTags([{ author: "00112233445566ff" }])[0]), 1);
});

test("all strokes of a gesture are one object, in each class, and those of another are another", () => {
  const seen = new Set();
  for (const inClass of [1, 2, 15, 16, 128, 254, 255]) {
    for (const count of [1, 2, 256, 257, 300, 4096]) {
      const tags = newTags(strokesOf(count, { author: "00112233445566ff", inClass }));
      assert.equal(new Set(tags).size, count);
      assert.equal(new Set(tags.map(gestureOf)).size, 1);
      assert.ok(tags.every(tag => TAG.test(tag) && classOf(tag) === inClass));
      seen.add(gestureOf(tags[0]));
    }
  }
  assert.equal(seen.size, 42);
});

test("a gesture's tags differ in nothing but their class and the count", () => {
  const tags = newTags(strokesOf(4096, { author: "00112233445566ff", inClass: 7 })).map(tag => tag.replaceAll("-", ""));
  tags.forEach((digits, k) => {
    assert.equal(digits.slice(0, 27), tags[0].slice(0, 27));
    assert.equal(digits[27] + digits.slice(30), k.toString(16).padStart(3, "0"));
    assert.equal(digits.slice(28, 30), "07");
  });
});

test("a gesture of more strokes than three digits count is several objects, all of the class", () => {
  const tags = newTags(strokesOf(5000, { author: "00112233445566ff", inClass: 200 }));
  assert.equal(new Set(tags).size, 5000);
  assert.equal(new Set(tags.map(gestureOf)).size, 2);
  assert.ok(tags.every(tag => classOf(tag) === 200));
});

test("strokes of several authors keep theirs in one gesture of the page", () => {
  const tags = newTags([{ author: "0".repeat(16), inClass: 3 }, { author: "f".repeat(16), inClass: 3 }]);
  assert.deepEqual(tags.map(authorOf), ["0".repeat(16), "f".repeat(16)]);
});

test("tags of before are of class 1, and one object a gesture", () => {
  for (let k = 0; k < 2000; k++) {
    const tags = earlierTags(1 + k % 255);
    assert.ok(tags.every(tag => classOf(tag) === 1), tags[0]);
    assert.equal(new Set(tags.map(gestureOf)).size, 1);
  }
});

test("random tags are of class 1, and an object each", () => {
  const tags = Array.from({ length: 2000 }, () => randomUUID());
  assert.ok(tags.every(tag => classOf(tag) === 1));
  assert.equal(new Set(tags.map(gestureOf)).size, 2000);
});

test("tags of painted labels are of class 1, and one object a label", () => {
  const label = "ed4cf50d-ec25-8e5e-8000-00001";
  assert.equal(gestureOf(`${label}0000000`), gestureOf(`${label}fffffff`));
  assert.equal(classOf(`${label}0000700`), 1);
  assert.notEqual(gestureOf(`${label}0000000`), gestureOf("ed4cf50d-ec25-8e5e-8000-000020000000"));
});
