"use strict";

// The page's scripts are no modules: what they define is had by running their texts as one function.

const { readFileSync } = require("node:fs");
const { join } = require("node:path");

/** What some scripts of the page define under these names. */
function load(scripts, names) {
  const texts = scripts.map(script => readFileSync(join(__dirname, "..", script), "utf8"));
  return new Function([...texts, `return { ${names.join(", ")} };`].join("\n"))();
}

module.exports = { load };
