"use strict";
// The programs on which the printer is tried: those of bench/rows, and generated ones.
const fs = require("node:fs");
const path = require("node:path");
const { parseLeniently } = require("../../bench/estree.js");
const { script } = require("../../bench/generate.js");

const ROWS = path.join(__dirname, "..", "..", "bench", "rows");

// A module is told by what only a module has.
const typeOf = (code) => (/^(import|export)\b|\bimport\.meta/m.test(code) ? "module" : "script");

/** The tree of a program, early errors left aside. */
const lenient = (code) => parseLeniently(code, typeOf(code));

/** The texts of bench/rows, before and after. */
function* rows() {
  for (const file of fs.readdirSync(ROWS).sort()) {
    for (const line of fs.readFileSync(path.join(ROWS, file), "utf8").split("\n")) {
      if (line === "" || line.startsWith("#")) continue;
      yield* line.replace(/ \/\/ \{.*\}$/, "").split(/(?<=[;}]) =>(?: |$)/);
    }
  }
}

/** So many generated scripts. */
function* generated(count) {
  for (let seed = 1; seed <= count; seed++) yield script(seed);
}

module.exports = { generated, lenient, rows };
