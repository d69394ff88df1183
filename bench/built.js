// The built program, as the scripts beside this one run it.
"use strict";
const { spawnSync } = require("child_process");
const fs = require("fs");
const path = require("path");
const { text } = require("./estree.js");

const built = (name) => path.join(__dirname, "..", "crates", name, "out", name);

// The words of a script: [PROGRAM [COUNT [SEED]]], where the program is that of this repository,
// and the seed 1, unless given.
function words(count, name = "mini_app") {
  const [, , program = built(name), counted = count, seed = 1] = process.argv;
  if (!fs.existsSync(program)) throw new Error(`${program} is not there: run \`rt run\` in crates/${name} first`);
  return { program, count: Number(counted), seed: Number(seed) };
}

// One run on a value of ESTree, with these words: how it ended, and what it wrote to standard output
// and standard error.
function run(program, value, given = []) {
  const ended = spawnSync(program, given, { input: text(value), maxBuffer: 1 << 28 });
  return { status: ended.status, output: ended.stdout.toString(), notes: ended.stderr.toString() };
}

module.exports = { built, words, run };
