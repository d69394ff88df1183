// Runs the whole runs that are stored (crates/mini_cases/stdin, lines `answer PASSES PROGRAM` and
// `edition YEAR PROGRAM`) by the built program, and compares what it answers with what is stored (crates/mini_cases/stdout).
// It takes under a minute, where the build with checks of mini_cases takes many, so that stale
// lines are found before the gate. Builds nothing.
//
//     node --expose-internals bench/stored.js [PROGRAM]
//
// PROGRAM is crates/mini_app/out/mini_app of this repository unless it is given. The text of each
// line that differs is told, with what came and what is stored. The status is 1 where one differs.
"use strict";
const { spawnSync } = require("child_process");
const fs = require("fs");
const path = require("path");
const { words } = require("./built.js");
const { print } = require("./print.js");

const { program } = words(0);
const CASES = path.join(__dirname, "..", "crates", "mini_cases");
const lines = (name) => fs.readFileSync(path.join(CASES, name), "utf8").split("\n");
const asked = lines("stdin");
const stored = lines("stdout");

// Members in one order, since two answers are the same whatever the order of their members.
const ordered = (value) => {
  if (Array.isArray(value)) return value.map(ordered);
  if (value === null || typeof value !== "object") return value;
  return Object.fromEntries(Object.keys(value).sort().map((key) => [key, ordered(value[key])]));
};
// Of what the printer doesn't know, as a module's imports, the JSON.
const shown = (program) => {
  try {
    return print(program);
  } catch {
    return JSON.stringify(program);
  }
};
const same = (first, second) => JSON.stringify(ordered(first)) === JSON.stringify(ordered(second));

// `[KEPT] [SYMBOLS] PASSES SETTLED PROGRAM`, or an error and a pointer.
const ANSWER = /^(\[[\d,]*\] \[[\d,]*\] \d+ \w+) (.*)$/;

// A word names an edition that there is.
const within = (year) => Math.min(2022, Math.max(2015, Number(year)));

const told = { runs: 0, differ: 0, refused: 0 };
asked.forEach((line, at) => {
  const [, task, number, value] = /^(answer|edition) (\d+) (.*)$/.exec(line) ?? [];
  if (value === undefined) return;
  const word = task === "answer" ? `--passes=${number}` : `--edition=${within(number)}`;
  told.runs += 1;
  const ended = spawnSync(program, [word], { input: value, maxBuffer: 1 << 28 });
  const [, head, text] = ANSWER.exec(stored[at]) ?? [];
  if (ended.status !== 0) {
    told.refused += 1;
    const note = ended.stderr.toString().replace(/^refused: (\S+) at (.*)\n$/s, "$1 $2");
    if (note === stored[at]) return;
    told.differ += 1;
    console.log(`line ${at + 1}: ${note}, and stored is ${stored[at].slice(0, 200)}`);
    return;
  }
  const answer = JSON.parse(ended.stdout.toString());
  const came = `[${answer.kept}] [${answer.symbols}] ${answer.passes} ${answer.settled}`;
  if (head === came && same(answer.program, JSON.parse(text))) return;
  told.differ += 1;
  console.log(`line ${at + 1}: ${asked[at - 1]}`);
  console.log(`  came   ${came} ${shown(answer.program)}`);
  console.log(`  stored ${head} ${text === undefined ? stored[at] : shown(JSON.parse(text))}`);
});
console.log(`runs ${told.runs}, refused ${told.refused}, differ ${told.differ}`);
process.exitCode = told.differ === 0 ? 0 : 1;
