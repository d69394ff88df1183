// Makes the whole runs of the stored run of mini_cases: programs, and what the minifier answers to
// each. Every answer was worked out by hand from ECMA-262 and docs/REWRITES.md; here it is only
// turned into JSON.
//
//     node --expose-internals bench/cases.js
//
// reads the files of bench/rows and of bench/dead and writes the lines under the title below into
// crates/mini_cases/stdin and crates/mini_cases/stdout, with a checksum of those files, by which
// .ci/quick sees whether they are as old as the lines. Behind them stand the runs of odd.js, with a
// checksum of odd-input.txt.
//
// The runs of bench/dead are of the program that drops dead items besides. A file has a case a
// line. A line that begins with `#` is the title of those that follow. A case is one of
//
//     BEFORE => AFTER
//     BEFORE => AFTER // { kept: 2, symbols: [0, 2], passes: 3, settled: false, bound: 1 }
//     BEFORE => AFTER // { edition: 2019 }
//     BEFORE // ERROR at POINTER
//
// BEFORE and AFTER are JavaScript, which acorn parses with early errors left aside; BEFORE ends
// in `;` or `}`. `kept` and `symbols` are numbers in the input, in order, or how many there are
// where each stays at its place: without the words all of them, and in bench/dead those symbols
// whose names stay. With `edition` no form newer than that edition is written. Without `passes`
// there is one that changes something and one that doesn't, or the latter alone where both are
// the same program, and in bench/dead.
"use strict";
const { createHash } = require("crypto");
const fs = require("fs");
const path = require("path");
const { text } = require("./estree.js");
const odd = require("./odd.js");
const { estree, outcomeOf, saidOptions, shakenOf } = require("./outcome.js");

const TITLE = "# Whole runs: which numbers and symbols stay, how many passes it takes, and the program";
const ODD = "# Odd input, calls that fail, and programs that nest deep: whole runs over memory, as above";
const UNBOUNDED = 4294967295;
// The folders of cases, the word of a line of each, and what is answered to one.
const FOLDERS = [
  ["rows", "answer", outcomeOf],
  ["dead", "shake", shakenOf],
];
const CASES = path.join(__dirname, "..", "crates", "mini_cases");

// What the answer says of a program that becomes another one, or stays.
function answered({ kept, symbols, passes, settled, program, bound = UNBOUNDED, edition }) {
  return { bound, edition, answer: `${kept} ${symbols} ${passes} ${settled} ${program}` };
}

// The case that a line tells.
function caseOf(line, word, outcome) {
  const refusal = /^(.*) \/\/ (\w+) at (\/\S*)$/.exec(line);
  const [programs, said = "{}"] = line.split(/ \/\/ (?={.*}$)/);
  const [source, after] = refusal ? [refusal[1]] : programs.split(/(?<=[;}]) =>(?: |$)/);
  const { bound, edition, answer } = refusal
    ? { bound: UNBOUNDED, answer: `${refusal[2]} ${refusal[3]}` }
    : answered(outcome(source, after, saidOptions(said)));
  const asked = edition === undefined ? `${word} ${bound}` : `edition ${edition}`;
  return { source, line: `${asked} ${text(estree(source))}`, answer };
}

function casesOf(rows, word, outcome) {
  const cases = [];
  let title = "";
  for (const line of rows.split("\n")) {
    if (line.startsWith("#")) title = line;
    else if (line) cases.push({ title, ...caseOf(line, word, outcome) });
  }
  return cases;
}

function extend(file, lines) {
  const name = path.join(CASES, file);
  const before = fs.readFileSync(name, "utf8").split(`${TITLE}\n`)[0];
  fs.writeFileSync(name, `${before}${TITLE}\n${lines.join("\n")}\n`);
}

function textsOf(folder) {
  const files = fs.readdirSync(path.join(__dirname, folder)).filter((name) => name.endsWith(".txt")).sort();
  return files.map((name) => fs.readFileSync(path.join(__dirname, folder, name), "utf8"));
}

const checksum = (name, told) => `# ${name}: ${createHash("sha256").update(told).digest("hex")}`;
const cases = FOLDERS.flatMap(([folder, word, outcome]) => textsOf(folder).flatMap((rows) => casesOf(rows, word, outcome)));
const runs = odd.oddRuns();
const lines = (told) => [
  ...FOLDERS.map(([folder]) => checksum(`bench/${folder}`, textsOf(folder).join(""))),
  ...cases.flatMap((item) => [item.title, `# ${item.source}`, told(item)]),
  ODD,
  checksum("bench/odd-input.txt", fs.readFileSync(odd.FILE)),
  ...runs.flatMap((item, at) => (item.title === runs[at - 1]?.title ? [told(item)] : [`# ${item.title}`, told(item)])),
];
extend("stdin", lines((item) => item.line));
extend("stdout", lines((item) => item.answer));
console.log(`${cases.length + runs.length} runs`);
