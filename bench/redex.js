// Looks for rewrites that are left in answers of the program. The rows are read anew from the
// tables of rewrites (bench/redex/), apart from the program's code and definitions, as
// bench/weigh.js does with weights. Builds nothing.
//
//     node --expose-internals bench/redex.js [--program=PROGRAM] [--count=N] [--seed=S] [FILE..]
//     node --expose-internals bench/redex.js --of=ANSWER.json
//     node --expose-internals bench/redex.js --stored
//
// The first form gives programs to PROGRAM (crates/mini_app/out/mini_app of this repository): N
// generated ones (500), N pieces of the packages that Debian has installed here, both chosen by S
// (1), and both sides of each case of bench/rows; or only the FILEs, which are JavaScript. The
// second form looks at one answer, or at one program of ESTree, without running anything. The third
// looks at the settled answers of crates/mini_cases/stdout.
//
// A line tells of each rewrite that is left: its row, whether it is known
// (bench/redex/known.js; told with --all) or NEW, the JSON pointer of the node, the node, and what
// would be written. WIDER is told of each part that a pass changed though no row reads anything in
// it or around it (bench/redex/passes.js): programs are given to PROGRAM one pass at a time. A
// table by row comes last. The status is 1 where something is new.
"use strict";
const fs = require("fs");
const path = require("path");
const { spawnSync } = require("child_process");
const { isOutside, isUnread, parseLeniently, text, written } = require("./estree.js");
const { estree } = require("./outcome.js");
const { chosenPieces } = require("./pieces.js");
const { columns, reasonOf } = require("./redex/known.js");
const { unaskedFor } = require("./redex/passes.js");
const { generated } = require("./redex/programs.js");
const { search } = require("./redex/search.js");
const { shown } = require("./redex/show.js");

const ROOT = path.join(__dirname, "..");
const WIDTH = 300;

// The words: options with their values, and files.
function words() {
  const told = {
    program: path.join(ROOT, "crates/mini_app/out/mini_app"), count: "500", seed: "1",
  };
  const files = [];
  for (const word of process.argv.slice(2)) {
    const option = /^--(\w+)(?:=(.*))?$/.exec(word);
    if (option) told[option[1]] = option[2] ?? true;
    else files.push(word);
  }
  return { ...told, count: Number(told.count), seed: Number(told.seed), files };
}

// ---- programs: a name, and ESTree

function* ofFiles(files) {
  for (const name of files) {
    const source = fs.readFileSync(name, "utf8");
    yield [name, estree(source)];
  }
}

function* ofRows() {
  const folder = path.join(__dirname, "rows");
  for (const name of fs.readdirSync(folder).sort()) {
    for (const line of fs.readFileSync(path.join(folder, name), "utf8").split("\n")) {
      if (!line || line.startsWith("#") || / \/\/ \w+ at \//.test(line)) continue;
      const [sides] = line.split(/ \/\/ (?={.*}$)/);
      for (const side of sides.split(/(?<=[;}]) =>(?: |$)/)) {
        yield [`${name}: ${side}`, estree(side)];
      }
    }
  }
}

// The ESTree of a text, or null where it is no code.
function parsed(source, type) {
  try {
    return parseLeniently(source, type);
  } catch {
    return null;
  }
}

// A text in some hundreds is no code, and is left out.
function* ofGenerator(count, seed) {
  for (let at = 0; at < count; at++) {
    const { source, type } = generated(seed * 1_000_003 + at);
    const program = parsed(source, type);
    if (program) yield [`generated ${at}: ${source}`, program];
  }
}

function* programs({ files, count, seed }) {
  if (files.length > 0) return yield* ofFiles(files);
  yield* ofGenerator(count, seed);
  yield* chosenPieces(count, seed);
  yield* ofRows();
}

// ---- answers

// No program of a corpus takes as many passes.
const MOST_PASSES = 100;

// One pass over a program; why there is no answer is told.
function passOver(program, name, input) {
  const ended = spawnSync(program, ["--passes=1"], { input: text(input), maxBuffer: 1 << 28 });
  if (ended.status === 0) return JSON.parse(ended.stdout.toString());
  const why = `status ${ended.status} ${ended.stderr.toString().trim()}`;
  console.log(`no answer (${why}): ${cut(name)}`);
  return null;
}

// The programs before, between and after the passes that the program makes, the settled one last;
// none where there is no settled answer.
function passesOf(program, name, input) {
  const programs = [written(input)];
  for (let pass = 0; pass < MOST_PASSES; pass++) {
    const answer = passOver(program, name, programs.at(-1));
    if (!answer) return [];
    programs.push(answer.program);
    if (answer.settled) return programs;
  }
  console.log(`no answer (not settled): ${cut(name)}`);
  return [];
}

function* answersOf(told) {
  if (!fs.existsSync(told.program)) {
    throw new Error(`${told.program} is not there: run \`rt run\` in crates/mini_app first`);
  }
  for (const [name, input] of programs(told)) {
    if (isUnread(input) || isOutside(input)) continue;
    const passes = passesOf(told.program, name, input);
    if (passes.length > 0) yield [name, passes];
  }
}

function* storedAnswers() {
  const [
    asked, lines,
  ] = ["stdin", "stdout"].map((name) => fs.readFileSync(
    path.join(ROOT, "crates/mini_cases", name), "utf8",
  ).split("\n"));
  const from = lines.findIndex((line) => line.startsWith("# Whole runs: which"));
  for (let at = from; at < lines.length && !lines[at].startsWith("# Odd input"); at++) {
    const [, program] = /^\[[\d,]*\] \[[\d,]*\] \d+ true ({.*})$/.exec(lines[at]) ?? [];
    if (!program) continue;
    const input = written(JSON.parse(asked[at].replace(/^answer \d+ /, "")));
    yield [lines[at - 1].slice(2), [input, JSON.parse(program)]];
  }
}

function* answers(told) {
  if (told.stored) return yield* storedAnswers();
  if (!told.of) return yield* answersOf(told);
  const read = JSON.parse(fs.readFileSync(told.of, "utf8"));
  yield [told.of, [read.program ?? read]];
}

// ---- what is told

const cut = (told) => (told.length > WIDTH ? `${told.slice(0, WIDTH)}..` : told);

function tell(name, found, reason) {
  const word = reason ? `known (${reason})` : "NEW";
  console.log(`${found.row} ${word} at ${found.pointer || "/"} in ${cut(name)}`);
  console.log(`    ${cut(shown(found.list ?? found.node))}`);
  console.log(`    ${cut(shown(found.written))}`);
}

function summary(rows, looked) {
  console.log(`${looked} answers`);
  for (const [row, { known, fresh }] of [...rows].sort(([a], [b]) => a - b)) {
    const counts = `${String(known).padStart(5)} known, ${String(fresh).padStart(5)} new`;
    console.log(`row ${String(row).padStart(2)}: ${counts}`);
  }
}

// Tells the parts that a pass changed and no row reads, and gives their number.
function tellWider(name, passes) {
  const pairs = passes.slice(1).map((after, at) => [passes[at], after]);
  const parts = pairs.flatMap(([before, after]) => unaskedFor(before, after));
  for (const { pointer, before, after } of parts) {
    console.log(`WIDER at ${pointer || "/"} in ${cut(name)}`);
    console.log(`    ${cut(shown(before))}\n    ${cut(shown(after))}`);
  }
  return parts.length;
}

// Counts and tells what is left in one answer.
function look(rows, column, [name, passes], all) {
  for (const found of search(passes.at(-1))) {
    const reason = reasonOf(found, column);
    if (!rows.has(found.row)) rows.set(found.row, { known: 0, fresh: 0 });
    rows.get(found.row)[reason ? "known" : "fresh"] += 1;
    if (!reason || all) tell(name, found, reason);
  }
}

function main() {
  const told = words();
  const [rows, column] = [new Map(), columns()];
  let [looked, wider] = [0, 0];
  for (const [name, passes] of answers(told)) {
    looked += 1;
    look(rows, column, [name, passes], told.all);
    wider += tellWider(name, passes);
  }
  summary(rows, looked);
  console.log(`${wider} parts changed though no row reads anything in them or around them`);
  process.exitCode = [...rows.values()].some(({ fresh }) => fresh > 0) ? 1 : 0;
}

main();
