// Runs the built program on real JavaScript: what Debian packages and node itself have installed
// here. Builds nothing, and copies nothing into the repository.
//
//     node --expose-internals bench/real-run.js [PROGRAM [COUNT [SEED]]]
//
// PROGRAM is crates/mini_app/out/mini_app of this repository unless it is given: `rt run` in
// crates/mini_app makes it. COUNT pieces (2,000), chosen by SEED (1), are statements from the top
// of files and functions from anywhere in them. Each is a program of its own. Where nothing in it
// is outside the table, the program must end with status 0, and its answer is held against what the
// scripts here count: that each number and symbol of the answer is one of the input, and none
// twice, the program first; that each function and class stays; that the program written has each
// field of its types and no other, and is lighter by as much as it must; and that it comes back as
// it is, in one pass, when it is given again. Else it must be refused. A line tells of each
// package, the last of all: how many pieces were answered, refused, or were no JSON that is read;
// how many changed; the most passes; and the bytes of ESTree and the weight before and after.
"use strict";
const { words, run } = require("./built.js");
const { FUNCTIONS, countNumbers, countSymbols, each, isOf, isOutside, isUnread, nesting, text, written } = require("./estree.js");
const { chosenPieces } = require("./pieces.js");
const { weigh } = require("./weigh.js");

const { program, count, seed } = words(2000);

// ---- one run

// Some of the first numbers, each once.
const areAmong = (list, count) => new Set(list).size === list.length && list.every((n) => n >= 0 && n < count);
// How many functions, static blocks and classes there are. A rewrite drops one only where it never
// runs, so a difference is one to look at.
const countCarried = (program) => {
  let found = 0;
  each(program, (node) => (found += isOf([...FUNCTIONS, "StaticBlock", "ClassDeclaration", "ClassExpression"], node) ? 1 : 0));
  return found;
};
const isInOrder = (list) => list.every((n, at) => n === at);

// What is wrong with an answer, given the program that was read.
function* faultsOf(input, answer) {
  const after = answer.program;
  if (answer.kept[0] !== 0) yield "kept doesn't begin with the program";
  // A key that loses its brackets takes a number along, and a name that nothing mentions its
  // symbol.
  if (!areAmong(answer.kept, countNumbers(input)) || answer.kept.length !== countNumbers(after)) yield "kept";
  if (countCarried(after) !== countCarried(input)) yield "a function or class was lost";
  if (!areAmong(answer.symbols, countSymbols(input)) || answer.symbols.length !== countSymbols(after)) yield "symbols";
  if (text(written(after)) !== text(after)) yield "another field, or one too few";
  if (!answer.settled) yield "not settled";
  if (weigh(after) + answer.passes - 1 > weigh(input)) yield `weighs ${weigh(after)}, and ${weigh(input)} before`;
  if (answer.passes === 1 && text(after) !== text(written(input))) yield "one pass, and a change";
}

function* faultsOfAgain(answer) {
  const { status, output } = run(program, answer.program);
  if (status !== 0) return yield `given again: status ${status}`;
  const again = JSON.parse(output);
  if (text(again.program) !== text(answer.program)) yield "given again: another program";
  if (again.passes !== 1 || !again.settled) yield `given again: passes ${again.passes}`;
  if (!isInOrder(again.kept) || !isInOrder(again.symbols)) yield "given again: other numbers";
}

// What is wrong with the run on a program that must be answered, and its answer.
function answered(input) {
  const { status, output, notes } = run(program, input);
  if (status !== 0) return { faults: [`status ${status} ${notes.trim()}`] };
  const answer = JSON.parse(output);
  const again = nesting(answer.program) < 120 ? faultsOfAgain(answer) : [];
  return { answer, faults: [...faultsOf(input, answer), ...again] };
}

// The same of a program that must be refused.
function refused(input) {
  const { status, notes } = run(program, input);
  return { faults: status === 3 && /^refused: Unsupported at /.test(notes) ? [] : [`status ${status} ${notes.trim()}, and Unsupported is due`] };
}

// ---- the table

const total = () => ({ pieces: 0, answered: 0, refused: 0, unread: 0, changed: 0, passes: 0, bytes: 0, "bytes now": 0, weight: 0, "weight now": 0, wrong: 0 });

function addRun(row, input) {
  row.pieces += 1;
  if (isUnread(input)) {
    row.unread += 1;
    return [];
  }
  const outside = isOutside(input);
  const { answer, faults } = outside ? refused(input) : answered(input);
  row[outside ? "refused" : "answered"] += 1;
  if (answer) {
    row.changed += answer.passes > 1 ? 1 : 0;
    row.passes = Math.max(row.passes, answer.passes);
    row.bytes += text(written(input)).length;
    row["bytes now"] += text(answer.program).length;
    row.weight += weigh(input);
    row["weight now"] += weigh(answer.program);
  }
  row.wrong += faults.length > 0 ? 1 : 0;
  return faults;
}

const columns = Object.keys(total());

function print(name, row) {
  console.log([name.padEnd(28), ...columns.map((key) => String(row[key]).padStart(10))].join(" "));
}

function addUp(rows) {
  const sum = total();
  for (const row of rows) for (const key of columns) sum[key] = key === "passes" ? Math.max(sum[key], row[key]) : sum[key] + row[key];
  return sum;
}

function main() {
  const rows = new Map();
  for (const [from, input] of chosenPieces(count, seed)) {
    if (!rows.has(from)) rows.set(from, total());
    for (const fault of addRun(rows.get(from), input)) console.log(`WRONG in ${from}: ${fault}: ${text(input).slice(0, 2000)}`);
  }
  print("", Object.fromEntries(columns.map((key) => [key, key])));
  for (const [name, row] of [...rows].sort(([a], [b]) => (a < b ? -1 : 1))) print(name, row);
  const sum = addUp(rows.values());
  print("all", sum);
  process.exitCode = sum.wrong > 0 ? 1 : 0;
}

main();
