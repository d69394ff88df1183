// Runs each example of docs/REWRITES.md and docs/rewrites/*.md by the built program, so that no
// page shows what isn't so.
//
//     node --expose-internals bench/pages.js [PROGRAM [PAGE..]]
//
// PROGRAM is crates/mini_app/out/mini_app of this repository unless it is given; all pages are read
// unless some are. An example is a whole program of JavaScript in a code span:
//
//     `BEFORE` → `AFTER`           the program writes AFTER for BEFORE
//     `BEFORE` stays               it writes BEFORE
//
// with WORD in a code span behind it, as in "`BEFORE` → `AFTER` with `--no-sequences`", it is given
// that word. A row of the index, "| [12](..) | `BEFORE` | `AFTER` | ..", is one as well. The status
// is 1 where one differs, or where a page has none.
"use strict";
const { spawnSync } = require("child_process");
const fs = require("fs");
const path = require("path");
const { parseLeniently, text, written } = require("./estree.js");
const { print } = require("./print.js");

const ROOT = path.join(__dirname, "..");
const PAGES = path.join(ROOT, "docs", "rewrites");
const [, , program = path.join(ROOT, "crates", "mini_app", "out", "mini_app"), ...named] = process.argv;
const pages = named.length > 0 ? named : [path.join(ROOT, "docs", "REWRITES.md"), ...fs.readdirSync(PAGES).map((name) => path.join(PAGES, name))];

// A code span begins and ends with as many backticks, and has none of that number in it.
const SPAN = /(?<!`)(`+)(?!`)((?:[^`]|(?!\1(?!`))`+(?!`))*?)\1(?!`)/s;
const span = SPAN.source;
const again = (at) => span.replaceAll("\\1", `\\${at}`);
const BECOMES = new RegExp(`${span}\\s+→\\s+${again(3)}(?:\\s+with\\s+\`(--[a-z-]+)\`)?`, "gs");
const STAYS = new RegExp(`${span}\\s+stays(?:\\s+with\\s+\`(--[a-z-]+)\`)?`, "gs");
const ROW = new RegExp(`^\\| *\\[[0-9]+\\]\\S* *\\| *${span} *\\| *${again(3)} *\\|`, "gm");

// The code of a span: a line's end is a blank, and one blank at each end is none of it where both
// have one.
const code = (inside) => inside.replace(/\s*\n\s*/g, " ").replace(/^ (.*) $/s, "$1");
const cell = (inside) => code(inside).replaceAll("\\|", "|");

function examples(page) {
  const source = fs.readFileSync(page, "utf8").replace(/^```.*?^```$/gms, "");
  const becomes = [...source.matchAll(BECOMES)].map(([, , before, , after, word]) => [code(before), code(after), word]);
  const stays = [...source.matchAll(STAYS)].map(([, , before, word]) => [code(before), code(before), word]);
  const rows = [...source.matchAll(ROW)].map(([, , before, , after]) => [cell(before), cell(after)]);
  return [...becomes, ...stays, ...rows];
}

// A module is told by what only a module has.
const typeOf = (source) => (/(^|[;}] )(import|export)\b(?!\()|\bimport\.meta/m.test(source) ? "module" : "script");
const estree = (source) => parseLeniently(source, typeOf(source));

// Of what the printer doesn't know, as a module's imports, the JSON.
const shown = (value) => {
  try {
    return print(value);
  } catch {
    return JSON.stringify(value);
  }
};

// How it comes out: the JSON of the program that is answered, in the order of its fields, or what
// is said instead.
function answer(before, word) {
  const ended = spawnSync(program, word ? [word] : [], { input: text(estree(before)), maxBuffer: 1 << 28 });
  if (ended.status !== 0) return { refused: ended.stderr.toString().trim() || `status ${ended.status}` };
  const { settled, program: tree } = JSON.parse(ended.stdout.toString());
  return settled ? { tree } : { refused: "not settled" };
}

function difference([before, after, word]) {
  try {
    const { tree, refused } = answer(before, word);
    if (refused) return refused;
    const wanted = written(estree(after));
    return text(written(tree)) === text(wanted) ? null : shown(tree);
  } catch (error) {
    return error.message;
  }
}

let runs = 0;
let differ = 0;
for (const page of pages) {
  const found = examples(page);
  if (found.length === 0) console.log(`${page} has no example`);
  differ += found.length === 0 ? 1 : 0;
  for (const example of found) {
    runs += 1;
    const came = difference(example);
    if (came === null) continue;
    differ += 1;
    console.log(`${path.basename(page)}: ${example[0]}\n  page ${example[1]}\n  came ${came}`);
  }
}
console.log(`examples ${runs}, differ ${differ}`);
process.exitCode = differ === 0 ? 0 : 1;
