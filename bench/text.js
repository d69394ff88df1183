// Holds the JavaScript that the built program mini_text writes against the tree that it was given:
// acorn has to parse it to just that tree, positions aside, with a blank between any two tokens and
// with as few as there can be. Builds nothing.
//
//     node --expose-internals bench/text.js [PROGRAM [COUNT [SEED]]]
//
// PROGRAM is crates/mini_text/out/mini_text of this repository unless it is given. The trees are
// both sides of each line of bench/rows, COUNT programs (3,000) that generate.js makes of SEED (1),
// as many pieces of installed code that pieces.js finds, a tenth as many whole files, and one that
// has what a printer has to mind; those that aren't read are left out. By `--minify` the program
// has to write of each tree just what it writes of the answer of mini_app, and it refuses the tree
// where that is refused. Statements without directives are put together, a hundred to a tree, since
// a call costs more than a text; where such a tree is refused each statement is a tree of its own.
// Then a line for each peer that is installed: the bytes of what it writes of the pieces without
// rewrites, by themselves and by gzip. PEERS names another root than / to look for the peers in, and
// NODE_PATH its usr/share/nodejs.
"use strict";
const { spawnSync } = require("child_process");
const fs = require("fs");
const path = require("path");
const zlib = require("zlib");
const { built, words, run } = require("./built.js");
const { isOutside, isUnread, parseLeniently, text, written } = require("./estree.js");
const { script } = require("./generate.js");
const { chosenFiles, chosenPieces } = require("./pieces.js");
const { print } = require("./print.js");

const ROWS = path.join(__dirname, "rows");
const MODES = { spaced: ["--spaced"], compact: [], minified: ["--minify"] };
const PRINTED = ["spaced", "compact"];
const AT_ONCE = 100;
const FILE = { least: 1_000, most: 60_000 };
const REFUSED = 3;
const SHOWN = 5;

// A directive, a template, a chain, an arrow function of an object, a regular expression, `in` in
// the head of a loop, two signs, and an `else` behind an `if` without one.
const MINDED =
  '"use strict"; var t = `a${b}c`; x?.y.z; f = () => ({}); /[/]re/g.test(t);' +
  'for (var i = ("k" in o); i;) i = g(i - -1); if (a) { if (b) c(); } else d();';

// ---- the trees

// A text as a script, or else as a module; null where it is neither.
function treeOf(source) {
  for (const type of ["script", "module"]) {
    try {
      return parseLeniently(source, type);
    } catch {
      // the other type, or no code at all
    }
  }
  return null;
}

function* rowTrees() {
  for (const file of fs.readdirSync(ROWS)) {
    for (const line of fs.readFileSync(path.join(ROWS, file), "utf8").split("\n")) {
      if (line.startsWith("#") || line.trim() === "") continue;
      for (const side of line.replace(/ \/\/ .*$/, "").split(" => ")) yield treeOf(side);
    }
  }
}

function* generatedTrees(count, seed) {
  for (let at = 0; at < count; at++) yield treeOf(script(seed * 100_000 + at));
}

function* fileTrees(count, seed) {
  for (const [, source] of chosenFiles(FILE.least, FILE.most, seed).slice(0, count)) yield treeOf(source);
}

const isDirective = (statement) => typeof statement.directive === "string";
const programOf = (sourceType, body) => ({ type: "Program", sourceType, body });

// Trees of many statements each: those of programs without directives together, by their type.
function* joined(trees) {
  const waiting = { script: [], module: [] };
  for (const tree of trees) {
    if (tree === null || isOutside(tree) || isUnread(tree)) continue;
    const list = waiting[tree.sourceType];
    if (tree.body.some(isDirective)) yield tree;
    else list.push(...tree.body);
    if (list.length >= AT_ONCE) yield programOf(tree.sourceType, list.splice(0));
  }
  for (const [sourceType, body] of Object.entries(waiting)) if (body.length > 0) yield programOf(sourceType, body);
}

// The same statements, each alone with the directives.
function split(tree) {
  const directives = tree.body.filter(isDirective);
  return tree.body.filter((part) => !isDirective(part)).map((part) => programOf(tree.sourceType, [...directives, part]));
}

// ---- the texts

// What the program writes of a tree, without the line's end, or why it refuses the tree.
function textOf(program, tree, mode) {
  const { status, output, notes } = run(program, written(tree), MODES[mode]);
  if (status !== 0 && status !== REFUSED) throw new Error(`status ${status}: ${notes}`);
  return status === 0 ? { source: output.slice(0, -1) } : { refused: notes.trim() };
}

// How the tree of a text differs from the one that was printed; null where it doesn't.
function difference(tree, source) {
  let found;
  try {
    found = parseLeniently(source, tree.sourceType);
  } catch (error) {
    return `${error.message}: ${source.slice(Math.max(0, error.pos - 80), error.pos + 40)}`;
  }
  const [wanted, got] = [text(written(tree)), text(written(found))];
  if (wanted === got) return null;
  let at = 0;
  while (wanted[at] === got[at]) at += 1;
  return `${wanted.slice(Math.max(0, at - 120), at + 80)}\n  became ${got.slice(Math.max(0, at - 120), at + 80)}`;
}

// What the program writes of the answer of mini_app, or why one of the two refuses the tree.
function pipedText(program, tree) {
  const answer = run(built("mini_app"), written(tree));
  if (answer.status === REFUSED) return answer.notes.trim();
  const { status, output, notes } = run(program, JSON.parse(answer.output));
  return status === 0 ? output.slice(0, -1) : notes.trim();
}

// How many of the trees are minified to another text than that of the answer of mini_app.
function heldMinified(program, name, trees) {
  let [made, differ] = [0, 0];
  for (const tree of joined(trees)) {
    const { source, refused } = textOf(program, tree, "minified");
    const wanted = pipedText(program, tree);
    made += 1;
    if (wanted === (source ?? refused)) continue;
    differ += 1;
    if (differ <= SHOWN) console.log(`${name}, minified: ${source ?? refused}\n  in place of ${wanted}`);
  }
  console.log(`${name}: ${made} trees minified, ${differ} to another text than that of mini_app's answer`);
  return differ;
}

// How many of the trees are printed, refused, and printed as another one.
function held(program, name, trees) {
  const told = { printed: 0, refused: 0, differ: 0 };
  const left = [...joined(trees)];
  while (left.length > 0) {
    const tree = left.pop();
    const texts = PRINTED.map((mode) => ({ mode, ...textOf(program, tree, mode) }));
    const refused = texts.find((made) => made.refused);
    const parts = refused ? split(tree) : [];
    if (parts.length > 1) {
      left.push(...parts);
      continue;
    }
    if (refused) {
      told.refused += 1;
      if (told.refused <= SHOWN) console.log(`${name}, ${refused.mode}: ${refused.refused}`);
      continue;
    }
    told.printed += 1;
    for (const { mode, source } of texts) {
      const differs = difference(tree, source);
      if (differs === null) continue;
      told.differ += 1;
      if (told.differ <= SHOWN) console.log(`${name}, ${mode}: ${differs}`);
    }
  }
  console.log(`${name}: ${told.printed} trees printed, ${told.refused} refused, ${told.differ} texts of another tree`);
  return told.differ;
}

// ---- beside other printers

const root = process.env.PEERS ?? "/";
const ESBUILD = path.join(root, "usr/bin/esbuild");
const PLAIN = { mangle: false, compress: false };

// A library of Debian's, if it is there.
function library(name) {
  const folder = path.join(root, "usr/share/nodejs", name);
  return fs.existsSync(folder) ? require(folder) : null;
}

const esbuild = (source) => spawnSync(ESBUILD, ["--log-level=error", "--charset=utf8", "--minify-whitespace"], { input: source, maxBuffer: 1 << 28 }).stdout.toString();

// The name of each printer, and what it writes of a tree: nothing, or an error, where it can't.
function printers(program) {
  const [uglify, terser] = [library("uglify-js"), library("terser")];
  return [
    ["mini_text", (tree) => textOf(program, tree, "compact").source],
    fs.existsSync(ESBUILD) && ["esbuild", (tree) => esbuild(print(tree))],
    uglify && ["uglify-js", (tree) => uglify.minify(print(tree), PLAIN).code],
    terser && ["terser", async (tree) => (await terser.minify(print(tree), PLAIN)).code],
  ].filter(Boolean);
}

async function textsOf(tree, printers) {
  const found = [];
  for (const [name, make] of printers) found.push(await Promise.resolve(tree).then(make).catch(() => null));
  return found.every(Boolean) ? found.map((source) => source.trimEnd()) : null;
}

// The bytes of what each printer writes of the trees that all of them print.
async function beside(program, trees) {
  const made = printers(program);
  const rows = (await Promise.all(trees.map((tree) => textsOf(tree, made)))).filter(Boolean);
  console.log(`${rows.length} of ${trees.length} trees printed by all`);
  const sum = (sizes) => sizes.reduce((total, size) => total + size, 0);
  for (const [at, [name]] of made.entries()) {
    const texts = rows.map((row) => row[at]);
    const bytes = sum(texts.map((source) => Buffer.byteLength(source)));
    console.log(`${name.padEnd(10)} ${bytes} bytes, ${sum(texts.map((source) => zlib.gzipSync(source).length))} by gzip`);
  }
}

async function main() {
  const { program, count, seed } = words(3000, "mini_text");
  const pieces = chosenPieces(count, seed).map(([, piece]) => piece);
  const files = [...fileTrees(Math.ceil(count / 10), seed)];
  const sets = { minded: [treeOf(MINDED)], rows: [...rowTrees()], generated: [...generatedTrees(count, seed)], pieces, files };
  const differ = Object.entries(sets).flatMap(([name, trees]) => [held(program, name, trees), heldMinified(program, name, trees)]);
  await beside(program, [...joined(pieces)].filter((tree) => tree.sourceType === "script"));
  if (differ.some((found) => found > 0)) process.exitCode = 1;
}

main();
