// Weighs what this program, esbuild, terser and uglify-js make of real JavaScript: of what Debian
// packages and node itself have installed here, and nothing is copied into the repository.
//
//     node --expose-internals bench/peers.js [PROGRAM [COUNT [SEED]]]
//
// PROGRAM is crates/mini_app/out/mini_app of this repository unless it is given. COUNT pieces
// (250), chosen by SEED (1), are scripts: statements from the top of files and functions from
// anywhere in them. Each peer is Debian's package of its name; one that isn't installed is left
// out. PEERS names another root than / to look in, and NODE_PATH its usr/share/nodejs. Names are
// left as they are by all, and so is what a piece declares at its top; a function that stands alone
// in a piece is handed to a call. A line a tool: how many pieces there are, their weight, the bytes
// of their text and those of it by gzip, and the seconds that it took. All are printed by one
// printer, esbuild's without its rewrites, so that the bytes tell rewrites alone. A piece on which
// one tool fails is left out of all.
"use strict";
const { spawnSync } = require("child_process");
const fs = require("fs");
const path = require("path");
const zlib = require("zlib");
const { performance } = require("perf_hooks");
const { words, run } = require("./built.js");
const { isOutside, isUnread, parseLeniently } = require("./estree.js");
const { chosenPieces } = require("./pieces.js");
const { print } = require("./print.js");
const { weigh } = require("./weigh.js");

const { program, count, seed } = words(250);
const root = process.env.PEERS ?? "/";
const ESBUILD = path.join(root, "usr/bin/esbuild");
const share = path.join(root, "usr/share/nodejs");

const esbuild = (flags) => (text) => {
  const ended = spawnSync(ESBUILD, ["--log-level=error", "--charset=utf8", ...flags], { input: text });
  if (ended.status !== 0) throw new Error(ended.stderr.toString());
  return ended.stdout.toString();
};

// A library of Debian's, if it is there.
function library(name) {
  const folder = path.join(share, name);
  return fs.existsSync(folder) ? require(folder) : null;
}

// What each tool makes of a text; none renames anything, or drops what stands at the top.
function tools() {
  const found = [["this program", minified]];
  if (fs.existsSync(ESBUILD)) found.push(["esbuild", esbuild(["--minify-syntax"])]);
  const uglify = library("uglify-js");
  if (uglify) found.push(["uglify-js", (text) => orThrow(uglify.minify(text, { mangle: false }))]);
  const terser = library("terser");
  if (terser) found.push(["terser", async (text) => (await terser.minify(text, { mangle: false })).code]);
  return found;
}

function orThrow({ code, error }) {
  if (error) throw error;
  return code;
}

function minified(text) {
  const { status, output, notes } = run(program, parseLeniently(text));
  if (status !== 0) throw new Error(notes);
  return print(JSON.parse(output).program);
}

// The same text by the common printer.
const compact = fs.existsSync(ESBUILD) ? esbuild(["--minify-whitespace"]) : null;

function measured(text) {
  const small = compact ? compact(text) : text;
  return { weight: weigh(parseLeniently(text)), bytes: small.length, zipped: zlib.gzipSync(small).length };
}

// A function that stands alone in a piece is handed to a call, since some tools drop an expression
// that does nothing.
function handedOut(input) {
  const given = (statement) => {
    if (statement.type !== "ExpressionStatement" || !/Function|Class/.test(statement.expression.type)) return statement;
    const callee = { type: "Identifier", name: "use" };
    return { ...statement, expression: { type: "CallExpression", callee, arguments: [statement.expression], optional: false } };
  };
  return { ...input, body: input.body.map(given) };
}

async function tryTool(make, text) {
  const from = performance.now();
  const made = await make(text);
  return { made, seconds: (performance.now() - from) / 1000 };
}

async function main() {
  const isRead = (input) => input.sourceType === "script" && !isUnread(input) && !isOutside(input);
  const inputs = chosenPieces(count, seed).map(([, input]) => handedOut(input)).filter(isRead);
  const made = tools();
  const rows = new Map([["as it is", []], ...made.map(([name]) => [name, []])]);
  for (const input of inputs) {
    const text = print(input);
    try {
      const answers = [{ made: text, seconds: 0 }];
      for (const [, make] of made) answers.push(await tryTool(make, text));
      const all = answers.map(({ made, seconds }) => ({ ...measured(made), seconds }));
      [...rows.values()].forEach((row, at) => row.push(all[at]));
    } catch (error) {
      console.log(`left out: ${String(error.message).split("\n")[0]}`);
    }
  }
  const sum = (row, key) => row.reduce((total, item) => total + item[key], 0);
  console.log(["", "pieces", "weight", "bytes", "gzip", "seconds"].map((word, at) => word.padStart(at ? 12 : 0).padEnd(16)).join(""));
  for (const [name, row] of rows)
    console.log([name.padEnd(16), row.length, sum(row, "weight"), sum(row, "bytes"), sum(row, "zipped"), sum(row, "seconds").toFixed(1)].map((word) => String(word).padStart(12)).join(""));
}

main();
