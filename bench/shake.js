// Weighs what this program, terser and uglify-js make of real modules, each with what is dead left
// in and taken out. Builds nothing.
//
//     node --expose-internals bench/shake.js [PROGRAM [COUNT [SEED]]]
//
// PROGRAM is crates/mini_shake/out/mini_shake of this repository unless it is given; that of
// crates/mini_app stands beside it. COUNT files (100) are chosen by SEED (1) of those that Debian's
// packages have installed here, and are read as modules (modules.js). Names are left as they are by
// all. A line a tool: how many modules there are, their weight, the bytes of their text by one
// printer, esbuild's where it is installed, and those of it by gzip. A module on which one tool
// fails is left out of all.
"use strict";
const { spawnSync } = require("child_process");
const fs = require("fs");
const path = require("path");
const zlib = require("zlib");
const { run } = require("./built.js");
const { parseLeniently } = require("./estree.js");
const { chosenModules } = require("./modules.js");
const { print } = require("./print.js");
const { weigh } = require("./weigh.js");

const built = (name) => path.join(__dirname, "..", "crates", name, "out", name);
const [, , program = built("mini_shake"), count = 100, seed = 1] = process.argv;
const ESBUILD = "/usr/bin/esbuild";
const share = "/usr/share/nodejs";
const KEEPS = { dead_code: false, unused: false };

const minified = (tool) => (tree) => {
  const { status, output, notes } = run(tool, tree);
  if (status !== 0) throw new Error(notes);
  return print(JSON.parse(output).program);
};

function peer(name, options) {
  const { minify } = require(path.join(share, name));
  return async (tree) => {
    const { code, error } = await minify(print(tree), { mangle: false, module: true, ...options });
    if (error) throw error;
    return code;
  };
}

// Each tool with what is dead, and without.
function tools() {
  const found = [["mini_app", minified(built("mini_app"))], ["mini_shake", minified(program)]];
  for (const name of ["uglify-js", "terser"].filter((name) => fs.existsSync(path.join(share, name)))) {
    found.push([`${name}, all kept`, peer(name, { compress: KEEPS })], [name, peer(name, {})]);
  }
  return found;
}

function compact(text) {
  if (!fs.existsSync(ESBUILD)) return text;
  return spawnSync(ESBUILD, ["--minify-whitespace", "--log-level=error", "--charset=utf8"], { input: text }).stdout.toString();
}

function measured(text) {
  const small = compact(text);
  return { weight: weigh(parseLeniently(text, "module")), bytes: small.length, zipped: zlib.gzipSync(small).length };
}

async function main() {
  const used = [["as it is", print], ...tools()];
  const rows = new Map(used.map(([name]) => [name, []]));
  for (const tree of chosenModules(Number(count), Number(seed))) {
    try {
      const all = [];
      for (const [, make] of used) all.push(measured(await make(tree)));
      [...rows.values()].forEach((row, at) => row.push(all[at]));
    } catch (error) {
      console.error(`left out: ${String(error.message).split("\n")[0]}`);
    }
  }
  const sum = (row, key) => row.reduce((total, item) => total + item[key], 0);
  console.log(["".padEnd(20), "modules", "weight", "bytes", "gzip"].map((word) => word.padStart(12)).join(""));
  for (const [name, row] of rows) {
    console.log([name.padEnd(20), row.length, sum(row, "weight"), sum(row, "bytes"), sum(row, "zipped")].map((word) => String(word).padStart(12)).join(""));
  }
}

main();
