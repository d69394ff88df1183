// Whole files of real JavaScript, minified by this program, esbuild, terser and uglify-js in one
// run, each as a process of its own: the seconds of processor a MB of JavaScript, the most memory,
// and the bytes of what each makes, by themselves and by gzip. Builds nothing.
//
//     node --expose-internals bench/whole.js [PROGRAM [COUNT [SEED]]]
//
// PROGRAM is crates/mini_app/out/mini_app of this repository unless it is given. COUNT files (20),
// chosen by SEED (1), are scripts of LEAST to MOST bytes of those that Debian's packages have
// installed here; PEERS names another root than / to look for the peers in, and NODE_PATH its
// usr/share/nodejs. What this program reads and writes is ESTree JSON: parsing and printing aren't
// in its figures, and what plain JSON takes is a row of its own, if
// crates/mini_cases/out/mini_cases is there. Names are left as they are by all, and all is printed
// by one printer, as in bench/peers.js. A file on which one tool fails, or takes LIMIT seconds, is
// left out of all.
"use strict";
const { spawnSync } = require("child_process");
const fs = require("fs");
const os = require("os");
const path = require("path");
const zlib = require("zlib");
const { words } = require("./built.js");
const { isOutside, isUnread, parseLeniently, text: json } = require("./estree.js");
const { chosenFiles } = require("./pieces.js");
const { print } = require("./print.js");

const LEAST = 20_000;
const MOST = 400_000;
const LIMIT = 60;
const root = process.env.PEERS ?? "/";
const ESBUILD = path.join(root, "usr/bin/esbuild");
const library = (name) => path.join(root, "usr/share/nodejs", name);
const minifying = (name) => `const made = require(${JSON.stringify(library(name))}).minify(require("fs").readFileSync(0, "utf8"), { mangle: false }); Promise.resolve(made).then(({ code, error }) => { if (error) throw error; process.stdout.write(code); });`;
const folder = fs.mkdtempSync(path.join(os.tmpdir(), "whole-"));
const file = (name) => path.join(folder, name);

// One run of a command on an input: its output, seconds of processor, and most memory in MiB.
function timed(command, input) {
  fs.writeFileSync(file("input"), input);
  const line = 'time=$1; input=$2; output=$3; shift 3; exec /usr/bin/time -o "$time" -f "%U %S %M" "$@" < "$input" > "$output" 2> /dev/null';
  const ended = spawnSync("bash", ["-c", line, "bash", file("time"), file("input"), file("output"), ...command], { timeout: LIMIT * 1000 });
  if (ended.status !== 0) throw new Error(`${command[0]} ended with ${ended.status ?? ended.signal}`);
  const [user, system, memory] = fs.readFileSync(file("time"), "utf8").trim().split("\n").at(-1).split(" ").map(Number);
  return { output: fs.readFileSync(file("output"), "utf8"), seconds: user + system, memory: memory / 1024 };
}

const estree = (text) => json(parseLeniently(text));
const answered = (output) => print(JSON.parse(output).program);
const same = (text) => text;

// The name of each tool, its command, what it is given for a text, and the text of what it wrote.
function tools(program) {
  const cases = path.join(__dirname, "..", "crates", "mini_cases", "out", "mini_cases");
  return [
    ["this program", [program, "--max-depth=1000"], estree, answered],
    ["plain JSON", [cases, "--json"], estree, null],
    ["esbuild", [ESBUILD, "--minify-syntax", "--log-level=error", "--charset=utf8"], same, same],
    ["uglify-js", [process.execPath, "-e", minifying("uglify-js")], same, same],
    ["terser", [process.execPath, "-e", minifying("terser")], same, same],
  ].filter(([name, [command]]) => fs.existsSync(command) && (command !== process.execPath || fs.existsSync(library(name))));
}

// By the printer that all share.
const small = (text) => timed([ESBUILD, "--minify-whitespace", "--log-level=error", "--charset=utf8"], text).output;

function measured(tool, text) {
  const [, command, given, told] = tool;
  const { output, seconds, memory } = timed(command, given(text));
  const made = told ? small(told(output)) : "";
  return { seconds, memory, bytes: Buffer.byteLength(made), zipped: zlib.gzipSync(made).length };
}

function isRead(text) {
  try {
    const input = parseLeniently(text);
    return !isUnread(input) && !isOutside(input);
  } catch {
    return false;
  }
}

function main() {
  const { program, count, seed } = words(20);
  const used = tools(program);
  const rows = new Map(used.map(([name]) => [name, []]));
  const sizes = [];
  for (const [from, text] of chosenFiles(LEAST, MOST, seed)) {
    if (sizes.length === count) break;
    if (!isRead(text)) continue;
    try {
      const all = used.map((tool) => measured(tool, text));
      used.forEach(([name], at) => rows.get(name).push(all[at]));
      sizes.push(Buffer.byteLength(text));
      console.error(`${from}: ${text.length} bytes, ${all.map(({ seconds }) => seconds.toFixed(2)).join(" ")} s`);
    } catch (error) {
      console.error(`${from}: ${text.length} bytes, left out: ${String(error.message).split("\n")[0]}`);
    }
  }
  const total = sizes.reduce((sum, size) => sum + size, 0);
  const sum = (row, key) => row.reduce((found, item) => found + item[key], 0);
  console.log(`${sizes.length} files, ${total} bytes of JavaScript`);
  console.log(["", "seconds a MB", "MiB at most", "bytes", "gzip"].map((word, at) => (at ? word.padStart(14) : word.padEnd(16))).join(""));
  for (const [name, row] of rows) {
    const most = Math.max(...row.map(({ memory }) => memory));
    const cells = [((sum(row, "seconds") * 1e6) / total).toFixed(2), most.toFixed(0), sum(row, "bytes") || "", sum(row, "zipped") && sum(row, "bytes") ? sum(row, "zipped") : ""];
    console.log(name.padEnd(16) + cells.map((cell) => String(cell).padStart(14)).join(""));
  }
  fs.rmSync(folder, { recursive: true });
}

main();
