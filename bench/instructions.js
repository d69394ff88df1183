// What a run on whole files of real JavaScript takes, in instructions, as callgrind counts them
// (Debian's valgrind): a figure that doesn't depend on what else the machine does. Builds nothing.
//
//     node --expose-internals bench/instructions.js [PROGRAM [OTHER..]]
//
// PROGRAM is crates/mini_app/out/mini_app of this repository unless it is given; each OTHER is an
// earlier build of it, to compare with. The files are the twenty of bench/whole.js, as ESTree JSON.
// What it takes to read and print the same JSON is a row of its own, if
// crates/mini_cases/out/mini_cases is there.
"use strict";
const { spawnSync } = require("child_process");
const fs = require("fs");
const os = require("os");
const path = require("path");
const { isOutside, isUnread, parseLeniently, text: json } = require("./estree.js");
const { chosenFiles } = require("./pieces.js");

const [LEAST, MOST, COUNT, SEED] = [20_000, 400_000, 20, 1];
const CRATES = path.join(__dirname, "..", "crates");
const input = path.join(fs.mkdtempSync(path.join(os.tmpdir(), "instructions-")), "input.json");

// The JSON of each file, as far as the program reads it.
function inputs() {
  const chosen = [];
  for (const [, text] of chosenFiles(LEAST, MOST, SEED)) {
    if (chosen.length === COUNT) break;
    try {
      const program = parseLeniently(text);
      if (!isUnread(program) && !isOutside(program)) chosen.push(json(program));
    } catch {
      // acorn doesn't take it
    }
  }
  return chosen;
}

// How many instructions a command takes on a text.
function counted(command, text) {
  fs.writeFileSync(input, text);
  const tool = "valgrind --tool=callgrind --callgrind-out-file=/dev/null";
  const line = `exec ${tool} "$@" < "$0" > /dev/null`;
  const { status, stderr } = spawnSync("bash", ["-c", line, input, ...command]);
  const [, told] = /Collected : (\d+)/.exec(stderr.toString()) ?? [];
  if (status !== 0 || told === undefined) throw new Error(`${command[0]} ended with ${status}`);
  return Number(told);
}

function main() {
  const named = process.argv.slice(2);
  const programs = named.length > 0 ? named : [path.join(CRATES, "mini_app", "out", "mini_app")];
  const cases = path.join(CRATES, "mini_cases", "out", "mini_cases");
  const commands = programs.map((program) => [program, "--max-depth=1000"]);
  if (fs.existsSync(cases)) commands.push([cases, "--json"]);
  const texts = inputs();
  const bytes = texts.reduce((sum, text) => sum + Buffer.byteLength(text), 0);
  console.log(`${texts.length} files, ${bytes} bytes of JSON`);
  for (const command of commands) {
    const each = texts.map((text) => counted(command, text));
    const all = each.reduce((sum, count) => sum + count, 0);
    console.log(`${command.join(" ")}: ${all} instructions, ${(all / bytes).toFixed(1)} a byte`);
  }
}

main();
