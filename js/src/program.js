"use strict";
const { spawnSync } = require("node:child_process");
const path = require("node:path");

/** The programs that are proved: which crate builds one, and which variable may name it. */
const MINIFIER = { crate: "mini_app", variable: "MINI_APP" };
const PRINTER = { crate: "mini_text", variable: "MINI_TEXT" };

// The names of the statuses with which the programs end.
const STATUSES = [
  "Done",
  "BadWords",
  "NotJson",
  "Refused",
  "ReadFault",
  "WriteFault",
  "TooLong",
  "OutOfMemory",
];

/** The programs read no more bytes. */
const MOST = 16_777_216;

/** Where a program is: as asked, as the environment says, or where a build leaves it. */
function pathOf({ crate, variable }, asked) {
  const built = path.join(__dirname, "..", "..", "crates", crate, "out", crate);
  return asked ?? process.env[variable] ?? built;
}

/** Where the program that minifies is. */
const programPath = (asked) => pathOf(MINIFIER, asked);

/** Where the program that prints is. */
const printerPath = (asked) => pathOf(PRINTER, asked);

/** The ending of a run that never began or was cut off. */
function noProgram({ crate, variable }, where, { error, signal }) {
  if (error?.code === "ENOENT") {
    const advice = `build it by \`rt run\` in crates/${crate}, or name it in ${variable}`;
    return `there is no program ${where}: ${advice}`;
  }
  return `the program ${where} was ended by ${signal ?? error?.message}`;
}

/** Runs a program, and gives the name of its status, and what it wrote. */
function ran(program, where, words, input) {
  const ended = spawnSync(where, words, { input, maxBuffer: Infinity });
  if (ended.status === null) {
    const note = noProgram(program, where, ended);
    return { name: "NoProgram", status: null, output: null, note };
  }
  const name = STATUSES[ended.status] ?? "NoProgram";
  const note = ended.stderr.toString().trim();
  return { name, status: ended.status, output: name === "Done" ? ended.stdout : null, note };
}

/**
 * Runs the proved program that minifies on the JSON of a tree.
 * @param {string} json
 * @param {string[]} words its command line
 * @param {{program?: string}} [options] where the program is
 * @returns {{name: string, status: number | null, output: Buffer | null, answer: object | null,
 *   note: string}} the name of the status (`NoProgram` where it didn't run to its end), the answer,
 *   as bytes and read, where it is `Done`, and what was written on standard error
 */
function runProgram(json, words, { program } = {}) {
  const ended = ran(MINIFIER, programPath(program), words, json);
  return { ...ended, answer: ended.output && JSON.parse(ended.output.toString()) };
}

/**
 * Runs the proved program that prints.
 * @param {string | Buffer} json of a tree or of an answer; with the word `--minify`, of a tree that
 *   is minified before
 * @param {string[]} words its command line
 * @param {{printer?: string}} [options] where the program is
 * @returns {{name: string, status: number | null, text: string | null, note: string}} as of
 *   `runProgram`; the text is JavaScript, without the newline behind it
 */
function runPrinter(json, words, { printer } = {}) {
  const { output, ...ended } = ran(PRINTER, printerPath(printer), words, json);
  return { ...ended, text: output && output.toString("utf8", 0, output.length - 1) };
}

module.exports = { MOST, STATUSES, printerPath, programPath, runPrinter, runProgram };
