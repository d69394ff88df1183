"use strict";
const { parseArgs } = require("node:util");
const { NUMBERS, TURNED_OFF, TURNED_ON } = require("../words.js");

/** What is wrong with a call of the command. */
class BadCall extends Error {}

const flag = (short) => ({ type: "boolean", ...(short ? { short } : {}) });
const text = (short) => ({ type: "string", ...(short ? { short } : {}) });

const OWN = {
  output: text("o"),
  strict: flag(),
  module: flag(),
  "no-adapt": flag(),
  "source-map": flag(),
  program: text(),
  printer: text(),
  quiet: flag("q"),
  help: flag("h"),
  version: flag("v"),
};

/** The words that are handed on to the program. */
function passedOn() {
  const numbers = Object.values(NUMBERS).map((word) => [word, text()]);
  const flags = Object.values({ ...TURNED_OFF, ...TURNED_ON }).map((word) => [word, flag()]);
  return Object.fromEntries([...numbers, ...flags]);
}

const USAGE = `usage: minify.js [FILE..] [-o OUT] [options]

Minifies JavaScript. Without FILE, or where it is -, standard input is read. Without -o the code
goes to standard output; of several files, OUT is a folder. A file that is refused is left as it is.

  -o, --output OUT        where the code goes: a file, or a folder (of several files it is one)
      --strict            ends with status 1 where a file is refused
      --module            the files are modules (without it: scripts, if they can be read so)
      --no-adapt          fractions, async functions and the like are refused, not adapted
      --source-map        writes OUT.map as well, and names it in the code
  -q, --quiet             says nothing of files that were minified
  -h, --help              says this
  -v, --version           says the version

  --passes=N              at most N passes
  --max-depth=N           how deep the code may nest, 1 to 1000
  --edition=N             no form newer than ECMAScript N is written, 2015 to 2022
  --no-sequences          statements aren't joined by commas
  --no-join-vars          declarations aren't joined
  --keep-function-names   names of function expressions stay
  --keep-class-names      names of class expressions stay
  --program PATH          the program that rewrites (else MINI_APP, else crates/mini_app/out/mini_app)
  --printer PATH          the one that prints (else MINI_TEXT, else crates/mini_text/out/mini_text)

It ends with status 0; with 1 where a file is refused and --strict is there; with 2 where the call
is wrong, a file can't be read or written, or a program or the parser isn't there.
`;

function numberOf(word, value) {
  if (/^(0|[1-9]\d*)$/.test(value)) return Number(value);
  throw new BadCall(`--${word} wants a number, and not ${value}`);
}

/** The options of `minify` that the words stand for. */
function optionsOf(values) {
  const is = (word) => values[word] === true;
  const { program, printer } = values;
  const options = { program, printer, adapt: !is("no-adapt"), sourceMap: is("source-map") };
  if (is("module")) options.module = true;
  for (const [option, word] of Object.entries(NUMBERS)) {
    if (values[word] !== undefined) options[option] = numberOf(word, values[word]);
  }
  for (const [option, word] of Object.entries(TURNED_OFF)) if (is(word)) options[option] = false;
  for (const [option, word] of Object.entries(TURNED_ON)) if (is(word)) options[option] = true;
  return options;
}

function parsed(args) {
  const options = { ...OWN, ...passedOn() };
  try {
    return parseArgs({ args, options, allowPositionals: true, strict: true });
  } catch (error) {
    throw new BadCall(error.message.split(". ")[0]);
  }
}

/**
 * What a command line asks for.
 * @param {string[]} args
 * @returns {{files: string[], output?: string, strict: boolean, quiet: boolean, help: boolean,
 *   version: boolean, options: object}}
 * @throws {BadCall}
 */
function readArguments(args) {
  const { values, positionals } = parsed(args);
  const files = positionals.length > 0 ? positionals : ["-"];
  const is = (word) => values[word] === true;
  const hasOutput = values.output !== undefined;
  if (files.length > 1 && files.includes("-")) throw new BadCall("standard input goes alone");
  if (files.length > 1 && !hasOutput) throw new BadCall("several files want a folder: -o OUT");
  if (is("source-map") && !hasOutput) throw new BadCall("--source-map wants -o OUT");
  return {
    files,
    output: values.output,
    strict: is("strict"),
    quiet: is("quiet"),
    help: is("help"),
    version: is("version"),
    options: optionsOf(values),
  };
}

module.exports = { BadCall, USAGE, readArguments };
