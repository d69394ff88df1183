// Sends every JavaScript file below some folders through the package js/, and counts what came of
// it.
//
//     node --expose-internals bench/census.js [--no-adapt] [--print] [--part=K/N] [--most=BYTES] [--log=FILE] [FOLDER..]
//
// The folders are those of Debian's node packages unless they are given. Files of the same text
// count once; `--part=2/4` takes the second of four parts of them, `--most` leaves out longer ones,
// and `--log` writes a line of JSON for each. What is told: how many files and bytes the parser
// reads, how many are answered, refused by cause, or printed as another program; the bytes of those
// that are answered as they were, printed without a rewrite, and minified; the passes. With
// `--print` nothing is rewritten: each file is only printed, adapted as `minify` does, and compared.
"use strict";
const crypto = require("crypto");
const fs = require("fs");
const { minify } = require("../js");
const { adapt } = require("../js/src/adapter.js");
const { unwrap, wrap } = require("../js/src/commonjs.js");
const { difference, placeOf } = require("../js/src/guard.js");
const { toJson } = require("../js/src/json.js");
const { numbered } = require("../js/src/numbered.js");
const { parse } = require("../js/src/parser.js");
const { printed, read } = require("../js/src/printer.js");
const { filesBelow } = require("./pieces.js");

const FOLDERS = ["/usr/share/nodejs", "/usr/share/javascript"];

function readWords(words) {
  const asked = { adapt: true, print: false, part: 1, parts: 1, most: Infinity, log: null, folders: [] };
  for (const word of words) {
    const [, name, value] = /^--([a-z-]+)(?:=(.*))?$/.exec(word) ?? [];
    if (name === undefined) asked.folders.push(word);
    else if (name === "no-adapt") asked.adapt = false;
    else if (name === "print") asked.print = true;
    else if (name === "part") [asked.part, asked.parts] = value.split("/").map(Number);
    else if (name === "most") asked.most = Number(value);
    else if (name === "log") asked.log = fs.openSync(value, "w");
    else throw new Error(`${word} is no word of this script`);
  }
  if (asked.folders.length === 0) asked.folders = FOLDERS;
  return asked;
}

// The texts, each once.
function* distinct({ folders, most }) {
  const seen = new Set();
  for (const folder of folders) {
    for (const file of filesBelow(folder)) {
      const code = fs.readFileSync(file, "utf8");
      const sum = crypto.createHash("sha1").update(code).digest("hex");
      if (seen.has(sum) || code.length > most) continue;
      seen.add(sum);
      yield { file, code };
    }
  }
}

// What is printed of a file that nothing rewrites: the program, its text, and the tree of that.
function plain(code, module) {
  const { ast, commonjs } = parse(code, { module });
  const input = commonjs ? wrap(ast, code) : ast;
  const { ast: tree, restore, respell } = adapt(input, code);
  const calls = [{ json: toJson(tree), words: ["--max-depth=1000"] }];
  const program = restore({ program: tree, kept: numbered(tree).map((_, number) => number) });
  const made = { program, ...printed(ast.sourceType === "module", calls, respell, {}) };
  return commonjs ? unwrap(program, made.text, code) : made;
}

// Its bytes; null where it is longer than what goes to the printer at once.
function printedBytes(code, module) {
  try {
    return Buffer.byteLength(plain(code, module).text);
  } catch (refused) {
    if (refused.name !== "Refusal") throw refused;
    return null;
  }
}

// Prints a file as it is; gives what is wrong with the text, as `minify` would.
function printAlone(code, module) {
  const { program, text, tree } = plain(code, module);
  const found = difference(program, tree ?? read(text, program.sourceType === "module"));
  if (found) return { refused: { code: "Guard", message: placeOf(found), line: null, column: null }, stats: {} };
  return { refused: null, stats: { bytesAfter: Buffer.byteLength(text), passes: 0, settled: true } };
}

function withoutRewrites(code, { module }) {
  try {
    return printAlone(code, module);
  } catch (refused) {
    if (refused.name !== "Refusal") throw refused;
    return { refused, stats: {} };
  }
}

// What a file came to: a cause without the parts of it that differ from file to file.
function causeOf({ code, message }) {
  return `${code}: ${message.replace(/ (of )?\d[\d.e+,]*/g, " N").replace(/'[^']*'/g, "'..'")}`;
}

const zero = () => ({ files: 0, bytes: 0 });

function add(count, bytes) {
  count.files += 1;
  count.bytes += bytes;
}

class Census {
  constructor() {
    this.read = zero();
    this.unread = zero();
    this.answered = zero();
    this.refused = new Map();
    this.sizes = { source: 0, printed: 0, minified: 0 };
    this.passes = 0;
    this.unsettled = 0;
  }

  // Counts a file; gives what is logged of it.
  take({ file, code }, { adapt, print: isPrintOnly }) {
    const bytes = Buffer.byteLength(code);
    const module = file.endsWith(".mjs") ? true : undefined;
    const { refused, stats } = (isPrintOnly ? withoutRewrites : minify)(code, { adapt, module });
    if (refused?.code === "Syntax") add(this.unread, bytes);
    else add(this.read, bytes);
    if (!refused) this.answer(code, module, bytes, stats);
    else if (refused.code !== "Syntax") this.refuse(causeOf(refused), bytes);
    return { file, bytes, ...stats, refused: refused && `${refused.line}:${refused.column}: ${causeOf(refused)}` };
  }

  answer(code, module, bytes, { bytesAfter, passes, settled }) {
    add(this.answered, bytes);
    this.sizes.source += bytes;
    this.sizes.printed += (passes === 0 ? null : printedBytes(code, module)) ?? bytesAfter;
    this.sizes.minified += bytesAfter;
    this.passes = Math.max(this.passes, passes);
    if (!settled) this.unsettled += 1;
  }

  refuse(cause, bytes) {
    if (!this.refused.has(cause)) this.refused.set(cause, zero());
    add(this.refused.get(cause), bytes);
  }

  lines() {
    const of = ({ files, bytes }) => {
      const share = (part, whole) => `${((100 * part) / Math.max(whole, 1)).toFixed(2)} %`;
      return `${files} files (${share(files, this.read.files)}), ${bytes} bytes (${share(bytes, this.read.bytes)})`;
    };
    const refusals = [...this.refused].sort((one, other) => other[1].bytes - one[1].bytes);
    const { source, printed, minified } = this.sizes;
    return [
      `read:     ${of(this.read)}; besides, ${this.unread.files} files that the parser doesn't take`,
      `answered: ${of(this.answered)}; at most ${this.passes} passes, ${this.unsettled} not settled`,
      ...refusals.map(([cause, count]) => `refused:  ${of(count)} ${cause}`),
      `bytes of what is answered: ${source} as it was, ${printed} printed, ${minified} minified`,
    ];
  }
}

function main() {
  const asked = readWords(process.argv.slice(2));
  const census = new Census();
  let at = 0;
  for (const item of distinct(asked)) {
    at += 1;
    if (at % asked.parts !== asked.part % asked.parts) continue;
    const line = census.take(item, asked);
    if (asked.log !== null) fs.writeSync(asked.log, `${JSON.stringify(line)}\n`);
  }
  console.log(census.lines().join("\n"));
}

main();
