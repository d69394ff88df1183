"use strict";
const { answerFor } = require("./answer.js");
const commonjs = require("./commonjs.js");
const { Refusal } = require("./errors.js");
const { difference, placeOf } = require("./guard.js");
const { licences } = require("./licences.js");
const { parse } = require("./parser.js");
const { read } = require("./printer.js");
const { sourceMap } = require("./source-map.js");

const bytes = (text) => Buffer.byteLength(text);

// ---- what is printed

/**
 * What the parser makes of a text, if that is the program of which it is to be the text.
 * @throws {Refusal}
 */
function guarded({ program, text, tree }) {
  const found = tree ?? read(text, program.sourceType === "module");
  const other = difference(program, found);
  if (other) throw new Refusal("Guard", `what was printed is another program at ${placeOf(other)}`);
  return found;
}

/** What stands before the code: the `#!` line, and the comments that are kept. */
function headOf(code, comments) {
  const first = code.startsWith("#!") ? `${code.split(/[\n\r\u2028\u2029]/, 1)[0]}\n` : "";
  const kept = comments.filter(({ start }) => start > 0 || first === "");
  return first + licences(kept);
}

// ---- all together

function changed(code, options, warnings) {
  const comments = [];
  const { ast, commonjs: isCommonjs } = parse(code, { module: options.module, comments });
  const input = isCommonjs ? commonjs.wrap(ast, code) : ast;
  const answer = answerFor(input, code, options, warnings);
  const parts = isCommonjs ? commonjs.unwrap(answer.program, answer.text, code) : answer;
  const tree = guarded(parts);
  const { program, text } = parts;
  const { kept, passes, settled } = answer;
  const head = headOf(code, comments);
  const sources = { code, ast, kept, program, text, tree, head };
  const map = options.sourceMap ? mapOf(sources, options, warnings) : null;
  return { code: head + text, map, stats: { passes, settled } };
}

function mapOf(parts, { file, inputMap }, warnings) {
  const { map, warnings: said } = sourceMap({ ...parts, file, inputMap });
  warnings.push(...said);
  return map;
}

function checkCall(code, options) {
  if (typeof code !== "string") throw new TypeError("minify(code, options): code is a text");
  if (options === null || typeof options !== "object") {
    throw new TypeError("minify(code, options): options is an object");
  }
}

/**
 * Minifies JavaScript: it parses the text, lets one proved program rewrite the tree, and another
 * print what that answers. What was printed is parsed and compared; where anything goes wrong the
 * text comes back as it was.
 *
 * @param {string} code
 * @param {object} [options]
 * @param {boolean} [options.module] whether the code is a module; else it is a script if it is one
 * @param {boolean} [options.adapt=true] whether forms that the program doesn't read are handed to
 *   it as others that it reads (docs/ADAPTER.md)
 * @param {number} [options.passes] how many passes are made at most
 * @param {number} [options.maxDepth=1000] how deep nodes may nest
 * @param {number} [options.edition=2022] the edition of ECMAScript, as a year from 2015 on, of
 *   which no newer form is written that `code` lacks
 * @param {boolean} [options.sequences=true] whether statements are joined by commas
 * @param {boolean} [options.joinVars=true] whether declarations are joined
 * @param {boolean} [options.keepFunctionNames=false]
 * @param {boolean} [options.keepClassNames=false]
 * @param {boolean} [options.sourceMap=false] whether a source map is made
 * @param {object} [options.inputMap] the source map of `code`, with which that is composed
 * @param {string} [options.file] the name of the file, for the source map
 * @param {string} [options.program] where the program is that rewrites (else `MINI_APP`, else
 *   crates/mini_app/out/mini_app)
 * @param {string} [options.printer] where the program is that prints (else `MINI_TEXT`, else
 *   crates/mini_text/out/mini_text)
 * @returns {{code: string, map: object | null, refused: Refusal | null, warnings: object[], stats:
 *   object}} `refused` says why `code` is as it was; a warning has `code`, `message`, `line` and
 *   `column`; `stats` has `bytesBefore`, `bytesAfter`, and of the answer `passes` and `settled`
 * @throws {TypeError} where the call itself is wrong
 */
function minify(code, options = {}) {
  checkCall(code, options);
  const warnings = [];
  let result = { code, map: null, stats: {} };
  let refused = null;
  try {
    result = changed(code, options, warnings);
  } catch (error) {
    if (!(error instanceof Refusal)) throw error;
    refused = error;
  }
  const stats = { bytesBefore: bytes(code), bytesAfter: bytes(result.code), ...result.stats };
  return { code: result.code, map: result.map, refused, warnings, stats };
}

module.exports = { minify };
