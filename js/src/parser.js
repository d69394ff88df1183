"use strict";
const { Refusal } = require("./errors.js");

// acorn as it is installed, or the one inside node, which `node --expose-internals` shows.
const PLACES = ["acorn", "internal/deps/acorn/acorn/dist/acorn"];

function found() {
  for (const place of PLACES) {
    try {
      return require(place);
    } catch (error) {
      if (error.code !== "MODULE_NOT_FOUND") throw error;
    }
  }
  throw new Refusal(
    "NoParser",
    "acorn, the parser, isn't here: run `npm install` in js/, or name the folder that has it in " +
      "NODE_PATH, or use the one inside node by `node --expose-internals`",
  );
}

let acorn = null;

/** The parser, loaded when it is first asked for. */
function parser() {
  acorn ??= found();
  return acorn;
}

function syntaxError(error) {
  const message = error.message.replace(/ \(\d+:\d+\)$/, "");
  return new Refusal("Syntax", message, { node: { loc: { start: error.loc } } });
}

function tryParse(code, options) {
  try {
    return { ast: parser().parse(code, options) };
  } catch (error) {
    if (error instanceof SyntaxError) return { error };
    if (error instanceof RangeError) {
      throw new Refusal("TooDeep", "the code nests too deep for the parser");
    }
    throw error;
  }
}

const ALWAYS = { ecmaVersion: "latest", allowHashBang: true };

/**
 * How a text may be read: as a script, as one of CommonJS with a `return` outside functions, as a
 * module.
 * @param {boolean | undefined} module whether it is a module, where that is known
 */
function readings(module) {
  const script = { sourceType: "script" };
  const commonjs = { sourceType: "script", allowReturnOutsideFunction: true };
  if (module === true) return [{ sourceType: "module" }];
  return module === false ? [script, commonjs] : [script, { sourceType: "module" }, commonjs];
}

/**
 * Parses JavaScript.
 * @param {string} code
 * @param {{module?: boolean, comments?: object[], isPlaced?: boolean}} [options] `module`: whether
 *   it is a module, else a script if it is one. `comments`: a list that takes in the comments.
 *   `isPlaced`: whether nodes have lines and columns beside offsets (`loc`), which takes time.
 * @returns {{ast: object, commonjs: boolean}} the ESTree with positions, and whether a `return`
 *   stands outside functions
 * @throws {Refusal} with the code `Syntax`
 */
function parse(code, { module, comments, isPlaced = true } = {}) {
  let first = null;
  for (const reading of readings(module)) {
    const notes = [];
    const asked = { ...ALWAYS, locations: isPlaced, onComment: notes, ...reading };
    const { ast, error } = tryParse(code, asked);
    if (ast) {
      comments?.push(...notes);
      return { ast, commonjs: reading.allowReturnOutsideFunction === true };
    }
    // The error that got furthest tells most.
    if (first === null || error.pos > first.pos) first = error;
  }
  throw syntaxError(first);
}

module.exports = { parse, parser };
