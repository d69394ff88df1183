"use strict";
const { Refusal } = require("./errors.js");
const { parse } = require("./parser.js");
const { runPrinter } = require("./program.js");

const MESSAGES = {
  NotJson: "what is to be printed nests too deep for JSON",
  Refused: "what is to be printed has no text",
  TooLong: "what is to be printed is too long: its JSON has more than 16 MiB",
};

/**
 * What the proved program prints at the first of some calls at which its input is neither too long
 * nor too deep.
 */
function textOf([call, ...others], options) {
  const { name, status, text, note } = runPrinter(call.json, call.words, options);
  if (text !== null) return text;
  if (/^(NotJson|TooLong)$/.test(name) && others.length > 0) return textOf(others, options);
  if (name === "NoProgram") throw new Refusal(name, note, { status });
  const message = MESSAGES[name] ?? "the program that prints had no memory, or could not write";
  throw new Refusal("Printer", note === "" ? message : `${message} (${note})`, { status });
}

/** What the parser makes of a printed text. */
function read(text, module) {
  try {
    return parse(text, { module, isPlaced: false }).ast;
  } catch (error) {
    if (!(error instanceof Refusal)) throw error;
    throw new Refusal("Guard", `what was printed can't be read: ${error.message}`);
  }
}

/**
 * The text of a tree that has marks of the adapter, with what they stand for: the proved program
 * prints the tree, and the parser finds the marks.
 * @param {boolean} module whether the tree is that of a module
 * @param {{json: string | Buffer, words: string[]}[]} calls of the program, which all print the
 *   tree; where the input of one is too long or too deep, the next is tried
 * @param {(text: string, tree: object) => string} respell
 * @param {object} [options] those of `minify`
 * @returns {{text: string, tree: object}} the text, and what the parser makes of it
 * @throws {Refusal}
 */
function printed(module, calls, respell, options) {
  const marked = textOf(calls, options);
  const tree = read(marked, module);
  const text = respell(marked, tree);
  return { text, tree: text === marked ? tree : read(text, module) };
}

module.exports = { printed, read };
