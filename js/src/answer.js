"use strict";
const { adapt } = require("./adapter.js");
const { Refusal, messageOf } = require("./errors.js");
const { halves, joined } = require("./halves.js");
const { nesting, toJson } = require("./json.js");
const { printed } = require("./printer.js");
const { MOST, runProgram } = require("./program.js");
const { wordsOf } = require("./words.js");

/** The node that a JSON pointer leads to, and the nearest one above it that has a place. */
function nodeAt(ast, pointer) {
  let value = ast;
  const found = { node: ast, placed: ast };
  for (const step of pointer.split("/").slice(1)) {
    value = value?.[step];
    if (typeof value?.type !== "string") continue;
    found.node = value;
    if (value.loc) found.placed = value;
  }
  return found;
}

function refusedNode(note, ast, status) {
  const [, defect, pointer] = /^refused: (\w+) at (.*)$/s.exec(note) ?? [null, "Unsupported", ""];
  const { node, placed } = nodeAt(ast, pointer);
  return new Refusal(defect, messageOf(defect, node), { node: placed, status, pointer });
}

const ENDINGS = {
  BadWords: () => "an option is none that the program knows",
  NotJson: (json) =>
    /\\ud[89a-f]/i.test(json)
      ? "a text has half of a surrogate pair"
      : `the tree nests too deep: its JSON has ${nesting(JSON.parse(json))} levels`,
  ReadFault: () => "the program could not read",
  WriteFault: () => "the program could not write",
  TooLong: (json) =>
    `the tree is too long: its JSON has ${Buffer.byteLength(json)} bytes, past 16 MiB`,
  OutOfMemory: () => "the program had too little memory",
};

/** Hands the JSON of a tree to the program, and gives its answer, read and as bytes. */
function rewritten(ast, json, options) {
  const ended = runProgram(json, wordsOf(options), options);
  if (ended.answer) return { answer: ended.answer, bytes: ended.output };
  if (ended.name === "Refused") throw refusedNode(ended.note, ast, ended.status);
  const message = ENDINGS[ended.name]?.(json) ?? ended.note;
  throw new Refusal(ended.name, message, { status: ended.status });
}

/** Ways to have an answer printed: where it is no JSON that is read, it is made once more. */
const callsOf = (json, bytes, options) => [
  { json: bytes, words: ["--max-depth=1000"] },
  { json, words: ["--minify", ...wordsOf(options)] },
];

/**
 * The lighter program for a parser's tree: what the program doesn't read is adapted before and put
 * back after, and what is too long goes in halves.
 * @param {object} ast
 * @param {string} code its text
 * @param {object} options those of `minify`
 * @param {object[]} warnings takes in those of the adapter
 * @returns {{program: object, text: string, tree: object | null, kept: number[], passes: number,
 *   settled: boolean}} `text` is that of the program, and `tree` what the parser makes of it, where
 *   that is known
 * @throws {Refusal}
 */
function answerFor(ast, code, options, warnings) {
  const adapted = adapt(ast, code, { adapt: options.adapt });
  const json = toJson(adapted.ast);
  const parts = Buffer.byteLength(json) > MOST ? halves(ast) : null;
  if (parts) {
    const [one, other] = parts.map((part) => answerFor(part, code, options, warnings));
    return joined(parts[0], one, other);
  }
  warnings.push(...adapted.warnings);
  const { answer, bytes } = rewritten(adapted.ast, json, options);
  const program = adapted.restore(answer);
  const isModule = ast.sourceType === "module";
  const calls = callsOf(json, bytes, options);
  return { ...answer, program, ...printed(isModule, calls, adapted.respell, options) };
}

module.exports = { answerFor };
