"use strict";

/**
 * Why a file is left as it was. `code` is one of
 *
 * - `Syntax`: the parser takes the text for no JavaScript;
 * - `Unsupported`, `BadShape`, `TooDeep`, `EarlyName`, `EarlyJump`: what the program says of a
 * node;
 * - `NotJson`, `TooLong`, `OutOfMemory`, `ReadFault`, `WriteFault`, `BadWords`: its other statuses;
 * - `NoProgram`: a program isn't there, or was ended;
 * - `NoParser`: the parser isn't there;
 * - `Adapter`: what the adapter wrote in place of a form did not come back as it must;
 * - `Printer`: the program that prints refuses the answer, or it is too long or too deep;
 * - `Guard`: what was printed is another program than what was answered.
 *
 * `line` counts from 1 and `column` too; both are null where no place is known.
 */
class Refusal extends Error {
  /**
   * @param {string} code
   * @param {string} message without file and place
   * @param {{node?: object, line?: number, column?: number, status?: number, pointer?: string}}
   *   [more]
   */
  constructor(code, message, more = {}) {
    super(message);
    this.name = "Refusal";
    this.code = code;
    const start = more.node?.loc?.start;
    this.line = more.line ?? start?.line ?? null;
    this.column = more.column ?? (start ? start.column + 1 : null);
    this.status = more.status ?? null;
    this.pointer = more.pointer ?? null;
  }
}

function causeOfLiteral(node) {
  if (node.bigint != null) return `the BigInt ${node.bigint}n is past 2^128 - 1, or a key`;
  if (typeof node.value !== "number") return "a literal of this form isn't read";
  const isFraction = Number.isFinite(node.value) && !Number.isInteger(node.value);
  return `the number ${node.value} is ${isFraction ? "not whole" : "past 2^53 - 1"}`;
}

/**
 * What the program doesn't read about a node, in words.
 * @param {object} node the node that its pointer leads to
 * @returns {string}
 */
function causeOf(node) {
  if (/^TS/.test(node.type)) return "TypeScript isn't read";
  if (/^JSX/.test(node.type)) return "JSX isn't read";
  if (/Function/.test(node.type) && node.async) return causeOfAsync(node);
  if (node.type === "Literal") return causeOfLiteral(node);
  if (node.attributes?.length > 0) return "import attributes aren't read";
  const words = {
    FunctionDeclaration: "a function is declared in a block of sloppy code",
    AwaitExpression: "`await` isn't read",
    ForOfStatement: "`for await` isn't read",
    WithStatement: "`with` isn't read",
    ImportExpression: "`import()` with options isn't read",
    ParenthesizedExpression: "kept parentheses aren't read",
  };
  return words[node.type] ?? `${node.type} of this form isn't read`;
}

function causeOfAsync(node) {
  return node.generator ? "async generators aren't read" : "async functions aren't read";
}

const WORDS = {
  BadShape: (node) => `${node.type} isn't of the form that ESTree has`,
  TooDeep: () => "the code nests too deep (--max-depth=N, 1000 at most)",
  EarlyName: (node) => `the name ${node.name ?? ""} is declared twice`.replace("  ", " "),
  EarlyJump: () => "the jump has no target",
  Unsupported: causeOf,
};

/**
 * The message of a refusal by the program.
 * @param {string} defect as the program names it
 * @param {object} node the node that its pointer leads to
 */
function messageOf(defect, node) {
  return WORDS[defect] ? WORDS[defect](node) : defect;
}

module.exports = { Refusal, causeOf, messageOf };
