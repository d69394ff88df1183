"use strict";
const { children } = require("./estree.js");
const { numbered } = require("./numbered.js");

/**
 * A script that is too long for the program goes to it in halves, where it declares nothing outside
 * functions. Then each name means the same in a half as in the whole: one of a function inside it,
 * or a global one, of which the program assumes nothing. A run of the script is a run of the first
 * half and, where that ends normally, one of the second, and the program keeps what each does in
 * every environment.
 */

const DECLARES = /^(Variable|Function|Class)Declaration$/;
const IS_APART = /^(FunctionExpression|ArrowFunctionExpression|ClassExpression)$/;

/** Whether a declaration stands in a node, functions and classes that are expressions aside. */
function declares(node) {
  return DECLARES.test(node.type) || (!IS_APART.test(node.type) && children(node).some(declares));
}

const isDirective = (node) => typeof node.directive === "string";

/**
 * The halves of a script, by the length of the text; the second has the directives, too.
 * @param {object} ast a Program with positions
 * @returns {[object, object] | null} null where it can't be parted
 */
function halves(ast) {
  const directives = ast.body.filter(isDirective);
  const statements = ast.body.slice(directives.length);
  const isParted = ast.sourceType === "script" && statements.length > 1;
  if (!isParted || statements.some(declares)) return null;
  const middle = (statements[0].start + statements.at(-1).end) / 2;
  const before = statements.filter(({ end }) => end <= middle).length;
  const count = Math.min(Math.max(before, 1), statements.length - 1);
  const half = (list) => ({ ...ast, body: [...directives, ...list] });
  return [half(statements.slice(0, count)), half(statements.slice(count))];
}

/** The text of a script behind its directives. */
function withoutDirectives({ text, tree }) {
  const first = tree.body.find((node) => !isDirective(node));
  return text.slice(first?.start ?? text.length);
}

/** Two texts of statements as one. */
const together = (one, other) => [one, other].filter((text) => text !== "").join(";");

/**
 * The answer for a script, from those for its halves.
 * @param {object} first the first half, as it was handed over
 * @param {object} one its answer, with its text and the parser's tree of that
 * @param {object} other the answer for the second half
 */
function joined(first, one, other) {
  const body = [...one.program.body, ...other.program.body.filter((node) => !isDirective(node))];
  // The program itself has the number 0; those of the second half come after those of the first.
  const shift = numbered(first).length - 1;
  return {
    program: { ...one.program, body },
    text: together(one.text, withoutDirectives(other)),
    tree: null,
    kept: [...one.kept, ...other.kept.slice(1).map((number) => number + shift)],
    passes: Math.max(one.passes, other.passes),
    settled: one.settled && other.settled,
  };
}

module.exports = { halves, joined };
