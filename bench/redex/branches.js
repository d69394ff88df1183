// Rewrites 79 and 81 to 84 of single statements: blocks as bodies, known switches, `if`s, and the
// test of a `for`. Each is a function of a statement and its seat that gives what would be written.
"use strict";
const {
  block, conditional, ifStatement, isEmpty, isExpressionStatement, isFunction, isIfElse, isLoop,
  isName, isNode, isUnary, logical, partsOf, statement,
} = require("./nodes.js");
const { constant, freeConstant, lighterNot } = require("./terms.js");
const { TEST, seatOf } = require("./seats.js");
const { notFirst } = require("./logic.js");
const { isScoped, isTerminated } = require("./statements.js");
const { boundNames } = require("./names.js");
const { vars } = require("./jumps.js");

const UNUSED = { is: "expression", level: 0, unused: true };

// 79: a block of one statement, as a body or branch, is that statement.
function unwrap(node, seat, { parent }) {
  if (node.type !== "BlockStatement" || !["body", "consequent"].includes(seat.seat)) return null;
  const [only, ...others] = node.body;
  if (!only || others.length > 0 || isScoped(only)) return null;
  if (seat.seat === "consequent" && isIfElse(only)) return null;
  const isLabelled = parent.type === "LabeledStatement"
    && (isLoop(only) || only.type === "LabeledStatement");
  return isLabelled ? null : only;
}

// ---- 81

// The case that a known value chooses, or undefined where a test isn't known; null where none is
// equal.
function chosenCase(node, value) {
  for (const part of node.cases.filter((each) => each.test)) {
    const found = freeConstant(part.test);
    if (!found) return undefined;
    if (found.value === value) return part;
  }
  return null;
}

// The statements that run from a case on.
function statementsFrom(node, part) {
  const found = [];
  for (const each of node.cases.slice(node.cases.indexOf(part))) {
    found.push(...each.consequent);
    if (isTerminated(block(each.consequent))) break;
  }
  return found;
}

// 81: a `switch` over a known value has one case.
function chooseCase(node) {
  if (node.type !== "SwitchStatement" || node.cases.length < 2) return null;
  const found = constant(node.discriminant);
  if (!found || node.cases.some((part) => part.consequent.some(isScoped))) return null;
  const chosen = chosenCase(node, found.value);
  if (chosen === undefined) return null;
  const part = chosen ?? node.cases.find((each) => !each.test) ?? null;
  const kept = part ? statementsFrom(node, part) : [];
  const lost = node.cases.flatMap((each) => each.consequent).filter((each) => !kept.includes(each));
  const left = { ...(part ?? node.cases[0]), consequent: [...stubs(lost), ...kept] };
  return { ...node, cases: [left] };
}

function stubs(lost) {
  const names = new Map(lost.flatMap(vars).map((name) => [name.symbol, name]));
  const declarations = [...names.values()].map((id) => ({
    type: "VariableDeclarator", id, init: null,
  }));
  return declarations.length > 0
    ? [{ type: "VariableDeclaration", kind: "var", declarations }]
    : [];
}

// ---- `if`

const isNegated = (node) => isUnary(partsOf(node).at(-1), "!");

// 82: an `if` of expressions is an expression.
function toExpression(node) {
  if (node.type !== "IfStatement") return null;
  const { test, consequent, alternate } = node;
  const side = (operator, other, expression) =>
    statement(isNegated(test)
      ? notFirst(other, test, expression, UNUSED)
      : logical(operator, test, expression));
  if (isExpressionStatement(consequent)) {
    if (!alternate) return side("&&", "||", consequent.expression);
    const isBoth = isExpressionStatement(alternate);
    return isBoth
      ? statement(conditional(test, consequent.expression, alternate.expression))
      : null;
  }
  const isElse = isEmpty(consequent) && alternate && isExpressionStatement(alternate);
  return isElse ? side("||", "&&", alternate.expression) : null;
}

// 83: shorter forms of an `if`.
function shortenIf(node) {
  if (node.type !== "IfStatement") return null;
  const { test, consequent, alternate } = node;
  if (isEmpty(consequent)) {
    if (!alternate) return statement(test);
    return isExpressionStatement(alternate) ? null : ifStatement(lighterNot(test, TEST), alternate);
  }
  const isNested = !alternate && consequent.type === "IfStatement" && !consequent.alternate;
  if (isNested) return ifStatement(logical("&&", test, consequent.test), consequent.consequent);
  return swapped(node) ?? (isIfElse(consequent)
    ? { ...node, consequent: block([consequent]) }
    : null);
}

function swapped({ test, consequent, alternate }) {
  if (!alternate || !isUnary(test, "!") || isExpressionStatement(consequent)) return null;
  return alternate.type === "IfStatement"
    ? null
    : ifStatement(test.argument, alternate, consequent);
}

// ---- 84

const isPlainBreak = (node) => node?.type === "BreakStatement" && !node.label;

// The names that a list declares, `var`s aside.
function lexicalNames(list) {
  return list.flatMap((node) => {
    if (node.type === "VariableDeclaration") {
      return node.kind === "var" ? [] : node.declarations.flatMap((part) => boundNames(part.id));
    }
    return isFunction(node) || node.type === "ClassDeclaration" ? [node.id] : [];
  });
}

// Whether one of some variables is mentioned below a node.
function mentionsAny(node, symbols) {
  if (!isNode(node)) return Array.isArray(node) && node.some((part) => mentionsAny(part, symbols));
  if (isName(node) && symbols.has(node.symbol)) return true;
  return Object.entries(node).some(([field, part]) => field !== "inBody"
    && mentionsAny(part, symbols));
}

// The new test, and the branch that stays, of an `if` that begins the body of a loop.
function leadingTest(node, seat) {
  if (node.type !== "IfStatement") return null;
  if (isPlainBreak(node.consequent)) {
    return { test: lighterNot(node.test, seat), rest: node.alternate };
  }
  return isPlainBreak(node.alternate) ? { test: node.test, rest: node.consequent } : null;
}

// 84: a `break` that begins the body of a `for` goes into its test.
function takeTest(node) {
  if (node.type !== "ForStatement") return null;
  const isBlock = node.body.type === "BlockStatement";
  const [first, ...later] = isBlock ? node.body.body : [node.body];
  const seat = node.test
    ? seatOf(logical("&&", node.test, node.test), "right", undefined, TEST)
    : TEST;
  const found = first && leadingTest(first, seat);
  if (!found || later.some((each) => each.type === "FunctionDeclaration")) return null;
  const names = new Set(lexicalNames(later).map((name) => name.symbol));
  if (mentionsAny(first.test, names)) return null;
  const test = node.test ? logical("&&", node.test, found.test) : found.test;
  const list = [...(found.rest ? [found.rest] : []), ...later];
  const body = isBlock ? block(list) : (list[0] ?? { type: "EmptyStatement" });
  return { ...node, test, body };
}

const STATEMENTS = [
  [79, unwrap], [81, chooseCase], [82, toExpression], [83, shortenIf], [84, takeTest],
];

module.exports = { STATEMENTS };
