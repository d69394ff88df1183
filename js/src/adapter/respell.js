"use strict";
const { NODES, isNode } = require("../estree.js");
const { literal, quoted } = require("../literals.js");
const { Splices } = require("../splices.js");

// The way back in the text: what the proved program printed has the marks in it, and each becomes
// what it stands for, at the place where the parser finds it. Each node that moves keeps its own
// text, from its first token to its last, and stands in parentheses where its type asks for them
// in its new place. So what comes out is right by the grammar, whatever stands around it.

/** What may not stand behind `await` without parentheses: all that isn't a UnaryExpression. */
const BELOW_UNARY =
  /^(Sequence|Assignment|ArrowFunction|Yield|Conditional|Binary|Logical)Expression$/;

const inParentheses = (node, isDue) => (isDue ? ["(", node, ")"] : [node]);
const isSequence = (node) => node.type === "SequenceExpression";
const isText = (node) => node.type === "Literal" && typeof node.value === "string";

/** Whether a node stands where a call may stand, and `await x` may not. */
function isTight(node, parent) {
  switch (parent.type) {
    case "MemberExpression":
      return parent.object === node;
    case "CallExpression":
      return parent.callee === node;
    case "TaggedTemplateExpression":
      return parent.tag === node;
    case "ClassDeclaration":
    case "ClassExpression":
      return parent.superClass === node;
    case "BinaryExpression":
      return parent.operator === "**" && parent.left === node;
    default:
      // A call is no callee of `new` without parentheses, and no target.
      return false;
  }
}

// ---- literals

function respellIdentifier(node, parent, { marks, splices }) {
  const found = marks.literals.get(node.name);
  if (found === undefined) return;
  const text = literal(found);
  // A text alone would be a directive.
  const isAlone = parent.type === "ExpressionStatement" && typeof found.value === "string";
  const isBeforeDot = /^\d+$/.test(text) && splices.source[node.end] === ".";
  splices.replace(node.start, node.end, [isAlone ? `(${text})` : isBeforeDot ? `${text}.` : text]);
}

// ---- calls

/** The kind of the mark that a node calls: `wait`, `iterate`, `give`, or none. */
function markOf(node, { marks }) {
  return node.type === "CallExpression" ? marks.calls.get(node.callee.name) : undefined;
}

function respellCall(node, parent, context) {
  const mark = markOf(node, context);
  const [argument] = node.arguments;
  const replace = (parts) => context.splices.replace(node.start, node.end, parts);
  if (mark === "wait") {
    const awaited = ["await", ...inParentheses(argument, BELOW_UNARY.test(argument.type))];
    replace(isTight(node, parent) ? ["(", ...awaited, ")"] : awaited);
  } else if (mark !== undefined) replace(inParentheses(argument, isSequence(argument)));
  else parenthesise(node.arguments.slice(1), context);
  respellChildren(node, context);
}

/**
 * V8 takes `f({a:1},[b]=c)` for a pattern that is none. So an assignment to a pattern stands in
 * parentheses, where it is no first argument.
 */
function parenthesise(others, { splices }) {
  for (const argument of others) {
    const node = argument.type === "SpreadElement" ? argument.argument : argument;
    const isAssignment = node.type === "AssignmentExpression" && /Pattern$/.test(node.left.type);
    if (isAssignment) splices.replace(node.start, node.end, inParentheses(node, true));
  }
}

function respellNew(node, parent, context) {
  parenthesise(node.arguments.slice(1), context);
  respellChildren(node, context);
}

function respellForOf(node, parent, context) {
  const { right } = node;
  const last = isSequence(right) ? right.expressions.at(-1) : right;
  const behindFor = node.start + "for".length;
  if (markOf(last, context) === "iterate") context.splices.replace(behindFor, behindFor, ["await"]);
  respellChildren(node, context);
}

// ---- results of async generators

/** Whether each result of a `return` is marked. */
function isAwaited(node, context) {
  if (isSequence(node)) return isAwaited(node.expressions.at(-1), context);
  if (node.type !== "ConditionalExpression") return markOf(node, context) === "give";
  return isAwaited(node.consequent, context) && isAwaited(node.alternate, context);
}

// What an expression statement may not begin with, or with what it would be another statement.
const OPENS = /^(?:\{|["']|(?:function|class|let|async)(?![\w$]))/;

const statement = (node, { splices }) => [
  ...inParentheses(node, OPENS.test(splices.source.slice(node.start, node.start + 9))),
  ";",
];

const endOf = (parts) => (String(parts.at(-1)).endsWith("}") ? "" : ";");

/** The statement that a `return` becomes where some of its results aren't awaited. */
function resultParts(node, context) {
  if (isAwaited(node, context)) return ["return", node];
  if (isSequence(node)) {
    const before = node.expressions.slice(0, -1).flatMap((part) => statement(part, context));
    return ["{", ...before, ...resultParts(node.expressions.at(-1), context), "}"];
  }
  if (node.type === "ConditionalExpression") {
    const consequent = resultParts(node.consequent, context);
    const alternate = resultParts(node.alternate, context);
    return ["if(", node.test, ")", ...consequent, endOf(consequent), "else", ...alternate];
  }
  // `void` of something: nothing is returned.
  if (node.argument.type === "Literal") return ["return"];
  return ["{", ...statement(node.argument, context), "return}"];
}

function respellReturn(node, parent, context) {
  const { argument } = node;
  if (context.frame?.isGenerator && argument && !isAwaited(argument, context)) {
    const parts = resultParts(argument, context);
    const isEnded = context.splices.source[node.end - 1] === ";";
    context.splices.replace(node.start, node.end, [...parts, isEnded ? endOf(parts) : ""]);
  }
  respellChildren(node, context);
}

// ---- functions

/** Where `async` belongs: before `function`, the parameters, the name of a method or its star. */
function placeOfAsync(node, parent) {
  if (parent.type === "MethodDefinition") return parent.start + (parent.static ? "static".length : 0);
  return parent.type === "Property" && parent.method ? parent.start : node.start;
}

/** The one value that an arrow function returns, with its mark or without: `{"mark";return e}`. */
function resultOf(node, mark) {
  if (node.type !== "ArrowFunctionExpression") return null;
  const [only, ...more] = node.body.body.filter((each) => each !== mark);
  return only?.type === "ReturnStatement" && more.length === 0 ? only.argument : null;
}

function respellFunction(node, parent, context) {
  const { marks, splices } = context;
  const list = node.body.type === "BlockStatement" ? node.body.body : [];
  const at = list.findIndex((each) => marks.frameOf.has(each.directive));
  const frame = at < 0 ? null : marks.frameOf.get(list[at].directive);
  const within = { ...context, frame };
  if (frame === null) return respellChildren(node, within);
  const place = placeOfAsync(node, parent);
  splices.replace(place, place, ["async"]);
  const result = resultOf(node, list[at]);
  if (result) {
    const isDue = context.isInHead || isSequence(result) || splices.source[result.start] === "{";
    splices.replace(node.body.start, node.body.end, inParentheses(result, isDue));
  } else {
    splices.replace(list[at].start, list[at + 1]?.start ?? node.body.end - 1, []);
  }
  return respellChildren(node, within);
}

// ---- the walk

const respellStatement = (node, parent, context) =>
  typeof node.directive === "string" ? undefined : respellChildren(node, context);

/** In the head of a `for` an `in` stands in parentheses; code in braces ends the head. */
function respellFor(node, parent, context) {
  for (const field of NODES[node.type].children) {
    const isInHead = field === "init" || field === "left";
    if (node[field]) respell(node[field], node, isInHead ? { ...context, isInHead } : context);
  }
}

const respellBlock = (node, parent, context) =>
  respellChildren(node, context.isInHead ? { ...context, isInHead: false } : context);

// What a program that reads text as bytes, or a page, takes for something else.
const ODD = /[\0\ufeff]|<\/script/i;

function respellLiteral(node, parent, { splices }) {
  const { start, end } = node;
  const text = splices.source.slice(start, end);
  if (isText(node) && ODD.test(text)) splices.replace(start, end, [quoted(node.value)]);
  const isEnding = node.regex && splices.source[start - 1] === "<" && /^\/script/i.test(text);
  if (isEnding) splices.replace(start, end, ["(", node, ")"]);
}

const respellProperty = (node, parent, context) =>
  node.shorthand ? respell(node.value, node, context) : respellChildren(node, context);

const RESPELLS = {
  Identifier: respellIdentifier,
  Literal: respellLiteral,
  Property: respellProperty,
  CallExpression: respellCall,
  NewExpression: respellNew,
  ForStatement: respellFor,
  ForInStatement: respellFor,
  ForOfStatement: respellForOf,
  ReturnStatement: respellReturn,
  ExpressionStatement: respellStatement,
  BlockStatement: respellBlock,
  FunctionDeclaration: respellFunction,
  FunctionExpression: respellFunction,
  ArrowFunctionExpression: respellFunction,
};

function respellChildren(node, context) {
  for (const field of NODES[node.type]?.children ?? []) {
    const value = node[field];
    if (Array.isArray(value)) {
      for (const child of value) if (isNode(child)) respell(child, node, context);
    } else if (isNode(value)) respell(value, node, context);
  }
}

function respell(node, parent, context) {
  const special = RESPELLS[node.type];
  if (special) special(node, parent, context);
  else respellChildren(node, context);
}

/**
 * A printed text with what the marks in it stand for, and with what a page or V8 would read
 * otherwise written in another way.
 * @param {string} source compact text
 * @param {object} tree what the parser makes of it
 * @param {{literals: Map, calls: Map, frameOf: Map}} marks
 * @returns {string} the very same text where there is nothing to do
 */
function respelled(source, tree, marks) {
  const splices = new Splices(source);
  respell(tree, null, { splices, marks, frame: null, isInHead: false });
  return splices.edits.length > 0 ? splices.text() : source;
}

module.exports = { respelled };
