// Rewrite 71: the initializer of a name that is read once, in what is evaluated next, takes the
// place of the name.
"use strict";
const { isCarried, isFunction, isName, isResolved, isUnary, isUnresolved } = require("./nodes.js");
const { isFree, isPlain, isPrimitive } = require("./terms.js");
const { needsGuard } = require("./seats.js");
const {
  firstExpressions, isDeclaration, isLexicalHead, partAt, replaced,
} = require("./statements.js");
const { spine } = require("./fold.js");
const { isSteadyName } = require("./logic.js");
const { spliced } = require("./lists.js");

// ---- the parts of an expression in the order in which they are evaluated: the path to each, and
// what happens to it before the next one

const part = (path, marks = {}) => ({ path, ...marks });
const listed = (field, list) =>
  list.flatMap((each, at) => {
    if (!each) return [];
    return each.type === "SpreadElement"
      ? [part([field, at, "argument"], { isSpread: true })]
      : [part([field, at])];
  });

// What stands behind an optional mark may stay unevaluated.
const isBehindMark = (node) => spine(node).some((link) => link.optional);

function memberParts(node) {
  const key = node.computed ? [part(["property"], { isMaybe: isBehindMark(node) })] : [];
  return [part(["object"]), ...key];
}

function callParts(node) {
  const isMaybe = isBehindMark(node);
  return [
    part(["callee"]), ...listed("arguments", node.arguments).map((each) => ({ ...each, isMaybe })),
  ];
}

function propertyParts(each, at) {
  if (each.type === "SpreadElement") {
    return [part(["properties", at, "argument"], { isSpread: true })];
  }
  const key = each.computed ? [part(["properties", at, "key"], { isConverted: true })] : [];
  return [...key, part(["properties", at, "value"])];
}

// A target is evaluated first: a member's object and key; its value too, where it is read.
function assignmentParts(node) {
  const isMaybe = /^(&&|\|\||\?\?)=$/.test(node.operator);
  const { left } = node;
  const right = part(["right"], { isMaybe });
  if (left.type === "MemberExpression" && !isCarried(left)) {
    const inside = memberParts(left).map((each) => ({ ...each, path: ["left", ...each.path] }));
    const read = node.operator === "=" ? [] : [part(["left"], { isWhole: true })];
    return [...inside, ...read, right];
  }
  return node.operator === "=" ? [right] : [part(["left"], { isWhole: true }), right];
}

const PARTS = {
  UnaryExpression: () => [part(["argument"])],
  BinaryExpression: () => [part(["left"]), part(["right"])],
  LogicalExpression: () => [part(["left"]), part(["right"], { isMaybe: true })],
  ConditionalExpression: () => [
    part(["test"]),
    part(["consequent"], { isMaybe: true, isBranch: true }),
    part(["alternate"], { isMaybe: true, isBranch: true }),
  ],
  AssignmentExpression: assignmentParts,
  UpdateExpression: (node) =>
    node.argument.type === "MemberExpression"
      ? memberParts(node.argument).map((each) => ({ ...each, path: ["argument", ...each.path] }))
      : [],
  SequenceExpression: (node) => listed("expressions", node.expressions),
  CallExpression: callParts,
  NewExpression: (node) => [part(["callee"]), ...listed("arguments", node.arguments)],
  MemberExpression: memberParts,
  ChainExpression: () => [part(["expression"])],
  YieldExpression: (node) => (node.argument ? [part(["argument"])] : []),
  TemplateLiteral: (node) =>
    node.expressions.map((each, at) => part(["expressions", at], { isConverted: true })),
  ArrayExpression: (node) => listed("elements", node.elements),
  ObjectExpression: (node) => node.properties.flatMap(propertyParts),
};

// ---- the way to the one read of a variable

// The path to the read of a variable, the parts that are passed on the way, whether it may stay
// unevaluated, and the node round it; null where it isn't read here.
function wayTo(node, symbol) {
  if (isName(node)) {
    return node.symbol === symbol && node.isReference
      ? { path: [], passed: [], isMaybe: false }
      : null;
  }
  if (isFunction(node) || isCarried(node)) return null;
  const parts = PARTS[node.type]?.(node) ?? [];
  for (const [at, each] of parts.entries()) {
    const below = each.isWhole ? null : wayTo(partAt(node, each.path), symbol);
    if (below) return joinedWay(node, parts.slice(0, at), each, below);
  }
  return null;
}

function joinedWay(node, before, each, below) {
  const passed = before.filter((other) => !(each.isBranch && other.isBranch)
    && !isInside(node, other, before));
  return {
    path: [...each.path, ...below.path],
    passed: [
      ...passed.map((other) => ({ ...other, node: partAt(node, other.path) })), ...below.passed,
    ],
    isMaybe: Boolean(each.isMaybe) || below.isMaybe,
    parent: below.parent ?? node,
    field: below.parent ? below.field : each.path.at(-1),
  };
}

// The object and key of a member are told by the whole, where that is read.
const isInside = (node, other, before) =>
  !other.isWhole && other.path[0] === "left" && before.some((each) => each.isWhole);

// ---- conditions

function mayPass({ node, isSpread, isConverted }, r) {
  const isQuiet = isPlain(r) || (isFree(r) && isFree(node)) || isPlain(node) || isSteadyName(node);
  if (!isQuiet) return false;
  return isPlain(r) || (!isSpread && (!isConverted || isPrimitive(node)));
}

// Whether an expression may stand in the place of the read.
function fitsPlace(way, r) {
  const { parent, field } = way;
  if (!parent) return true;
  if (isUnary(parent, "delete")) return false;
  if (isUnary(parent, "typeof") && isUnresolved(r)) return false;
  const isCallee = field === "callee" && parent.type === "CallExpression";
  return !(isCallee && needsGuard(r, "callee"));
}

// Whether the read is the value of `{ __proto__ }`.
function isProto(h, way) {
  const at = way.path.lastIndexOf("value");
  const holder = at > 0 && at === way.path.length - 1 ? partAt(h, way.path.slice(0, at)) : null;
  return holder?.type === "Property" && holder.shorthand && holder.key.name === "__proto__";
}

function isCandidate(declarator) {
  if (!declarator || !declarator.init || !isResolved(declarator.id)) return false;
  const { symbol } = declarator.id;
  return symbol.reads === 1 && symbol.writes === 0 && !symbol.isShared && !symbol.isTop
    && !symbol.isInEvalsReach;
}

// The expression with the initializer of a declarator in the place of its name.
function substituted(declarator, h) {
  const r = declarator.init;
  const way = wayTo(h, declarator.id.symbol);
  if (!way || isProto(h, way) || !fitsPlace(way, r)) return null;
  if (way.isMaybe && !isFree(r)) return null;
  if (!way.passed.every((each) => mayPass(each, r))) return null;
  return way.path.length === 0 ? r : placed(h, way.path, r);
}

// The initializer at the end of a path; a shorthand property tells its key then.
function placed(h, path, r) {
  const at = path.at(-1) === "value" ? path.slice(0, -1) : null;
  const holder = at && partAt(h, at);
  if (holder?.shorthand) return replaced(h, at, { ...holder, shorthand: false, value: r });
  return replaced(h, path, r);
}

// ---- lists, and the declarators of one declaration

function intoNext(list) {
  return list.slice(0, -1).flatMap((first, at) => {
    const last = isDeclaration(first) ? first.declarations.at(-1) : null;
    if (!isCandidate(last)) return [];
    const second = list[at + 1];
    if (isLexicalHead(second) && !isPlain(last.init)) return [];
    return firstExpressions(second).flatMap((path) => {
      const found = substituted(last, partAt(second, path));
      if (!found) return [];
      const others = first.declarations.slice(0, -1);
      const left = others.length > 0 ? [{ ...first, declarations: others }] : [];
      return [spliced(list, at, 2, ...left, replaced(second, path, found))];
    });
  });
}

function intoDeclarator(node) {
  if (!isDeclaration(node)) return [];
  return node.declarations.slice(0, -1).flatMap((first, at) => {
    const second = node.declarations[at + 1];
    const found = isCandidate(first) && second.init ? substituted(first, second.init) : null;
    return found
      ? [{ ...node, declarations: node.declarations.toSpliced(at, 2, { ...second, init: found }) }]
      : [];
  });
}

const LISTS = [[71, intoNext]];
const DECLARATIONS = [[71, intoDeclarator]];

module.exports = { DECLARATIONS, LISTS };
