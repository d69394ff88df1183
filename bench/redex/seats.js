// The seat of each part of a program: what its parent asks of its level, whether its truth alone
// counts, whether its value is used at all, and how a part weighs there.
"use strict";
const { expr, SEATS, Weigher } = require("../weigh.js");
const { FIELDS } = require("../estree.js");
const { isChain, isName, isNode, isUnary, isUnresolved } = require("./nodes.js");

const SPELLED = { undefined: 18, Infinity: 16, NaN: 6 };

// Weighs nodes whose names are resolved.
class Scales extends Weigher {
  inside(node, field, give) {
    return give(this);
  }

  Identifier(node) {
    return node.symbol || !Object.hasOwn(SPELLED, node.name) ? 2 : SPELLED[node.name];
  }
}

const scales = new Scales();
const weightOf = (node, seat) => scales.weight(node, seat);
const weightOfList = (list) => list.reduce((sum, node) => sum + weightOf(node, SEATS.list), 0);

// ---- seats of expressions

const TEST = { ...expr(0), boolean: true };
const UNUSED = { ...expr(0), unused: true };
const LEVELS = { "??": 3, "||": 3, "&&": 4 };

function binaryLevel(operator) {
  const found = SEATS.levels.get(operator);
  return operator === "**" ? { left: 15, right: found } : { left: found, right: found + 1 };
}

const isEqualitySign = (operator) => /^[!=]==?$/.test(operator);

const SEAT = {
  ExpressionStatement: () => UNUSED,
  IfStatement: (node, field) =>
    (field === "test" ? TEST : SEATS[field === "consequent" ? "consequent" : "body"]),
  WhileStatement: (node, field) => (field === "test" ? TEST : SEATS.body),
  DoWhileStatement: (node, field) => (field === "test" ? TEST : SEATS.body),
  ForStatement: forSeat,
  ForInStatement: (node, field) =>
    (field === "right" ? expr(0) : field === "body" ? SEATS.body : SEATS.target),
  ForOfStatement: (node, field) =>
    (field === "right" ? expr(1) : field === "body" ? SEATS.body : SEATS.target),
  LabeledStatement: () => SEATS.body,
  ReturnStatement: () => expr(0),
  ThrowStatement: () => expr(0),
  SwitchStatement: (node, field) => (field === "discriminant" ? expr(0) : SEATS.elsewhere),
  SwitchCase: (node, field) => (field === "test" ? expr(0) : SEATS.list),
  BlockStatement: () => SEATS.list,
  Program: () => SEATS.list,
  StaticBlock: () => SEATS.list,
  UnaryExpression: unarySeat,
  BinaryExpression: binarySeat,
  LogicalExpression: logicalSeat,
  ConditionalExpression: conditionalSeat,
  SequenceExpression: sequenceSeat,
  CallExpression: (node, field) =>
    (field === "callee" ? { ...SEATS.object, guard: "callee" } : expr(1)),
  NewExpression: (node, field) =>
    (field === "callee" ? { ...SEATS.object, newCallee: true } : expr(1)),
  MemberExpression: (node, field) => (field === "object" ? SEATS.object : expr(0)),
  TaggedTemplateExpression: (node, field) =>
    (field === "tag" ? { ...SEATS.object, guard: "callee" } : SEATS.elsewhere),
  TemplateLiteral: (node, field) => (field === "expressions" ? expr(0) : SEATS.elsewhere),
  ChainExpression: (node, field, place) => ({ ...expr(0), isLink: true, guard: place.guard }),
  YieldExpression: () => ({ ...expr(1), lifted: true }),
  ClassDeclaration: (node, field) => (field === "superClass" ? expr(16) : SEATS.elsewhere),
  ClassExpression: (node, field) => (field === "superClass" ? expr(16) : SEATS.elsewhere),
  AssignmentExpression: (node, field) => (field === "left" ? SEATS.target : expr(1)),
  AssignmentPattern: (node, field) => (field === "left" ? SEATS.target : expr(1)),
  UpdateExpression: () => SEATS.target,
  RestElement: () => SEATS.target,
  ArrayPattern: () => SEATS.target,
  ObjectPattern: () => SEATS.target,
  VariableDeclarator: (node, field) => (field === "id" ? SEATS.target : expr(1)),
  CatchClause: (node, field) => (field === "param" ? SEATS.target : SEATS.elsewhere),
};

function forSeat(node, field) {
  if (field === "test") return TEST;
  return field === "body" ? SEATS.body : UNUSED;
}

function unarySeat(node) {
  const { operator } = node;
  const seat = { ...expr(14), lifted: /^[-+~!]$/.test(operator) };
  if (operator === "!") seat.boolean = true;
  if (operator === "-") seat.minus = true;
  if (operator === "delete" || operator === "typeof") seat.guard = operator;
  return seat;
}

function binarySeat(node, field) {
  const { left, right } = binaryLevel(node.operator);
  if (field === "right") return expr(right);
  return { ...expr(left), lifted: true, eqLeft: isEqualitySign(node.operator) };
}

function logicalSeat(node, field, place) {
  const level = LEVELS[node.operator];
  const isTest = node.operator !== "??" && Boolean(place.boolean);
  const mix = node.operator;
  if (field === "right") return { ...expr(level + 1), mix, boolean: isTest };
  const isLeftTest = isTest || (node.operator !== "??" && Boolean(place.unused));
  return { ...expr(level), mix, lifted: true, boolean: isLeftTest };
}

function conditionalSeat(node, field, place) {
  if (field === "test") return { ...expr(3), lifted: true, condTest: true, boolean: true };
  return { ...expr(1), boolean: Boolean(place.boolean) };
}

function sequenceSeat(node, field, place, index) {
  const isLast = index === node.expressions.length - 1;
  return isLast ? { ...expr(1), boolean: Boolean(place.boolean) } : { ...expr(1), unused: true };
}

const FUNCTION_BODY = { ...expr(1) };

// A member of a pattern's or class's list, its key and its value.
function otherSeat(parent, field, place) {
  if (/^(Property|PropertyDefinition|MethodDefinition)$/.test(parent.type)) {
    if (field === "key") return parent.computed ? expr(1) : SEATS.elsewhere;
    if (place.is === "target") return SEATS.target;
    const isMethod = parent.method || (parent.kind && parent.kind !== "init");
    return isMethod ? SEATS.method : expr(1);
  }
  if (/Function/.test(parent.type)) return field === "body" ? FUNCTION_BODY : SEATS.target;
  if (/^(Array|Spread|ImportExpr|ExportDefault)/.test(parent.type)) return expr(1);
  return SEATS.elsewhere;
}

// The seat of a part of a node that stands in a place.
function seatOf(parent, field, index, place) {
  const given = SEAT[parent.type];
  return given ? given(parent, field, place, index) : otherSeat(parent, field, place);
}

// ---- the guard

const isAccess = (node) => node.type === "MemberExpression" || isChain(node);

function needsGuard(node, guard) {
  if (guard === "callee") return isAccess(node) || (isName(node) && node.name === "eval");
  if (guard === "delete") return isAccess(node);
  return guard === "typeof" && isUnresolved(node);
}

// What is written for a replacement: `0, r` where the seat would take it for an access or a name.
function guarded(replacement, node, seat) {
  if (!needsGuard(replacement, seat.guard) || needsGuard(node, seat.guard)) return replacement;
  return { type: "SequenceExpression", expressions: [{ type: "Literal", value: 0 }, replacement] };
}

// ---- all parts of a program

const isUnvisited = (node) => isUnary(node, "-") && weightIsLiteral(node);
const weightIsLiteral = (node) => node.argument.type === "Literal" && node.argument.value > 0;

// The parts of a node, each with its field, its place in a list, and its pointer.
function* parts(node, pointer) {
  if (isUnvisited(node)) return;
  for (const field of FIELDS[node.type] ?? []) {
    const value = node[field];
    if (isNode(value)) yield [value, field, undefined, `${pointer}/${field}`];
    if (!Array.isArray(value)) continue;
    for (let at = 0; at < value.length; at++) {
      if (isNode(value[at])) yield [value[at], field, at, `${pointer}/${field}/${at}`];
    }
  }
}

// Calls a function with each node below one, its place, its parent and its pointer.
function eachPart(node, place, up, look) {
  look(node, place, up);
  for (const [part, field, index, pointer] of parts(node, up.pointer)) {
    const seat = seatOf(node, field, index, place);
    eachPart(part, seat, { parent: node, field, index, pointer, up }, look);
  }
}

module.exports = { TEST, eachPart, guarded, needsGuard, seatOf, weightOf, weightOfList };
