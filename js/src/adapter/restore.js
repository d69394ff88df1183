"use strict";
const { NODES, isNode } = require("../estree.js");
const { numbered } = require("../numbered.js");
const { changed } = require("./marks.js");

// The way back: each mark becomes what it stands for. A mark that isn't where it must be is a
// refusal.

const isFunction = (node) =>
  /^(FunctionDeclaration|FunctionExpression|ArrowFunctionExpression)$/.test(node.type);

// The fields in which a name stands for no value.
const NAME_FIELDS = {
  AssignmentExpression: ["left"],
  AssignmentPattern: ["left"],
  UpdateExpression: ["argument"],
  ForInStatement: ["left"],
  ForOfStatement: ["left"],
  RestElement: ["argument"],
  ArrayPattern: ["elements"],
  VariableDeclarator: ["id"],
  CatchClause: ["param"],
  FunctionDeclaration: ["id", "params"],
  FunctionExpression: ["id", "params"],
  ArrowFunctionExpression: ["params"],
  ClassDeclaration: ["id"],
  ClassExpression: ["id"],
  LabeledStatement: ["label"],
  BreakStatement: ["label"],
  ContinueStatement: ["label"],
  ImportSpecifier: ["imported", "local"],
  ImportDefaultSpecifier: ["local"],
  ImportNamespaceSpecifier: ["local"],
  ExportSpecifier: ["local", "exported"],
  ExportAllDeclaration: ["exported"],
  MetaProperty: ["meta", "property"],
};

/** Whether a name in a field of a node is no expression. */
function isNameField(node, field) {
  if (field === "key") return !node.computed;
  if (field === "property" && node.type === "MemberExpression") return !node.computed;
  if (field === "argument" && node.operator === "delete") return true;
  return NAME_FIELDS[node.type]?.includes(field) ?? false;
}

/** A node with its children restored. */
function restored(node, context) {
  const copy = { ...node };
  for (const field of NODES[node.type]?.children ?? []) {
    const isName = isNameField(node, field);
    const one = (child) => (isNode(child) ? restoreAt(child, isName, context) : child);
    const value = node[field];
    copy[field] = Array.isArray(value) ? value.map(one) : one(value);
  }
  return copy;
}

function restoreAt(node, isName, context) {
  if (isName) refuseMark(node, context);
  return restore(node, context);
}

function refuseMark(node, { marks, frame }) {
  if (node.type === "Identifier" && marks.has(node.name)) {
    throw changed("what stands for a literal stands where no literal can", frame?.node);
  }
}

function restorePattern(node, context) {
  for (const { value } of node.properties) if (value) refuseMark(value, context);
  return restored(node, context);
}

// ---- names and calls

function restoreIdentifier(node, { marks, frame }) {
  if (!marks.has(node.name)) return node;
  const literal = marks.literals.get(node.name);
  if (literal === undefined) throw changed("a mark of the adapter stands alone", frame?.node);
  return { ...literal };
}

const isCallOf = (node, name) =>
  node.type === "CallExpression" && node.callee.type === "Identifier" && node.callee.name === name;

/** What a mark is called with: one value. */
function argumentOf(node, { frame }) {
  const [argument, ...more] = node.arguments;
  const isOne = argument !== undefined && more.length === 0 && argument.type !== "SpreadElement";
  if (!isOne || node.optional) {
    throw changed("a mark of the adapter is called in another way", frame?.node);
  }
  return argument;
}

function restoreCall(node, context) {
  const { frame } = context;
  if (frame === null || !isCallOf(node, frame.wait)) return restored(node, context);
  context.waits.set(frame, (context.waits.get(frame) ?? 0) + 1);
  return { type: "AwaitExpression", argument: restore(argumentOf(node, context), context) };
}

/** The last part of a sequence, or the expression itself, and how to put another in its place. */
function lastPart(node) {
  if (node.type !== "SequenceExpression") return { last: node, withLast: (last) => last };
  const before = node.expressions.slice(0, -1);
  return {
    last: node.expressions.at(-1),
    withLast: (last) => ({ ...node, expressions: [...before, last] }),
  };
}

/** A loop waits whose right side ends in the mark. */
function restoreForOf(node, context) {
  const { frame } = context;
  const { last, withLast } = lastPart(node.right);
  if (frame === null || !isCallOf(last, frame.iterate)) return restored(node, context);
  context.waits.set(frame, (context.waits.get(frame) ?? 0) + 1);
  const right = withLast(argumentOf(last, context));
  return { ...restored({ ...node, right }, context), await: true };
}

// ---- results of async generators

const isVoid = (node) => node.type === "UnaryExpression" && node.operator === "void";
const block = (...body) => ({ type: "BlockStatement", body });
const statement = (expression) => ({ type: "ExpressionStatement", expression });
const result = (argument) => ({ type: "ReturnStatement", argument });

/** What a `return` awaits where each of its results is marked, else null. */
function awaitedResult(node, context) {
  if (isCallOf(node, context.frame.give)) return argumentOf(node, context);
  if (node.type === "SequenceExpression") {
    const { last, withLast } = lastPart(node);
    const awaited = awaitedResult(last, context);
    return awaited && withLast(awaited);
  }
  if (node.type !== "ConditionalExpression") return null;
  const consequent = awaitedResult(node.consequent, context);
  const alternate = consequent && awaitedResult(node.alternate, context);
  return alternate && { ...node, consequent, alternate };
}

/** A `return` without a result, after what has to be evaluated before it. */
function noResult(argument, context) {
  if (argument.type === "Literal") return result(null);
  return block(statement(restore(argument, context)), result(null));
}

/** A `return` of which some results are awaited and others are none: `a ? void 0 : MARK(b)`. */
function spreadResult(node, context) {
  const awaited = awaitedResult(node, context);
  if (awaited) return result(restore(awaited, context));
  if (isVoid(node)) return noResult(node.argument, context);
  if (node.type === "SequenceExpression") {
    const { last } = lastPart(node);
    const before = node.expressions.slice(0, -1).map((part) => statement(restore(part, context)));
    return block(...before, spreadResult(last, context));
  }
  if (node.type === "ConditionalExpression") {
    return {
      type: "IfStatement",
      test: restore(node.test, context),
      consequent: spreadResult(node.consequent, context),
      alternate: spreadResult(node.alternate, context),
    };
  }
  throw changed("a result of an async generator has lost its mark", context.frame.node);
}

function restoreReturn(node, context) {
  if (!context.frame?.isGenerator || !node.argument) return restored(node, context);
  return spreadResult(node.argument, context);
}

// ---- functions

const isMarkIn = (marks) => (node) => marks.has(node.directive);

/** `{ return e; }` as the body of an arrow function is e. */
function arrowBody(body) {
  const [only, ...more] = body.body;
  const isResult = only?.type === "ReturnStatement" && only.argument && more.length === 0;
  return isResult ? only.argument : body;
}

function restoreFunction(node, context) {
  const frame = context.frameOf.get(node) ?? null;
  const plain = restored(withoutMark(node, frame, context), { ...context, frame });
  if (frame === null) return plain;
  plain.async = true;
  if (node.type !== "ArrowFunctionExpression") return plain;
  const body = arrowBody(plain.body);
  return { ...plain, body, expression: body !== plain.body };
}

/** A function without its mark, which has to be the one that it was given. */
function withoutMark(node, frame, { marks }) {
  const statements = node.body.type === "BlockStatement" ? node.body.body : [];
  const found = statements.filter(isMarkIn(marks)).map((mark) => mark.directive);
  const due = frame === null ? [] : [frame.directive];
  if (found.length !== due.length || found[0] !== due[0]) {
    throw changed("the mark of an async function is missing or stands at another", frame?.node);
  }
  if (frame === null) return node;
  const others = statements.filter((each) => !isMarkIn(marks)(each));
  return { ...node, body: { ...node.body, body: others } };
}

function restoreStatement(node, context) {
  if (context.marks.has(node.directive)) {
    throw changed("the mark of an async function stands outside of functions", context.frame?.node);
  }
  return restored(node, context);
}

const restoreApart = (node, context) => restored(node, { ...context, frame: null });

/** The key of a field in brackets is evaluated around the class, its value apart. */
function restoreField(node, context) {
  const key = restoreAt(node.key, isNameField(node, "key"), context);
  return { ...node, key, value: node.value && restore(node.value, { ...context, frame: null }) };
}

const RESTORES = {
  Identifier: restoreIdentifier,
  CallExpression: restoreCall,
  ForOfStatement: restoreForOf,
  ReturnStatement: restoreReturn,
  ExpressionStatement: restoreStatement,
  FunctionDeclaration: restoreFunction,
  FunctionExpression: restoreFunction,
  ArrowFunctionExpression: restoreFunction,
  StaticBlock: restoreApart,
  ObjectPattern: restorePattern,
  PropertyDefinition: restoreField,
};

function restore(node, context) {
  const special = RESTORES[node.type];
  return special ? special(node, context) : restored(node, context);
}

/**
 * The frames of the functions of an answer, by the numbers that it kept.
 * @throws {Refusal} where the numbers don't lead to functions of the same kind
 */
function framesOf(answer, { nodes, standsFor }) {
  const frames = new Map();
  const found = numbered(answer.program);
  const isDistinct = new Set(answer.kept).size === answer.kept.length;
  if (found.length !== answer.kept.length || !isDistinct) {
    throw changed("the numbers of the answer are others");
  }
  found.forEach((node, at) => {
    const origin = nodes[answer.kept[at]];
    if (origin?.type !== node.type) throw changed("the numbers of the answer are others");
    if (isFunction(node) && standsFor.has(origin)) frames.set(node, standsFor.get(origin));
  });
  return frames;
}

/**
 * The tree that an answer stands for.
 * @param {{program: object, kept: number[]}} answer
 * @param {{marks: import("./marks.js").Marks, program: object, standsFor: Map<object, object>}}
 *   adapted what the program was given
 * @throws {Refusal} with the code `Adapter` where a mark is missing, changed or at another place
 */
function restoreProgram(answer, { marks, program, standsFor }) {
  const frameOf = framesOf(answer, { nodes: numbered(program), standsFor });
  const frame = standsFor.get(program);
  const context = { marks, frame, frameOf, waits: new Map() };
  const tree = restored(answer.program, context);
  if (frame.waits > 0 && !context.waits.has(frame)) {
    throw changed("the module doesn't wait any more", frame.node);
  }
  return tree;
}

module.exports = { restore: restoreProgram };
