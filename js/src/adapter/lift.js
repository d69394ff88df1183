"use strict";
const { NODES, isNode } = require("../estree.js");
const { call, identifier, isBroken, unread } = require("./marks.js");

// The way in: from a parser's tree to one that the program reads. No node of the parser's tree is
// changed; what stands for one has its place.

const LIMIT = 1n << 128n; // BigInts are read below it

/** A node with its children lifted: the very same one where none changed. */
function lifted(node, lift) {
  let copy = null;
  const put = (field, value) => {
    if (value === node[field]) return;
    copy ??= { ...node };
    copy[field] = value;
  };
  for (const field of NODES[node.type]?.children ?? []) {
    const value = node[field];
    if (Array.isArray(value)) put(field, liftedList(value, lift));
    else if (isNode(value)) put(field, lift(value));
  }
  return copy ?? node;
}

function liftedList(nodes, lift) {
  const list = nodes.map((node) => (isNode(node) ? lift(node) : node));
  return list.some((node, at) => node !== nodes[at]) ? list : nodes;
}

// ---- literals

const digitsOf = (node) => BigInt(node.bigint.replaceAll("_", "")).toString();
const isUnsafe = (value) => typeof value === "number" && !Number.isSafeInteger(value);
const isBrokenText = (value) => typeof value === "string" && isBroken(value);

function liftBigInt(node, marks) {
  const digits = digitsOf(node);
  if (BigInt(digits) < LIMIT) return { ...node, bigint: digits };
  const literal = { type: "Literal", value: null, bigint: digits };
  return identifier(marks.nameOf("b", digits, literal), node);
}

function liftLiteral(node, { marks }) {
  if (node.regex && isBroken(node.regex.pattern)) {
    throw unread("half of a surrogate pair in a regular expression isn't read", node);
  }
  if (node.bigint != null) return liftBigInt(node, marks);
  const { value } = node;
  const literal = { type: "Literal", value };
  if (isUnsafe(value)) return identifier(marks.nameOf("n", value, literal), node);
  if (isBrokenText(value)) return identifier(marks.nameOf("s", value, literal), node);
  return node;
}

/** A key without brackets. `mayCompute`: it may get them, as in object literals and classes. */
function liftKey(owner, mayCompute, { marks }) {
  const { key } = owner;
  const text = (value) => ({ ...owner, key: { ...key, value, bigint: undefined } });
  if (key.type !== "Literal") return owner;
  if (key.bigint != null) return text(digitsOf(key));
  if (isUnsafe(key.value)) return text(String(key.value));
  if (!isBrokenText(key.value)) return owner;
  if (!mayCompute) throw unread("half of a surrogate pair in a pattern's key isn't read", key);
  const name = marks.nameOf("s", key.value, { type: "Literal", value: key.value });
  return { ...owner, computed: true, key: identifier(name, key) };
}

const liftOwner = (mayCompute) => (node, context) => {
  const owner = node.computed ? node : liftKey(node, mayCompute, context);
  const isPlainKey = (child) => child === owner.key && !node.computed;
  return lifted(owner, (child) => (isPlainKey(child) ? child : lift(child, context)));
};

function liftObjectPattern(node, context) {
  const property = liftOwner(false);
  return lifted(node, (child) =>
    child.type === "Property" ? property(child, context) : lift(child, context),
  );
}

// ---- names

/** Words that a script may have for names, and the printer has not. */
const isReserved = (name) => /^(?:await|let|yield)$/.test(name);

function liftIdentifier(node, { isScript }) {
  if (isScript && isReserved(node.name)) throw unread(`the name ${node.name} isn't printed`, node);
  return node;
}

/** A property without brackets may have any name. */
const liftMember = (node, context) =>
  lifted(node, (child) =>
    child === node.property && !node.computed ? child : lift(child, context),
  );

// ---- texts

/** A piece of a template with half of a pair becomes an expression between two empty pieces. */
function liftTemplate(node, context) {
  const isWhole = ({ value }) => !isBrokenText(value.cooked) && !isBroken(value.raw);
  if (node.quasis.every(isWhole)) return lifted(node, (child) => lift(child, context));
  const quasis = [];
  const expressions = [];
  const empty = (quasi) => ({ ...quasi, tail: false, value: { raw: "", cooked: "" } });
  node.quasis.forEach((quasi, at) => {
    if (isWhole(quasi)) quasis.push({ ...quasi, tail: false });
    else {
      const literal = { type: "Literal", value: quasi.value.cooked };
      quasis.push(empty(quasi), empty(quasi));
      expressions.push(identifier(context.marks.nameOf("s", quasi.value.cooked, literal), quasi));
    }
    if (at < node.expressions.length) expressions.push(lift(node.expressions[at], context));
  });
  quasis.at(-1).tail = true;
  return { ...node, quasis, expressions };
}

function liftTagged(node, context) {
  const isBrokenPiece = ({ value }) => isBroken(value.raw) || isBrokenText(value.cooked);
  const piece = node.quasi.quasis.find(isBrokenPiece);
  if (piece) throw unread("half of a surrogate pair in a tagged template isn't read", piece);
  return lifted(node, (child) => lift(child, context));
}

/** What a directive says is its text in the source. */
function liftExpressionStatement(node, context) {
  if (typeof node.directive !== "string") return lifted(node, (child) => lift(child, context));
  if (isBroken(node.directive)) {
    throw unread("half of a surrogate pair in a directive isn't read", node);
  }
  return { ...node, expression: { ...node.expression, value: node.directive } };
}

function liftSource(node, context) {
  const { source } = node;
  if (source && isBroken(source.value)) {
    throw unread("half of a surrogate pair in the name of a module isn't read", source);
  }
  return lifted(node, (child) => (child === source ? child : lift(child, context)));
}

/** `delete` of a literal gives true, whichever it is; `delete` of a name does something else. */
function liftUnary(node, context) {
  const result = lifted(node, (child) => lift(child, context));
  const isNamed = node.argument.type === "Literal" && result.argument.type === "Identifier";
  if (node.operator !== "delete" || !isNamed) return result;
  return { ...node, argument: { ...node.argument, value: 0, bigint: undefined } };
}

// ---- what waits

const noFrame = (context) => ({ ...context, frame: null });

function liftAwait(node, context) {
  context.frame.waits += 1;
  return call(context.frame.wait, lift(node.argument, context), node);
}

function liftForOf(node, context) {
  const loop = lifted(node, (child) => lift(child, context));
  if (!node.await) return loop;
  context.frame.waits += 1;
  return { ...loop, await: false, right: call(context.frame.iterate, loop.right, node.right) };
}

/** In an async generator `return e` awaits e. */
function liftReturn(node, context) {
  const result = lifted(node, (child) => lift(child, context));
  if (!context.frame?.isGenerator || !result.argument) return result;
  return { ...result, argument: call(context.frame.give, result.argument, node.argument) };
}

const directive = (text, { start, end, loc }) => ({
  type: "ExpressionStatement",
  start,
  end,
  loc,
  directive: text,
  expression: { type: "Literal", start, end, loc, value: text },
});

/** The body of an async function with its mark. */
function markedBody(body, frame) {
  const mark = directive(frame.directive, body);
  if (body.type === "BlockStatement") return { ...body, body: [mark, ...body.body] };
  const { start, end, loc } = body;
  const result = { type: "ReturnStatement", start, end, loc, argument: body };
  return { type: "BlockStatement", start, end, loc, body: [mark, result] };
}

function liftFunction(node, context) {
  if (!node.async) return lifted(node, (child) => lift(child, noFrame(context)));
  const frame = context.marks.newFrame(node);
  const within = { ...context, frame };
  const plain = lifted(node, (child) => lift(child, within));
  const result = { ...plain, async: false, body: markedBody(plain.body, frame) };
  if (node.type === "ArrowFunctionExpression") result.expression = false;
  context.standsFor.set(result, frame);
  return result;
}

/** A field's value and a static block are code of their own, in which nothing waits. */
const liftApart = (node, context) => lifted(node, (child) => lift(child, noFrame(context)));

/** The key of a field in brackets is evaluated around the class, its value apart. */
function liftField(node, context) {
  const owner = node.computed ? node : liftKey(node, true, context);
  return lifted(owner, (child) => {
    if (child !== owner.key) return lift(child, noFrame(context));
    return node.computed ? lift(child, context) : child;
  });
}

function liftProgram(node, context) {
  const frame = context.marks.newFrame(node);
  const program = lifted(node, (child) => lift(child, { ...context, frame }));
  context.standsFor.set(program, frame);
  return program;
}

const LIFTS = {
  Program: liftProgram,
  Identifier: liftIdentifier,
  MemberExpression: liftMember,
  Literal: liftLiteral,
  Property: liftOwner(true),
  MethodDefinition: liftOwner(true),
  PropertyDefinition: liftField,
  ObjectPattern: liftObjectPattern,
  TemplateLiteral: liftTemplate,
  TaggedTemplateExpression: liftTagged,
  ExpressionStatement: liftExpressionStatement,
  ImportDeclaration: liftSource,
  ExportNamedDeclaration: liftSource,
  ExportAllDeclaration: liftSource,
  UnaryExpression: liftUnary,
  AwaitExpression: liftAwait,
  ForOfStatement: liftForOf,
  ReturnStatement: liftReturn,
  FunctionDeclaration: liftFunction,
  FunctionExpression: liftFunction,
  ArrowFunctionExpression: liftFunction,
  StaticBlock: liftApart,
};

function lift(node, context) {
  const special = LIFTS[node.type];
  return special ? special(node, context) : lifted(node, (child) => lift(child, context));
}

/**
 * A tree that the program reads in place of a parser's.
 * @param {object} ast the parser's tree, which stays as it is
 * @param {import("./marks.js").Marks} marks takes in what stands for what
 * @returns {{program: object, standsFor: Map<object, object>}} the tree, and the frames of its
 *   marked functions and of itself
 */
function liftProgramTree(ast, marks) {
  const standsFor = new Map();
  const isScript = ast.sourceType === "script";
  return { program: lift(ast, { marks, frame: null, standsFor, isScript }), standsFor };
}

module.exports = { lift: liftProgramTree };
