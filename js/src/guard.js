"use strict";
const { NODES, isNode } = require("./estree.js");

/**
 * Compares the tree that was to be printed with the one that the parser gives for the text. Both
 * say the same program where they differ only in what has no meaning: positions, `raw`, the cooked
 * text of templates (which follows from the raw one), empty statements of a list, braces that part
 * an `if` from an `else` behind it, and a negative number that is written as a minus and a number.
 */

class Difference {
  constructor(one, other) {
    this.steps = [];
    this.one = one;
    this.other = other;
  }
}

const isAbsent = (value) => value === undefined || value === null || value === false;

/** Compares two plain values. */
function ofValues(one, other) {
  const isSame = Object.is(one, other) || (isAbsent(one) && isAbsent(other));
  return isSame ? null : new Difference(one, other);
}

/** Adds a step to where a difference is. */
function under(step, difference) {
  difference?.steps.push(step);
  return difference;
}

// ---- literals

/** What a literal stands for: a kind and a text or value. */
function meaningOf(node) {
  if (node.regex) return ["regex", `/${node.regex.pattern}/${node.regex.flags}`];
  if (node.bigint != null) return ["bigint", BigInt(node.bigint)];
  return ["value", node.value];
}

function ofLiterals(one, other) {
  const [kind, value] = meaningOf(one);
  const [otherKind, otherValue] = meaningOf(other);
  return kind === otherKind && Object.is(value, otherValue) ? null : new Difference(one, other);
}

// ---- forms that are the same

const isNumber = (node) => node.type === "Literal" && typeof node.value === "number" && !node.regex;

/** A negative number as a parser gives it. */
function negation(node) {
  const argument = { type: "Literal", value: -node.value };
  return { type: "UnaryExpression", operator: "-", prefix: true, argument };
}

const isNegative = (node) => isNumber(node) && (node.value < 0 || Object.is(node.value, -0));
const inParserForm = (node) => (isNegative(node) ? negation(node) : node);
const isEmpty = (node) => isNode(node) && node.type === "EmptyStatement";
const DECLARATION = /^(Class|Function|Variable)Declaration$/;

/** The statement in a block of one, where the block says nothing. */
function withoutBraces(node) {
  if (node.type !== "BlockStatement") return node;
  const statements = node.body.filter((part) => !isEmpty(part));
  const [only] = statements;
  return statements.length === 1 && !DECLARATION.test(only.type) ? only : node;
}

// Where a statement ends in another one, which would take an `else` behind it.
const TAILS = {
  IfStatement: "alternate",
  WhileStatement: "body",
  ForStatement: "body",
  ForInStatement: "body",
  ForOfStatement: "body",
  LabeledStatement: "body",
};

/** The first branch of an `if`, without braces that part an `if` in it from the `else` behind it. */
function firstBranch(node) {
  const bare = withoutBraces(node);
  const field = TAILS[bare.type];
  const last = bare[field] ?? null;
  const inner = last && firstBranch(last);
  return inner === last ? bare : { ...bare, [field]: inner };
}

// ---- trees

function ofLists(one, other) {
  const items = one.some(isEmpty) ? one.filter((part) => !isEmpty(part)) : one;
  const others = other.some(isEmpty) ? other.filter((part) => !isEmpty(part)) : other;
  if (items.length !== others.length) return new Difference(items.length, others.length);
  for (let at = 0; at < items.length; at++) {
    const found = ofParts(items[at], others[at]);
    if (found) return under(at, found);
  }
  return null;
}

function ofParts(one, other) {
  // An empty list of attributes is as good as none.
  if (one == null || other == null) return ofValues(one ?? listless(other), other ?? listless(one));
  if (Array.isArray(one) !== Array.isArray(other)) return new Difference(one, other);
  return Array.isArray(one) ? ofLists(one, other) : difference(one, other);
}

const listless = (value) => (Array.isArray(value) && value.length === 0 ? value : null);

/** The fields in which nodes of one type differ. */
function ofFields(one, other) {
  const fields = NODES[one.type];
  if (fields === undefined) return new Difference(one, other);
  for (const field of fields.plain) {
    const found = ofValues(one[field], other[field]);
    if (found) return under(field, found);
  }
  for (const field of fields.children) {
    const found = ofParts(one[field], other[field]);
    if (found) return under(field, found);
  }
  return null;
}

function ofIfs(one, other) {
  return ofFields(
    { ...one, consequent: firstBranch(one.consequent) },
    { ...other, consequent: firstBranch(other.consequent) },
  );
}

function ofStatements(one, other) {
  const isDirective = typeof one.directive === "string" || typeof other.directive === "string";
  if (isDirective) return under("directive", ofValues(one.directive, other.directive));
  return ofFields(one, other);
}

const SPECIAL = {
  Literal: ofLiterals,
  TemplateElement: (one, other) => ofValues(one.value.raw, other.value.raw),
  IfStatement: ofIfs,
  ExpressionStatement: ofStatements,
};

/**
 * Where two trees say different programs.
 * @param {object} first a node of ESTree
 * @param {object} second another
 * @returns {{steps: Array<string | number>, one: unknown, other: unknown} | null} null where they
 *   say the same, else the steps from the difference up to the root, and what stands there
 */
function difference(first, second) {
  const one = inParserForm(first);
  const other = inParserForm(second);
  if (one.type !== other.type) return new Difference(one, other);
  return (SPECIAL[one.type] ?? ofFields)(one, other);
}

/** A difference in words: where it is. */
function placeOf({ steps }) {
  return `/${[...steps].reverse().join("/")}`;
}

module.exports = { difference, placeOf };
