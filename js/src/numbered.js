"use strict";
const { children, isNode } = require("./estree.js");

/**
 * The program numbers the nodes that have code of their own: itself, functions, what is evaluated
 * as one (classes, patterns, tagged templates, regular expressions, `super`, private names,
 * `import()` and meta properties), and the expressions inside the latter. The `kept` of an answer
 * tells, for each number of the answer, the number of the same node in the input.
 */

/** An expression inside a node that is evaluated as one: a body, with a number of its own. */
const inner = (node) => ({ type: "Inner", node });
const innerIf = (condition, node) => (condition ? inner(node) : node);

const isMember = (node) => node.type === "MemberExpression";
const isPrivate = (node) => node?.type === "PrivateIdentifier";
const isSuper = (node) => node?.type === "Super";

/** What a pattern binds or assigns to: a member is evaluated on its own. */
function target(node) {
  if (node === null) return null;
  if (node.type === "AssignmentPattern") return { type: "Default", node };
  return innerIf(isMember(node), node);
}

/** A parameter: one with a default is numbered, where it is in no pattern. */
const parameter = (node) => (node.type === "AssignmentPattern" ? node : target(node));

const keyAndValue = (node, value) => [innerIf(node.computed, node.key), value];

/** The arguments of `super(..)`. */
const superArgument = (node) => inner(node.type === "SpreadElement" ? node.argument : node);

const functionParts = (node) => [node.id, ...node.params.map(parameter), node.body];
const classParts = (node) => [node.id, node.superClass && inner(node.superClass), node.body];

/** The parts of a property of a pattern; those of object literals stand in no pattern. */
const patternProperty = (node) =>
  node.type === "RestElement" ? target(node.argument) : { type: "PatternProperty", node };

const isAlways = () => true;
const isNever = () => false;
const isPrivateMember = (node) => isPrivate(node.property) || isSuper(node.object);

const memberParts = (node) => [
  innerIf(isPrivate(node.property), node.object),
  innerIf(isSuper(node.object) && node.computed, node.property),
];

const callParts = (node) => [
  node.callee,
  ...(isSuper(node.callee) ? node.arguments.map(superArgument) : node.arguments),
];

/** The pieces of a tagged template; the expressions between them are evaluated with the tag. */
const pieces = (quasi) =>
  children(quasi).map((part) => innerIf(part.type !== "TemplateElement", part));

const entry = (isNumbered, parts) => ({ isNumbered, parts });
const FUNCTION = entry(isAlways, functionParts);
const CLASS = entry(isAlways, classParts);

// Which nodes have a number, and the parts of those whose parts aren't just the nodes below.
const RULES = {
  Program: entry(isAlways, (node) => node.body),
  FunctionDeclaration: FUNCTION,
  FunctionExpression: FUNCTION,
  ArrowFunctionExpression: FUNCTION,
  StaticBlock: entry(isAlways, (node) => node.body),
  ClassDeclaration: CLASS,
  ClassExpression: CLASS,
  MethodDefinition: entry(isNever, (node) => keyAndValue(node, node.value)),
  PropertyDefinition: entry(isNever, (node) => keyAndValue(node, node.value && inner(node.value))),
  ObjectPattern: entry(isAlways, (node) => node.properties.map(patternProperty)),
  ArrayPattern: entry(isAlways, (node) => node.elements.map(target)),
  RestElement: entry(isNever, (node) => [target(node.argument)]),
  // A parameter with a default; other defaults come as `Default`.
  AssignmentPattern: entry(isAlways, (node) => [target(node.left), inner(node.right)]),
  Literal: entry((node) => node.regex != null, () => []),
  MemberExpression: entry(isPrivateMember, memberParts),
  CallExpression: entry((node) => isSuper(node.callee), callParts),
  BinaryExpression: entry(
    (node) => isPrivate(node.left),
    (node) => [node.left, innerIf(isPrivate(node.left), node.right)],
  ),
  TaggedTemplateExpression: entry(isAlways, (node) => [inner(node.tag), ...pieces(node.quasi)]),
  MetaProperty: entry(isAlways, () => []),
  ImportExpression: entry(isAlways, (node) => [inner(node.source)]),
  Inner: entry(isAlways, ({ node }) => [node]),
  Default: entry(isNever, ({ node }) => [target(node.left), inner(node.right)]),
  PatternProperty: entry(isNever, ({ node }) => keyAndValue(node, target(node.value))),
};

const plain = entry(isNever, children);

/**
 * The numbered nodes of a program, in the order of their numbers. For an expression inside a node
 * that is evaluated as one it is `{ type: "Inner", node }`.
 * @param {object} program a Program of ESTree
 * @param {(node: object, number: number) => void} [enter] called with each node, and the number of
 *   the innermost numbered node that it is, or is in
 * @returns {object[]}
 */
function numbered(program, enter = () => {}) {
  const found = [];
  const look = (node, around) => {
    if (!isNode(node)) return;
    const { isNumbered, parts } = RULES[node.type] ?? plain;
    const number = isNumbered(node) ? found.push(node) - 1 : around;
    enter(node, number);
    for (const part of parts(node)) look(part, number);
  };
  look(program, 0);
  return found;
}

module.exports = { numbered };
