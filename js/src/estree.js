"use strict";
/**
 * The node types of ESTree, ES2022: one table that the JSON, the guard and every walk read.
 *
 * A line names a type, its plain fields (texts and flags) and its child fields, these in the order
 * in which they stand in the source text.
 */

const type = (plain, children) => ({ plain, children });

const FUNCTION = type(["generator", "async"], ["id", "params", "body"]);
const CLASS = type([], ["id", "superClass", "body"]);

const NODES = {
  Program: type(["sourceType"], ["body"]),

  ExpressionStatement: type(["directive"], ["expression"]),
  EmptyStatement: type([], []),
  DebuggerStatement: type([], []),
  BlockStatement: type([], ["body"]),
  LabeledStatement: type([], ["label", "body"]),
  BreakStatement: type([], ["label"]),
  ContinueStatement: type([], ["label"]),
  ReturnStatement: type([], ["argument"]),
  ThrowStatement: type([], ["argument"]),
  IfStatement: type([], ["test", "consequent", "alternate"]),
  SwitchStatement: type([], ["discriminant", "cases"]),
  SwitchCase: type([], ["test", "consequent"]),
  TryStatement: type([], ["block", "handler", "finalizer"]),
  CatchClause: type([], ["param", "body"]),
  WhileStatement: type([], ["test", "body"]),
  DoWhileStatement: type([], ["body", "test"]),
  ForStatement: type([], ["init", "test", "update", "body"]),
  ForInStatement: type([], ["left", "right", "body"]),
  ForOfStatement: type(["await"], ["left", "right", "body"]),
  WithStatement: type([], ["object", "body"]),

  VariableDeclaration: type(["kind"], ["declarations"]),
  VariableDeclarator: type([], ["id", "init"]),
  FunctionDeclaration: FUNCTION,
  FunctionExpression: FUNCTION,
  ArrowFunctionExpression: type(["async", "expression"], ["params", "body"]),
  ClassDeclaration: CLASS,
  ClassExpression: CLASS,
  ClassBody: type([], ["body"]),
  MethodDefinition: type(["kind", "computed", "static"], ["key", "value"]),
  PropertyDefinition: type(["computed", "static"], ["key", "value"]),
  StaticBlock: type([], ["body"]),

  ImportDeclaration: type([], ["specifiers", "source", "attributes"]),
  ImportSpecifier: type([], ["imported", "local"]),
  ImportDefaultSpecifier: type([], ["local"]),
  ImportNamespaceSpecifier: type([], ["local"]),
  ImportAttribute: type([], ["key", "value"]),
  ExportNamedDeclaration: type([], ["declaration", "specifiers", "source", "attributes"]),
  ExportSpecifier: type([], ["local", "exported"]),
  ExportDefaultDeclaration: type([], ["declaration"]),
  ExportAllDeclaration: type([], ["exported", "source", "attributes"]),

  Identifier: type(["name"], []),
  PrivateIdentifier: type(["name"], []),
  Literal: type(["value", "regex", "bigint"], []),
  ThisExpression: type([], []),
  Super: type([], []),
  ArrayExpression: type([], ["elements"]),
  ObjectExpression: type([], ["properties"]),
  Property: type(["kind", "method", "shorthand", "computed"], ["key", "value"]),
  SpreadElement: type([], ["argument"]),
  UnaryExpression: type(["operator", "prefix"], ["argument"]),
  UpdateExpression: type(["operator", "prefix"], ["argument"]),
  BinaryExpression: type(["operator"], ["left", "right"]),
  LogicalExpression: type(["operator"], ["left", "right"]),
  AssignmentExpression: type(["operator"], ["left", "right"]),
  ConditionalExpression: type([], ["test", "consequent", "alternate"]),
  SequenceExpression: type([], ["expressions"]),
  CallExpression: type(["optional"], ["callee", "arguments"]),
  NewExpression: type([], ["callee", "arguments"]),
  MemberExpression: type(["computed", "optional"], ["object", "property"]),
  ChainExpression: type([], ["expression"]),
  YieldExpression: type(["delegate"], ["argument"]),
  AwaitExpression: type([], ["argument"]),
  TemplateLiteral: type([], ["quasis", "expressions"]),
  TemplateElement: type(["tail", "value"], []),
  TaggedTemplateExpression: type([], ["tag", "quasi"]),
  MetaProperty: type([], ["meta", "property"]),
  ImportExpression: type([], ["source", "options"]),
  ObjectPattern: type([], ["properties"]),
  ArrayPattern: type([], ["elements"]),
  RestElement: type([], ["argument"]),
  AssignmentPattern: type([], ["left", "right"]),
};

const isNode = (value) =>
  value !== null && typeof value === "object" && typeof value.type === "string";

/** Nodes that print as one token and hold none that does: what source maps are made of. */
const LEAVES = new Set([
  "Identifier",
  "PrivateIdentifier",
  "Literal",
  "TemplateElement",
  "ThisExpression",
  "Super",
  "MetaProperty",
]);

/** The strings of a template, and the expressions between them. */
function templateParts(node) {
  const parts = [];
  node.quasis.forEach((quasi, at) => {
    parts.push(quasi);
    if (at < node.expressions.length) parts.push(node.expressions[at]);
  });
  return parts;
}

/**
 * The nodes right below a node, in the order of the source text.
 * @param {object} node a node of ESTree
 * @returns {object[]}
 */
function children(node) {
  if (node.type === "TemplateLiteral") return templateParts(node);
  const found = [];
  for (const field of NODES[node.type]?.children ?? []) {
    const value = node[field];
    if (Array.isArray(value)) found.push(...value.filter(isNode));
    else if (isNode(value)) found.push(value);
  }
  return found;
}

/**
 * Calls a function with each node of a tree, in the order of the source text.
 * @param {object} node the root
 * @param {(node: object) => void} enter
 */
function walk(node, enter) {
  enter(node);
  for (const child of children(node)) walk(child, enter);
}

/** What of a node is printed: a name that stands for two nodes is printed once. */
function printedChildren(node) {
  if (node.type === "Property" && node.shorthand) return [node.value];
  if (/^(Import|Export)Specifier$/.test(node.type)) {
    const [first, second] = children(node);
    return isSameName(first, second) ? [first] : [first, second];
  }
  return children(node);
}

/** Whether `a as a` can be written `a`. */
function isSameName(one, other) {
  if (one.type !== other.type) return false;
  return one.type === "Identifier" ? one.name === other.name : one.value === other.value;
}

/**
 * The leaves of a tree in the order in which the printer writes them. A directive is none.
 * @param {object} program a node of ESTree
 * @returns {object[]}
 */
function leaves(program) {
  const found = [];
  const look = (node) => {
    if (LEAVES.has(node.type)) found.push(node);
    else if (typeof node.directive !== "string") printedChildren(node).forEach(look);
  };
  look(program);
  return found;
}

module.exports = { NODES, LEAVES, children, isNode, isSameName, leaves, walk };
