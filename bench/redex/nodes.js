// Nodes of ESTree as the rows write them, and tests of their shape. A node that a row makes shares
// the parts that it takes over with the tree in which they stood.
"use strict";
const { FIELDS, FUNCTIONS, isOf } = require("../estree.js");

const isNode = (value) =>
  value !== null && typeof value === "object" && typeof value.type === "string";

// ---- nodes

const literal = (value) => ({ type: "Literal", value });
const unary = (operator, argument) =>
  ({ type: "UnaryExpression", operator, prefix: true, argument });
const number = (n) => (n < 0 ? unary("-", literal(-n)) : literal(n));
const not = (argument) => unary("!", argument);
const voidZero = () => unary("void", literal(0));
const boolean = (value) => not(literal(value ? 0 : 1));
const binary = (operator, left, right) => ({ type: "BinaryExpression", operator, left, right });
const logical = (operator, left, right) => ({ type: "LogicalExpression", operator, left, right });
const assignment = (operator, left, right) => ({
  type: "AssignmentExpression", operator, left, right,
});
const conditional = (test, consequent, alternate) => ({
  type: "ConditionalExpression", test, consequent, alternate,
});
const statement = (expression) => ({ type: "ExpressionStatement", expression });
const block = (body) => ({ type: "BlockStatement", body });
const ifStatement = (test, consequent, alternate = null) => ({
  type: "IfStatement", test, consequent, alternate,
});

// The parts of a sequence, nested ones too; of another expression itself.
const partsOf = (node) =>
  node.type === "SequenceExpression" ? node.expressions.flatMap(partsOf) : [node];

// The expressions one after the other.
function sequence(...expressions) {
  const parts = expressions.flatMap(partsOf);
  return parts.length === 1 ? parts[0] : { type: "SequenceExpression", expressions: parts };
}

// An expression and then another one, each as it is.
const follow = (first, second) => ({ type: "SequenceExpression", expressions: [first, second] });

// One statement for a list of them: itself where it is one, else a block.
const oneOf = (list) => (list.length === 1 ? list[0] : block(list));

// ---- shapes

const isUnary = (node, operator) => node.type === "UnaryExpression" && node.operator === operator;
const isLiteral = (node, value) =>
  node.type === "Literal" && !node.regex && !node.bigint && node.value === value;
const isText = (node) => node.type === "Literal" && typeof node.value === "string";
const isNull = (node) => isLiteral(node, null);
const isVoidZero = (node) => isUnary(node, "void") && isLiteral(node.argument, 0);
const isPositive = (node) =>
  node.type === "Literal" && typeof node.value === "number" && node.value > 0;
const isNegative = (node) => isUnary(node, "-") && isPositive(node.argument);
const isName = (node) => node.type === "Identifier";
const isResolved = (node) => isName(node) && Boolean(node.symbol);
const isUnresolved = (node, name) =>
  isName(node) && !node.symbol && (name === undefined || node.name === name);
const isUndefined = (node) => isVoidZero(node) || isUnresolved(node, "undefined");
const isEquality = (node) => node.type === "BinaryExpression" && /^[!=]==?$/.test(node.operator);
const isBinary = (node, operators) =>
  node.type === "BinaryExpression" && [operators].flat().includes(node.operator);
const isLogical = (node, operator) =>
  node.type === "LogicalExpression" && (operator === undefined || node.operator === operator);
const isPrivate = (node) => node.type === "PrivateIdentifier";
const isSuper = (node) => node.type === "Super";
const isChain = (node) => node.type === "ChainExpression";
const isLink = (node) => node.type === "MemberExpression" || node.type === "CallExpression";
const isPlainAssignment = (node) => node.type === "AssignmentExpression" && node.operator === "=";
const isExpressionStatement = (node) =>
  node.type === "ExpressionStatement" && typeof node.directive !== "string";
const isEmpty = (node) =>
  node.type === "EmptyStatement" || (node.type === "BlockStatement" && node.body.length === 0);
const isIfElse = (node) => node.type === "IfStatement" && Boolean(node.alternate);
const isFunction = (node) => isOf(FUNCTIONS, node);
const isClass = (node) => /^Class(Declaration|Expression)$/.test(node.type);
const isLoop = (node) => /^(While|DoWhile|For|ForIn|ForOf)Statement$/.test(node.type);

// A member that stands for itself: neither private nor of `super`.
const isMember = (node) =>
  node.type === "MemberExpression" && !isPrivate(node.property) && !isSuper(node.object);

// The key of a member where it is told: its name, or the value of a literal.
function keyOf(node) {
  if (!node.computed) return node.property.name;
  return isText(node.property) ? node.property.value : null;
}

const OPPOSITE = { "==": "!=", "!=": "==", "===": "!==", "!==": "===" };
const ARITHMETIC = ["+", "-", "*", "/", "%", "**"];
const BITS = ["&", "|", "^"];
const SHIFTS = ["<<", ">>", ">>>"];

// A class, a pattern, a tagged template, a RegExp, or one of the other forms into which no shape
// reaches.
function isCarried(node) {
  if (isClass(node) || /^(Object|Array|Assignment)Pattern$/.test(node.type)) return true;
  if (["TaggedTemplateExpression", "ImportExpression", "MetaProperty"].includes(node.type)) {
    return true;
  }
  if (node.type === "CallExpression") return isSuper(node.callee);
  if (node.type === "MemberExpression") return !isMember(node);
  if (node.type === "BinaryExpression") return isPrivate(node.left);
  return node.type === "Literal" && Boolean(node.regex);
}

// Whether two values of fields are equal, names by the variable that they mean. Functions and
// carried nodes equal nothing.
function isSame(first, second) {
  if (Array.isArray(first)) {
    return Array.isArray(second) && first.length === second.length
      && first.every((part, at) => isSame(part, second[at]));
  }
  if (!isNode(first)) return (first ?? null) === (second ?? null);
  if (!isNode(second) || first.type !== second.type) return false;
  if (isFunction(first) || isCarried(first) || isCarried(second)) return false;
  if (isName(first)) return first.name === second.name && first.symbol === second.symbol;
  if (first.type === "Literal") {
    return first.value === second.value && first.bigint === second.bigint;
  }
  if (first.type === "TemplateElement") return first.value.raw === second.value.raw;
  return FIELDS[first.type].every((field) => isSame(first[field], second[field]));
}

module.exports = {
  ARITHMETIC, BITS, OPPOSITE, SHIFTS, assignment, binary, block, boolean, conditional, follow,
  ifStatement, isBinary, isCarried, isChain, isClass, isEmpty, isEquality, isExpressionStatement,
  isFunction, isIfElse, isLink, isLiteral, isLogical, isLoop, isMember, isName, isNegative, isNode,
  isNull, isPlainAssignment, isPositive, isPrivate, isResolved, isSame, isSuper, isText, isUnary,
  isUndefined, isUnresolved, isVoidZero, keyOf, literal, logical, not, number, oneOf, partsOf,
  sequence, statement, unary, voidZero,
};
