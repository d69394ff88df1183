// What is told of an expression without running it: whether it is effect-free (EF), the kind of its
// value, its constant value, its truth, and its negation.
"use strict";
const { operate, operateUnary, toText } = require("./values.js");
const {
  binary, BITS, boolean, isBinary, isCarried, isClass, isEquality, isFunction,
  isLiteral, isName, isNegative, isNode, isUnary, isUnresolved, isVoidZero, keyOf, literal, logical,
  not, number, OPPOSITE, SHIFTS, voidZero,
} = require("./nodes.js");
const { weightOf } = require("./seats.js");

const PRIMITIVE = ["Undefined", "Null", "Boolean", "Number", "String"];
const COMPARISONS = ["==", "!=", "===", "!==", "<", ">", "<=", ">=", "in", "instanceof"];

// ---- kinds

function literalKind(node) {
  if (node.regex) return "Object";
  if (node.bigint) return "BigInt";
  if (node.value === null) return "Null";
  return { boolean: "Boolean", number: "Number", string: "String" }[typeof node.value];
}

function unaryKind(node) {
  const known = {
    void: "Undefined", "!": "Boolean", delete: "Boolean", typeof: "String", "+": "Number",
  };
  return known[node.operator] ?? (isPrimitive(node.argument) ? "Number" : "Undetermined");
}

function sumKind(node) {
  const kinds = [kind(node.left), kind(node.right)];
  if (kinds.includes("String")) return "String";
  const isSum = kinds.every((each) => ["Undefined", "Null", "Boolean", "Number"].includes(each));
  return isSum ? "Number" : "Undetermined";
}

function binaryKind(node) {
  if (COMPARISONS.includes(node.operator)) return "Boolean";
  if (node.operator === "+") return sumKind(node);
  const isNumber = node.operator === ">>>" || kind(node.left) === "Number"
    || kind(node.right) === "Number";
  return isNumber ? "Number" : "Undetermined";
}

function commonKind(first, second) {
  return kind(first) === kind(second) ? kind(first) : "Undetermined";
}

const KINDS = {
  Literal: literalKind,
  Identifier: (node) => (isUnresolved(node, "undefined") ? "Undefined" : "Undetermined"),
  UnaryExpression: unaryKind,
  BinaryExpression: binaryKind,
  LogicalExpression: (node) => commonKind(node.left, node.right),
  ConditionalExpression: (node) => commonKind(node.consequent, node.alternate),
  SequenceExpression: (node) => kind(node.expressions.at(-1)),
  AssignmentExpression: (node) => (node.operator === "=" ? kind(node.right) : "Undetermined"),
  TemplateLiteral: () => "String",
};
const OBJECTS = ["ArrayExpression", "ObjectExpression", "NewExpression"];

// The kind of an expression's value.
function kind(node) {
  if (OBJECTS.includes(node.type) || isFunction(node) || isClass(node)) return "Object";
  return KINDS[node.type]?.(node) ?? "Undetermined";
}

const isPrimitive = (node) => PRIMITIVE.includes(kind(node));

// ---- effect-free

const isFreePrimitive = (node) => isFree(node) && isPrimitive(node);

function isFreeUnary(node) {
  if (node.operator === "typeof" && isName(node.argument)) return true;
  if (["!", "void", "typeof"].includes(node.operator)) return isFree(node.argument);
  return node.operator !== "delete" && isFreePrimitive(node.argument);
}

function isFreeLoose(node) {
  const sides = [node.left, node.right];
  const isNullish = sides.some((side) => ["Null", "Undefined"].includes(kind(side)));
  return sides.every(isFree) && (isNullish || sides.every(isPrimitive));
}

function isFreeBinary(node) {
  if (["in", "instanceof"].includes(node.operator) || isCarried(node)) return false;
  if (/^[!=]==$/.test(node.operator)) return isFree(node.left) && isFree(node.right);
  if (/^[!=]=$/.test(node.operator)) return isFreeLoose(node);
  return isFreePrimitive(node.left) && isFreePrimitive(node.right);
}

const ABSENT = ["undefined", "NaN", "Infinity"];
const FREE = {
  Literal: (node) => !node.regex,
  Identifier: (node) => Boolean(node.symbol) || ABSENT.includes(node.name),
  ThisExpression: (node) => !node.isDerived,
  UnaryExpression: isFreeUnary,
  BinaryExpression: isFreeBinary,
  LogicalExpression: (node) => isFree(node.left) && isFree(node.right),
  ConditionalExpression: (node) => [node.test, node.consequent, node.alternate].every(isFree),
  SequenceExpression: (node) => node.expressions.every(isFree),
  TemplateLiteral: (node) => node.expressions.every(isFreePrimitive),
};

// Whether an expression has no effect.
function isFree(node) {
  return FREE[node.type]?.(node) ?? false;
}

// ---- constants: `{ value }` or null

// What a function gives of the values of constants, or null where one isn't constant.
function over(nodes, give) {
  const values = nodes.map(constant);
  return values.every(Boolean) ? give(...values.map((each) => each.value)) : null;
}

function unaryConstant(node) {
  if (node.operator === "void") return { value: undefined };
  return over([node.argument], (value) => operateUnary(node.operator, value));
}

function logicalConstant(node) {
  const isRight = { "&&": (a) => Boolean(a), "||": (a) => !a, "??": (a) => a === undefined
    || a === null };
  return over([node.left, node.right], (a, b) => ({ value: isRight[node.operator](a) ? b : a }));
}

function lengthConstant(node) {
  if (node.optional || isCarried(node) || keyOf(node) !== "length") return null;
  return over(
    [node.object], (value) => (typeof value === "string" ? { value: value.length } : null),
  );
}

function templateConstant(node) {
  const texts = node.quasis.map((part) => part.value.cooked);
  if (texts.includes(null)) return null;
  return over(node.expressions, (...values) => ({
    value: texts.map((text, at) => text + (at < values.length ? toText(values[at]) : "")).join(""),
  }));
}

const CONSTANTS = {
  Literal: (node) => (node.regex || node.bigint ? null : { value: node.value }),
  Identifier: (node) => (isUnresolved(node, "undefined") ? { value: undefined } : null),
  UnaryExpression: unaryConstant,
  BinaryExpression: (node) =>
    isCarried(node) ? null : over([node.left, node.right], (a, b) => operate(node.operator, a, b)),
  LogicalExpression: logicalConstant,
  ConditionalExpression: (node) =>
    over([node.test, node.consequent, node.alternate], (a, b, c) => ({ value: a ? b : c })),
  SequenceExpression: (node) => constant(node.expressions.at(-1)),
  MemberExpression: lengthConstant,
  TemplateLiteral: templateConstant,
};

// The constant value of an expression, effects aside.
function constant(node) {
  return CONSTANTS[node.type]?.(node) ?? null;
}

// The value of an effect-free constant.
const freeConstant = (node) => (isFree(node) ? constant(node) : null);

// Whether an effect-free constant is of a type.
const isFreeOf = (node, type) => typeof (freeConstant(node) ?? { value: null }).value === type;

// What writes a value.
function lit(value) {
  if (value === undefined) return voidZero();
  if (typeof value === "boolean") return boolean(value);
  return typeof value === "number" ? number(value) : literal(value);
}

// True or false where the truth of an expression is known, else undefined.
function truth(node) {
  const found = constant(node);
  if (found) return Boolean(found.value);
  return kind(node) === "Object" ? true : undefined;
}

// ---- other terms

const isBits = (node) => isBinary(node, [...BITS, ...SHIFTS]);

// A whole number of 32 bits, signed or not.
function isInt32(node) {
  if (isUnary(node, "~")) return kind(node.argument) === "Number";
  if (isBits(node)) return binaryKind(node) === "Number" && hasNumber(node);
  const value = node.type === "Literal" || isNegative(node) ? constant(node)?.value : null;
  return typeof value === "number" && value >= -(2 ** 31) && value < 2 ** 32;
}

const hasNumber = (node) => kind(node.left) === "Number" || kind(node.right) === "Number";

// A constant as it is written: a literal, a negative literal, a template without expressions, or
// `void 0`.
function isPlain(node) {
  if (node.type === "Literal") return !node.regex;
  if (node.type === "TemplateLiteral") return node.expressions.length === 0;
  return isNegative(node) || isVoidZero(node);
}

// Whether an expression mentions a variable.
function namesVariable(node) {
  if (!isNode(node)) return Array.isArray(node) && node.some(namesVariable);
  if (isName(node)) return node.symbol !== undefined && !isAbsent(node);
  return Object.entries(node).some(([field, part]) => field !== "inBody" && namesVariable(part));
}

const isAbsent = (node) => !node.symbol && ABSENT.includes(node.name);

// ---- negation

const isTypeofU = (node) =>
  isBinary(node, ["<", ">"]) && isUnary(node.left, "typeof") && isLiteral(node.right, "u");

// The negation of an expression; `isTest` tells that only the truth counts where it stands.
function negation(node, isTest) {
  if (isEquality(node)) return binary(OPPOSITE[node.operator], node.left, node.right);
  if (isTypeofU(node)) return binary(node.operator === "<" ? ">" : "<", node.left, node.right);
  if (isUnary(node, "!")) {
    return isTest || kind(node.argument) === "Boolean" ? node.argument : not(node);
  }
  if (node.type === "Literal" && typeof node.value === "boolean") return literal(!node.value);
  if (node.type === "SequenceExpression") return negatedSequence(node, isTest);
  if (node.type === "LogicalExpression" && node.operator !== "??") {
    const turned = node.operator === "&&" ? "||" : "&&";
    return logical(turned, negation(node.left, isTest), negation(node.right, isTest));
  }
  return not(node);
}

function negatedSequence(node, isTest) {
  const last = negation(node.expressions.at(-1), isTest);
  return { type: "SequenceExpression", expressions: [...node.expressions.slice(0, -1), last] };
}

// The lighter of the negation and `!`, as they weigh in the seat where they are written.
function lighterNot(node, seat) {
  const [turned, plain] = [negation(node, Boolean(seat.boolean)), not(node)];
  return weightOf(plain, seat) < weightOf(turned, seat) ? plain : turned;
}

module.exports = {
  constant, freeConstant, isFree, isFreeOf, isInt32, isPlain, isPrimitive, kind,
  lighterNot, lit, namesVariable, negation, truth,
};
