// Rewrites 23 to 39: negations, tests, equalities, bits, and assignments. Each is a function of a
// node and its seat that gives what would be written, or nothing.
"use strict";
const {
  ARITHMETIC, assignment, binary, BITS, isBinary, isEquality, isLiteral, isLogical, isMember,
  isName, isNegative, isNull, isPlainAssignment, isResolved, isSame, isText, isUnary, isUndefined,
  literal, logical, not, number, partsOf, sequence, SHIFTS,
} = require("./nodes.js");
const {
  constant, isFree, isFreeOf, isInt32, kind, lighterNot, negation, truth,
} = require("./terms.js");
const { seatOf } = require("./seats.js");

// 23: a negation is found inside.
function negate(node, seat) {
  return isUnary(node, "!") ? negation(node.argument, Boolean(seat.boolean)) : null;
}

// 24: in a test `!!a` is a, `!0` is 1 and `!1` is 0.
function dropDoubleNot(node, seat) {
  if (!seat.boolean || !isUnary(node, "!")) return null;
  if (isUnary(node.argument, "!")) return node.argument.argument;
  if (isLiteral(node.argument, 0)) return literal(1);
  return isLiteral(node.argument, 1) ? literal(0) : null;
}

// 25: in a test `a && k` with k true is a.
function dropKnownOperand(node, seat) {
  if (!seat.boolean || !isLogical(node) || node.operator === "??" || !isFree(node.right)) {
    return null;
  }
  return truth(node.right) === (node.operator === "&&") ? node.left : null;
}

// What `Not(a) op b` is, with a seat for the negation as the left side has it.
function notFirst(operator, test, other, seat) {
  const whole = logical(operator, test, other);
  const left = lighterNot(test, seatOf(whole, "left", undefined, seat));
  return logical(operator, left, other);
}

// 26: in a test a known branch goes.
function dropKnownBranch(node, seat) {
  if (!seat.boolean || node.type !== "ConditionalExpression") return null;
  const { test, consequent, alternate } = node;
  const known = (branch) => (isFree(branch) ? truth(branch) : undefined);
  const found = [];
  if (known(consequent) === true) found.push(logical("||", test, alternate));
  if (known(consequent) === false) found.push(notFirst("&&", test, alternate, seat));
  if (known(alternate) === true) found.push(notFirst("||", test, consequent, seat));
  if (known(alternate) === false) found.push(logical("&&", test, consequent));
  return found;
}

// 27: whole bits equal to 0 are their negation.
function negateBits(node, seat) {
  if (!isEquality(node) || !isLiteral(node.right, 0) || !isInt32(node.left)) return null;
  if (/^=/.test(node.operator)) return not(node.left);
  return seat.boolean ? node.left : not(not(node.left));
}

// 28: a strict equality of one known kind is a loose one.
function loosen(node) {
  if (!isBinary(node, ["===", "!=="]) || kind(node.left) === "Undetermined") return null;
  return kind(node.left) === kind(node.right)
    ? { ...node, operator: node.operator.slice(0, 2) }
    : null;
}

// 29: a boolean compared with a known one is itself or its negation.
function dropBoolean(node, seat) {
  const isLoose = isBinary(node, ["==", "!="]) && kind(node.left) === "Boolean";
  if (!isLoose || !isFreeOf(node.right, "boolean")) return null;
  const isKept = constant(node.right).value === (node.operator === "==");
  return isKept ? node.left : lighterNot(node.left, seat);
}

// 30: a known boolean in a loose equality is a number.
function numberBoolean(node) {
  if (!isBinary(node, ["==", "!="])) return null;
  return ["left", "right"].filter((side) => isFreeOf(node[side], "boolean"))
    .map((side) => ({ ...node, [side]: literal(Number(constant(node[side]).value)) }));
}

// 31: operators that only make a whole of 32 bits are `a | 0`.
function toBits(node) {
  const isMask = (part) => isLiteral(part, 4294967295);
  if (isBinary(node, "&") && isMask(node.right)) return binary("|", node.left, literal(0));
  if (isBinary(node, "&") && isMask(node.left)) return binary("|", node.right, literal(0));
  const isIdle = isBinary(node, ["<<", ">>", "^"]) && isLiteral(node.right, 0);
  return isIdle ? binary("|", node.left, literal(0)) : null;
}

// 32: what has 32 bits needs no `| 0`.
function dropBitsOfZero(node) {
  if (!isBinary(node, "|")) return null;
  const isWhole = (part) => isBinary(part, [...BITS, "<<", ">>"]) && isInt32(part);
  if (isLiteral(node.right, 0) && isWhole(node.left)) return node.left;
  return isLiteral(node.left, 0) && isWhole(node.right) ? node.right : null;
}

// ---- members

const isIdentifierName = (text) => /^[\p{ID_Start}$_][\p{ID_Continue}$\u200c\u200d]*$/u.test(text);

// The number whose decimal text a text is, or null.
function equivalentNumber(text) {
  const isDecimal = /^(0|-?[1-9]\d*)$/.test(text);
  return isDecimal && Number.isSafeInteger(Number(text)) ? Number(text) : null;
}

// A member with a shorter spelling of its key.
function dottedMember(node) {
  if (!isMember(node) || !node.computed || !isText(node.property)) return null;
  const { value } = node.property;
  if (isIdentifierName(value)) {
    return { ...node, computed: false, property: { type: "Identifier", name: value } };
  }
  const found = equivalentNumber(value);
  return found === null || node.optional ? null : { ...node, property: number(found) };
}

// 33: `o["x"]` becomes `o.x`.
function dotMember(node) {
  return dottedMember(node);
}

// 33: the member that is assigned to, too.
function dotTarget(node) {
  const field = { AssignmentExpression: "left", UpdateExpression: "argument" }[node.type];
  const dotted = field && dottedMember(node[field]);
  return dotted && { ...node, [field]: dotted };
}

// ---- assignments

const LOGICAL = ["&&", "||", "??"];
const COMPOUND = [...ARITHMETIC, ...BITS, ...SHIFTS];

// 34: `x = x || b` becomes `x ||= b`.
function assignLogical(node) {
  if (!isPlainAssignment(node) || !isLogical(node.right)) return null;
  const { left, right } = node;
  if (!isResolved(left) || !left.symbol.isWritable || !isSame(left, right.left)) return null;
  return assignment(`${right.operator}=`, left, right.right);
}

const isTold = (key) =>
  isText(key) || (key.type === "Literal" && typeof key.value === "number") || isNegative(key);

// A name, or a member of a name or of `this` whose key is told.
function isSimpleTarget(node) {
  if (isName(node)) return true;
  if (!isMember(node) || node.optional || (node.computed && !isTold(node.property))) return false;
  const { object } = node;
  return isResolved(object) || (object.type === "ThisExpression" && isFree(object));
}

// 35: `t = t + b` becomes `t += b`.
function assignCombined(node) {
  if (!isPlainAssignment(node) || !isBinary(node.right, COMPOUND)) return null;
  const { left, right } = node;
  return isSimpleTarget(left) && isSame(left, right.left)
    ? assignment(`${right.operator}=`, left, right.right)
    : null;
}

// 36: `t -= 1` becomes `--t`.
function toUpdate(node) {
  if (node.type !== "AssignmentExpression" || node.operator !== "-=") return null;
  const value = isNegative(node.right) || node.right.type === "Literal"
    ? constant(node.right)?.value
    : null;
  if (value !== 1 && value !== -1) return null;
  return { type: "UpdateExpression", operator: value === 1
    ? "--"
    : "++", prefix: true, argument: node.left };
}

// ---- tests for null

// The name that a comparison tests: it, or what is assigned to it.
function tested(node) {
  if (isName(node)) return node;
  return isPlainAssignment(node) && isName(node.left) ? node.left : null;
}

// A comparison of a name with null or undefined by an operator: the expression, and what it is
// compared with.
function nullTest(node, operator) {
  if (!isBinary(node, operator)) return null;
  for (const [side, other] of [[node.left, node.right], [node.right, node.left]]) {
    const word = isNull(other) ? "null" : isUndefined(other) ? "undefined" : null;
    if (word && tested(side)) return { side, word, name: tested(side) };
  }
  return null;
}

const isSameName = (first, second) => first.name === second.name && first.symbol === second.symbol;

// `x === null || x === undefined` as one comparison.
function joinedNull(first, second, operator) {
  const strict = operator === "||" ? "===" : "!==";
  const [one, two] = [nullTest(first, strict), nullTest(second, strict)];
  if (!one || !two || one.word === two.word || !isName(two.side)) return null;
  if (!isSameName(one.name, two.name)) return null;
  const isAssigned = !isName(one.side);
  if (isAssigned && one.name.symbol && !one.name.symbol.isWritable) return null;
  return binary(strict.slice(0, 2), one.side, literal(null));
}

// What a function makes of the two operands of a logical operator, or of the last two of a row of
// them.
function lastTwo(node, make) {
  const { operator, left, right } = node;
  const whole = make(left, right, operator);
  if (whole) return whole;
  const inner = isLogical(left, operator) ? make(left.right, right, operator) : null;
  return inner && logical(operator, left.left, inner);
}

// 37: two strict tests are one loose one.
function joinNullTests(node) {
  return isLogical(node) && node.operator !== "??" ? lastTwo(node, joinedNull) : null;
}

// 38: `t || (t = b)` becomes `t ||= b`.
function assignSide(node) {
  if (!isLogical(node)) return null;
  const parts = partsOf(node.right);
  const last = parts.at(-1);
  if (!isPlainAssignment(last) || !isSame(last.left, node.left)) return null;
  const { left } = last;
  const isSteady = isName(left) || (isSimpleTarget(left) && isSteadyObject(left.object));
  if (!isSteady) return null;
  return assignment(`${node.operator}=`, left, sequence(...parts.slice(0, -1), last.right));
}

const isSteadyObject = (node) => node.type === "ThisExpression" || isSteadyName(node);
const isSteadyName = (node) => isResolved(node) && node.symbol.isSteady(node.inBody);

// 39: `a && (b && c)` becomes `a && b && c`.
function rotate(node) {
  if (!isLogical(node) || !isLogical(node.right, node.operator)) return null;
  const first = isLogical(node.right.left, node.operator)
    ? rotate(logical(node.operator, node.left, node.right.left))
    : logical(node.operator, node.left, node.right.left);
  return logical(node.operator, first, node.right.right);
}

const EXPRESSIONS = [
  [23, negate], [24, dropDoubleNot], [25, dropKnownOperand], [26, dropKnownBranch],
  [27, negateBits], [28, loosen], [29, dropBoolean], [30, numberBoolean], [31, toBits],
  [32, dropBitsOfZero], [33, dotMember], [33, dotTarget], [34, assignLogical], [35, assignCombined],
  [36, toUpdate], [37, joinNullTests], [38, assignSide], [39, rotate],
];

module.exports = {
  EXPRESSIONS, equivalentNumber, isIdentifierName, isSteadyName, lastTwo, notFirst,
};
