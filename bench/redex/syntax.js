// Rewrites 51 to 65: shorter spellings of the same. Each is a function of a node and its seat that
// gives what would be written, or nothing.
"use strict";
const { isOf } = require("../estree.js");
const {
  ARITHMETIC, binary, BITS, boolean, isBinary, isCarried, isChain, isEquality, isLiteral, isLogical,
  isName, isNull, isResolved, isUnary, isUndefined, isUnresolved, isVoidZero, literal, logical, not,
  SHIFTS, voidZero,
} = require("./nodes.js");
const { constant, isFree, isFreeOf, isPlain, kind, namesVariable } = require("./terms.js");
const { equivalentNumber, isIdentifierName, lastTwo } = require("./logic.js");
const { below } = require("./fold.js");

// 51: `{ x: x }` becomes `{ x }`.
function shorten(node, seat, { parent }) {
  const isPlainPart = node.type === "Property" && parent.type === "ObjectExpression"
    && node.kind === "init";
  if (!isPlainPart || node.method || node.computed || node.shorthand) return null;
  const isSame = isName(node.key) && isName(node.value) && node.key.name === node.value.name;
  return isSame && node.key.name !== "__proto__" ? { ...node, shorthand: true } : null;
}

// ---- keys

const isKeyed = (node) => /^(Property|MethodDefinition|PropertyDefinition)$/.test(node.type);

// A class keeps a bracketed key that would mean something else as a name.
function isKeptInClass(node, text) {
  if (node.type === "Property") return false;
  if (text === "prototype") return Boolean(node.static);
  if (text === "constructor") return node.type === "PropertyDefinition" || !node.static;
  return text === "#constructor";
}

// Whether a key is the `__proto__` of an object literal, which sets its prototype.
const isProto = (node, parent) =>
  parent.type === "ObjectExpression" && isLiteral(node.key, "__proto__") && !node.method;

const PATTERNS = [
  "Property", "RestElement", "ObjectPattern", "ArrayPattern", "AssignmentPattern",
];

// Whether a property stands in a pattern among the parameters of a function.
function isInParameters(up) {
  for (let at = up; at; at = at.up) {
    if (at.field === "params") return true;
    if (!isOf(PATTERNS, at.parent)) {
      return false;
    }
    if (at.parent.type === "AssignmentPattern" && at.field === "right") return false;
  }
  return false;
}

// 52: keys without quotes and brackets.
function shortenKey(node, seat, up) {
  if (!isKeyed(node) || node.key.type !== "Literal" || isProto(node, up.parent)) return null;
  const { value } = node.key;
  if (node.computed) return withoutBrackets(node, value, up);
  if (typeof value !== "string") return null;
  if (isIdentifierName(value)) return { ...node, key: { type: "Identifier", name: value } };
  const found = equivalentNumber(value);
  return found === null || found < 0 ? null : { ...node, key: literal(found) };
}

function withoutBrackets(node, value, up) {
  const isKey = typeof value === "string" || (typeof value === "number" && value >= 0);
  if (!isKey || isKeptInClass(node, String(value)) || isInParameters(up)) return null;
  return { ...node, computed: false };
}

// 53: `{ x: x }` becomes `{ x }` where it is assigned to.
function shortenTarget(node, seat, up) {
  const isPart = node.type === "Property" && up.parent.type === "ObjectPattern";
  if (!isPart || node.computed || node.shorthand || isDeclared(up)) return null;
  const name = node.value.type === "AssignmentPattern" ? node.value.left : node.value;
  const isSame = isName(node.key) && isName(name) && node.key.name === name.name;
  return isSame ? { ...node, shorthand: true } : null;
}

// Whether a pattern declares names.
function isDeclared(up) {
  for (let at = up; at; at = at.up) {
    if (/^(VariableDeclarator|CatchClause)$/.test(at.parent.type) || at.field === "params") {
      return true;
    }
    if (/^(AssignmentExpression|For(In|Of)Statement)$/.test(at.parent.type)) return false;
  }
  return false;
}

// ---- equalities

// 54: a constant goes to the right of an equality.
function swap(node) {
  if (!isEquality(node) || !isPlain(node.left) || isPlain(node.right)) return null;
  return { ...node, left: node.right, right: node.left };
}

// 55: `typeof x == "undefined"` is shorter by order, or as a comparison.
function compareUndefined(node) {
  if (!isEquality(node) || !isUnary(node.left, "typeof") || !isLiteral(node.right, "undefined")) {
    return null;
  }
  const isEqual = /^=/.test(node.operator);
  const { argument } = node.left;
  if (isUnresolved(argument)) return binary(isEqual ? ">" : "<", node.left, literal("u"));
  return binary(isEqual ? "===" : "!==", argument, voidZero());
}

const NUMERIC = [...ARITHMETIC.filter((sign) => sign !== "+"), ...BITS, ...SHIFTS];

// 56: a plus before an operand of arithmetic goes.
function dropPlus(node) {
  if (!isBinary(node, NUMERIC) || isCarried(node)) return null;
  const { left, right } = node;
  const found = [];
  const isKnown = isFreeOf(right, "number") && !namesVariable(right);
  if (isUnary(left, "+") && isKnown) found.push({ ...node, left: left.argument });
  if (isUnary(right, "+") && kind(left) === "Number") {
    found.push({ ...node, right: right.argument });
  }
  return found;
}

const isTypeofObject = (node, signs) =>
  isBinary(node, signs) && isUnary(node.left, "typeof") && isName(node.left.argument)
  && isLiteral(node.right, "object") && node.left.argument;
const isNullTest = (node, signs) =>
  isBinary(node, signs) && isNull(node.right) && isResolved(node.left) && node.left;

// `typeof x === "object" && x !== null` in the shorter form.
function joinedObject(first, second, operator) {
  const [same, other] = operator === "&&"
    ? [["===", "=="], ["!==", "!="]]
    : [["!==", "!="], ["===", "=="]];
  for (const [one, two] of [[first, second], [second, first]]) {
    const [x, y] = [isTypeofObject(one, same), isNullTest(two, other)];
    if (!x || !y || x.symbol !== y.symbol) continue;
    const typed = binary(same[1], one.left, one.right);
    return logical(operator, typed, operator === "&&" ? not(not(y)) : not(y));
  }
  return null;
}

// 57: an object that isn't null.
function testObject(node) {
  return isLogical(node) && node.operator !== "??" ? lastTwo(node, joinedObject) : null;
}

// 58: undefined in a loose equality is null.
function looseUndefined(node) {
  if (!isBinary(node, ["==", "!="])) return null;
  return [
    "left", "right",
  ].filter((side) => isUndefined(node[side])).map((side) => ({ ...node, [side]: literal(null) }));
}

// 59: an arrow of one `return` has an expression for a body.
function arrowExpression(node) {
  if (node.type !== "ArrowFunctionExpression" || node.body.type !== "BlockStatement") return null;
  const [only, ...others] = node.body.body;
  const isReturn = only?.type === "ReturnStatement" && only.argument && others.length === 0;
  return isReturn ? { ...node, expression: true, body: only.argument } : null;
}

// 60: undefined isn't returned or yielded.
function dropUndefined(node) {
  if (!node.argument) return null;
  const isVoid = isUnary(node.argument, "void") && isFree(node.argument);
  const isReturned = node.type === "ReturnStatement"
    && (isVoid || isUnresolved(node.argument, "undefined"));
  const isYielded = node.type === "YieldExpression" && !node.delegate && isVoidZero(node.argument);
  return isReturned || isYielded ? { ...node, argument: null } : null;
}

// 61: `let x = undefined` becomes `let x`.
function dropInitial(node, seat, { parent }) {
  if (node.type !== "VariableDeclarator" || parent.kind !== "let" || !node.init) return null;
  return isName(node.id) && isUndefined(node.init) ? { ...node, init: null } : null;
}

// ---- names

const isUnseen = (name) => name.symbol.isUnused && !name.symbol.isInEvalsReach;

// 62: the name of a function or class expression that nothing reads goes.
function dropName(node) {
  const isExpression = /^(Function|Class)Expression$/.test(node.type);
  return isExpression && node.id && isUnseen(node.id) ? { ...node, id: null } : null;
}

// 63: so does the parameter of a `catch`.
function dropCaught(node) {
  if (node.type !== "CatchClause" || !node.param || !isName(node.param) || !isUnseen(node.param)) {
    return null;
  }
  return hasVar(node.body, node.param.name) ? null : { ...node, param: null };
}

// Whether a `var` of a name stands in a statement, functions and classes aside.
function hasVar(node, name) {
  if (Array.isArray(node)) return node.some((part) => hasVar(part, name));
  if (!node || typeof node.type !== "string" || /Function|Class|Expression$/.test(node.type)) {
    return false;
  }
  if (node.type === "VariableDeclaration" && node.kind === "var") {
    return binds(node.declarations, name);
  }
  return Object.entries(node).some(([field, part]) => field !== "inBody" && hasVar(part, name));
}

const binds = (declarations, name) => declarations.some((part) => mentions(part.id, name));
const mentions = (pattern, name) => {
  if (!pattern) return false;
  if (isName(pattern)) return pattern.name === name;
  const one = pattern.value ?? pattern.left ?? pattern.argument;
  const inside = pattern.properties ?? pattern.elements ?? [one];
  return inside.some((part) => mentions(part, name));
};

// 64: a chain goes on in another one.
function joinChains(node) {
  if (!isChain(node)) return null;
  const top = node.expression;
  const inner = isCarried(top) ? null : below(top);
  if (!inner || !isChain(inner)) return null;
  const field = top.type === "MemberExpression" ? "object" : "callee";
  return { ...node, expression: { ...top, [field]: inner.expression } };
}

// 65: `true` is `!0`.
function shortenBoolean(node) {
  return node.type === "Literal" && typeof node.value === "boolean" ? boolean(node.value) : null;
}

const EXPRESSIONS = [
  [54, swap], [55, compareUndefined], [56, dropPlus], [57, testObject], [58, looseUndefined],
  [59, arrowExpression], [60, dropUndefined], [62, dropName], [64, joinChains],
  [65, shortenBoolean],
];
const OTHERS = [
  [51, shorten], [52, shortenKey], [53, shortenTarget], [60, dropUndefined], [61, dropInitial],
  [63, dropCaught],
];

module.exports = { EXPRESSIONS, OTHERS };
