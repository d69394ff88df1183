// Rewrites 1 to 22: operators over known values, texts and templates, sequences, idle statements.
// Each is a function of a node and its seat that gives what would be written, or nothing.
"use strict";
const {
  binary, BITS, boolean, follow, isBinary, isCarried, isChain, isEquality, isLink, isLiteral,
  isLogical, isMember, isName, isNegative, isPlainAssignment, isPrivate, isText, isUnary,
  isVoidZero, keyOf, literal, logical, partsOf, sequence, unary, voidZero,
} = require("./nodes.js");
const {
  constant, freeConstant, isFree, isFreeOf, isPrimitive, kind, lit, namesVariable, truth,
} = require("./terms.js");
const { escaped, joinedRaw, operate, toText } = require("./values.js");

const isTemplate = (node) => node.type === "TemplateLiteral";
const isEmptyText = (node) => isLiteral(node, "");
const isOwnOperator = (node) => node.type === "BinaryExpression" && !isCarried(node);

// 1: a unary operator over known values gives its value.
function foldUnary(node) {
  if (node.type !== "UnaryExpression" || isNegative(node) || isVoidZero(node)) return null;
  const found = freeConstant(node);
  return found && lit(found.value);
}

// 2: `delete` of what is no reference is true.
function foldDelete(node) {
  if (!isUnary(node, "delete")) return null;
  const { argument } = node;
  if (isName(argument) || argument.type === "MemberExpression" || isChain(argument)) return null;
  return isFree(argument) ? boolean(true) : follow(argument, boolean(true));
}

// 3: a binary operator over known values gives its value.
function foldBinary(node) {
  const found = isOwnOperator(node) ? freeConstant(node) : null;
  return found && lit(found.value);
}

// 4: `a + "s" + "t"` becomes `a + "st"`.
function joinTexts(node) {
  if (!isBinary(node, "+") || !isBinary(node.left, "+")) return null;
  const [second, third] = [node.left.right, node.right];
  const [first, last] = [freeConstant(second), freeConstant(third)];
  if (kind(second) !== "String" || !first || !last) return null;
  return binary("+", node.left.left, literal(toText(first.value) + toText(last.value)));
}

// A template, or a constant as one.
function asTemplate(node) {
  if (isTemplate(node)) return node;
  const found = freeConstant(node);
  return found && template([escaped(toText(found.value))], []);
}

function template(raws, expressions) {
  const quasis = raws.map((raw, at) => ({
    type: "TemplateElement", tail: at === raws.length - 1, value: { raw, cooked: raw },
  }));
  return { type: "TemplateLiteral", quasis, expressions };
}

const raws = (node) => node.quasis.map((part) => part.value.raw);

// The one template of two operands of `+`, one of which is a template and the other a template or
// an effect-free constant.
function joinedTemplate(left, right) {
  if (!isTemplate(left) && !isTemplate(right)) return null;
  const [first, second] = [asTemplate(left), asTemplate(right)];
  if (!first || !second) return null;
  const [before, after] = [raws(first), raws(second)];
  const between = joinedRaw(before.at(-1), after[0]);
  const texts = [...before.slice(0, -1), between, ...after.slice(1)];
  return template(texts, [...first.expressions, ...second.expressions]);
}

// 5: a template added to a template or a constant becomes one template.
function joinTemplates(node) {
  return isBinary(node, "+") ? joinedTemplate(node.left, node.right) : null;
}

// 6: the last two operands of a sum become one template.
function joinTemplatesInSum(node) {
  if (!isBinary(node, "+") || !isBinary(node.left, "+")) return null;
  const { left: a, right: t } = node.left;
  const u = node.right;
  const joined = joinedTemplate(t, u);
  if (kind(t) !== "String" || !joined || !isFree(u)) return null;
  const isKept = isPrimitive(a) || (constant(u) && !namesVariable(u));
  return isKept ? binary("+", a, joined) : null;
}

// 7: a text plus an empty text is itself.
function dropEmptyText(node) {
  if (!isBinary(node, "+")) return null;
  if (isEmptyText(node.right) && kind(node.left) === "String") return node.left;
  return isEmptyText(node.left) && kind(node.right) === "String" ? node.right : null;
}

// 8: `a & 12 & 10` becomes `a & 8`.
function joinMasks(node) {
  if (!isBinary(node, BITS) || !isBinary(node.left, node.operator)) return null;
  const { left, right } = node.left;
  if (!isFreeOf(node.right, "number")) return null;
  const joined = (c) =>
    lit(operate(node.operator, constant(c).value, constant(node.right).value).value);
  const found = [];
  if (isFreeOf(right, "number")) found.push(binary(node.operator, left, joined(right)));
  if (isFreeOf(left, "number")) found.push(binary(node.operator, right, joined(left)));
  return found;
}

// 9: the length of a known text is a number.
function foldLength(node, seat) {
  if (!isMember(node) || node.optional || seat.guard || keyOf(node) !== "length") return null;
  return isFreeOf(node.object, "string") ? literal(constant(node.object).value.length) : null;
}

// ---- chains

const below = (link) => (link.type === "MemberExpression" ? link.object : link.callee);

// The accesses of a chain, outermost first.
function spine(node) {
  const found = [];
  for (let at = node; isLink(at); at = below(at)) found.push(at);
  return found;
}

// The first access of a chain that is optional, if none behind it is private or of `super`.
function firstMark(node) {
  if (!isChain(node)) return null;
  const links = spine(node.expression);
  const at = links.findLastIndex((link) => link.optional);
  return at < 0 || links.slice(0, at + 1).some(isCarried) ? null : { links, at };
}

// 10: a chain over null or undefined is undefined.
function foldNullishChain(node) {
  const mark = firstMark(node);
  if (!mark) return null;
  const base = below(mark.links[mark.at]);
  if (!["Null", "Undefined"].includes(kind(base))) return null;
  return isFree(base) ? voidZero() : follow(base, voidZero());
}

// The access with another one in place of the one that it holds.
function rebuilt(links, at, inner) {
  return links.slice(0, at).reduceRight((held, link) => {
    return { ...link, [link.type === "MemberExpression" ? "object" : "callee"]: held };
  }, inner);
}

// 11: a chain over another known kind loses its first mark.
function unmarkChain(node) {
  const mark = firstMark(node);
  if (!mark) return null;
  const { links, at } = mark;
  if (["Null", "Undefined", "Undetermined"].includes(kind(below(links[at])))) return null;
  const whole = rebuilt(links, at, { ...links[at], optional: false });
  const isLast = links.filter((link) => link.optional).length === 1;
  return isLast ? whole : { ...node, expression: whole };
}

// ---- logical operators

const isExports = (node) =>
  isPlainAssignment(node) && node.left.type === "MemberExpression" && keyOf(node.left) === "exports"
  && isName(node.left.object) && node.left.object.name === "module";

const isShort = (operator, value) => (operator === "&&" ? value === false : value === true);
const isLong = (operator, value) => (operator === "&&" ? value === true : value === false);
const isAndOr = (node) => isLogical(node) && node.operator !== "??";

// 12: `a && b` with a false is a.
function dropRight(node) {
  if (!isAndOr(node) || !isShort(node.operator, truth(node.left))) return null;
  return node.operator === "&&" && isExports(node.right) ? null : node.left;
}

// 13: `a && b` with a true is b.
function dropLeft(node) {
  if (!isAndOr(node) || !isLong(node.operator, truth(node.left))) return null;
  return isFree(node.left) ? node.right : follow(node.left, node.right);
}

// 14: `a || k || b` with k false loses k.
function dropMiddle(node) {
  if (!isAndOr(node) || !isLogical(node.left, node.operator)) return null;
  const k = node.left.right;
  return isFree(k) && isLong(node.operator, truth(k))
    ? logical(node.operator, node.left.left, node.right)
    : null;
}

// 15: `a ?? b` where the kind of a is known.
function foldCoalesce(node) {
  if (!isLogical(node, "??") || kind(node.left) === "Undetermined") return null;
  if (!["Null", "Undefined"].includes(kind(node.left))) return node.left;
  return isFree(node.left) ? node.right : follow(node.left, node.right);
}

// ---- typeof

const isTypeofName = (node) => isUnary(node, "typeof") && isName(node.argument);
const equal = (node, value) => boolean(/^=/.test(node.operator) === value);

// 16: `typeof x == typeof x` is true.
function foldSameTypeof(node) {
  if (!isEquality(node) || !isTypeofName(node.left) || !isTypeofName(node.right)) return null;
  const [first, second] = [node.left.argument, node.right.argument];
  return first.name === second.name && first.symbol === second.symbol ? equal(node, true) : null;
}

const TYPES = [
  "string", "number", "bigint", "boolean", "symbol", "undefined", "object", "function", "unknown",
];

// 17: `typeof e` equals no text that names no type.
function foldNoType(node) {
  if (!isEquality(node) || !isUnary(node.left, "typeof") || !isFree(node.left)) return null;
  const { right } = node;
  const isNone = isText(right) && !TYPES.includes(right.value);
  const isOther = isFree(right) && isPrimitive(right) && kind(right) !== "String";
  return isNone || isOther ? equal(node, false) : null;
}

// ---- templates

// 18: a known part of a template goes into its text.
function inlineParts(node, seat, { parent }) {
  if (!isTemplate(node) || parent.type === "TaggedTemplateExpression") return null;
  return node.expressions.flatMap((part, at) => {
    const found = freeConstant(part);
    if (!found) return [];
    const texts = raws(node);
    const joined = joinedRaw(joinedRaw(texts[at], escaped(toText(found.value))), texts[at + 1]);
    texts.splice(at, 2, joined);
    return [template(texts, node.expressions.toSpliced(at, 1))];
  });
}

// 19: a template without expressions is a text.
function plainTemplate(node, seat, { parent }) {
  if (!isTemplate(node) || parent.type === "TaggedTemplateExpression") return null;
  return node.expressions.length === 0 ? literal(node.quasis[0].value.cooked) : null;
}

// ---- sequences

const LIFTED = {
  BinaryExpression: (node) => (isPrivate(node.left) ? null : "left"),
  LogicalExpression: () => "left",
  ConditionalExpression: () => "test",
  UnaryExpression: (node) => (/^[-+~!]$/.test(node.operator) ? "argument" : null),
  YieldExpression: (node) => (node.argument ? "argument" : null),
};
const lifted = (node) => LIFTED[node.type]?.(node) ?? null;

// The parts that come first, and the node with the last one in their place.
function liftedOut(node) {
  const field = lifted(node);
  if (!field || isNegative(node)) return null;
  const part = node[field];
  if (part.type === "SequenceExpression") {
    const parts = partsOf(part);
    return { first: parts.slice(0, -1), rest: { ...node, [field]: parts.at(-1) } };
  }
  const found = liftedOut(part);
  return found && { ...found, rest: { ...node, [field]: found.rest } };
}

// 20: a sequence that leads an operator comes before it.
function liftSequence(node, seat) {
  const found = seat.lifted ? null : liftedOut(node);
  return found && sequence(...found.first, found.rest);
}

// 21: sequences in sequences are spread, and parts without effect go but the last.
function spreadSequence(node) {
  if (node.type !== "SequenceExpression") return null;
  const parts = partsOf(node);
  return sequence(...parts.slice(0, -1).filter((part) => !isFree(part)), parts.at(-1));
}

// 22: an expression statement without effect is empty.
function dropIdle(node) {
  if (node.type !== "ExpressionStatement" || typeof node.directive === "string") return null;
  return isFree(node.expression) ? { type: "EmptyStatement" } : null;
}

// 22: so is the init or update of a `for`.
function dropIdleHead(node) {
  if (node.type !== "ForStatement") return null;
  return ["init", "update"].filter((field) => node[field]
    && isFree(node[field])).map((field) => ({ ...node, [field]: null }));
}

const EXPRESSIONS = [
  [1, foldUnary], [2, foldDelete], [3, foldBinary], [4, joinTexts], [5, joinTemplates],
  [6, joinTemplatesInSum], [7, dropEmptyText], [8, joinMasks], [9, foldLength],
  [10, foldNullishChain], [11, unmarkChain], [12, dropRight], [13, dropLeft], [14, dropMiddle],
  [15, foldCoalesce], [16, foldSameTypeof], [17, foldNoType], [18, inlineParts],
  [19, plainTemplate], [20, liftSequence], [21, spreadSequence],
];
const STATEMENTS = [[22, dropIdle], [22, dropIdleHead]];

module.exports = { EXPRESSIONS, STATEMENTS, below, rebuilt, spine };
