// Rewrites 40 to 50: conditionals, and logical operators whose value isn't used. Each is a function
// of a node and its seat that gives what would be written, or nothing.
"use strict";
const {
  assignment, conditional, follow, isBinary, isCarried, isChain, isLiteral, isLogical, isMember,
  isName, isNull, isPlainAssignment, isResolved, isSame, isSuper, isUnary, isUndefined, logical,
  not, OPPOSITE, partsOf, sequence, unary,
} = require("./nodes.js");
const { constant, isFree, isFreeOf, kind, lighterNot } = require("./terms.js");
const { seatOf } = require("./seats.js");
const { isSteadyName, notFirst } = require("./logic.js");
const { rebuilt, spine } = require("./fold.js");

// What a function gives of the parts of a conditional.
const ofConditional = (give) => (node, seat) =>
  node.type === "ConditionalExpression"
    ? give(node.test, node.consequent, node.alternate, seat)
    : null;

// 40: a negated test turns, and the branches swap.
function turn(a, b, c) {
  if (isUnary(a, "!")) return conditional(a.argument, c, b);
  return isBinary(a, ["!=", "!=="])
    ? conditional({ ...a, operator: OPPOSITE[a.operator] }, c, b)
    : null;
}

// 41: `x ? x : b` becomes `x || b`.
function branchIsTest(a, b, c) {
  if (!isName(a)) return null;
  if (isSame(a, b)) return logical("||", a, c);
  return isSame(a, c) ? logical("&&", a, b) : null;
}

// 42: a conditional in a branch whose other branch is the other branch here.
function nest(a, b, c) {
  const found = [];
  if (b.type === "ConditionalExpression" && isSame(b.alternate, c)) {
    found.push(conditional(logical("&&", a, b.test), b.consequent, c));
  }
  if (c.type === "ConditionalExpression" && isSame(c.consequent, b)) {
    found.push(conditional(logical("||", a, c.test), b, c.alternate));
  }
  return found;
}

// The parts before the last of a sequence that ends in another expression.
function before(node, last) {
  if (node.type !== "SequenceExpression") return null;
  const parts = partsOf(node);
  return isSame(parts.at(-1), last) ? sequence(...parts.slice(0, -1)) : null;
}

// 43: a branch that ends in the other branch.
function share(a, b, c) {
  const [first, second] = [before(b, c), before(c, b)];
  const found = [];
  if (second) found.push(sequence(logical("||", a, second), b));
  if (first) found.push(sequence(logical("&&", a, first), c));
  if (isLogical(b, "||") && isSame(b.right, c)) {
    found.push(logical("||", logical("&&", a, b.left), c));
  }
  if (isLogical(c, "&&") && isSame(c.right, b)) {
    found.push(logical("&&", logical("||", a, c.left), b));
  }
  return found;
}

const isPlainCall = (node) =>
  node.type === "CallExpression" && !node.optional && !isSuper(node.callee);
const isSpread = (node) => node.type === "SpreadElement";

// 44: calls that differ in their first argument.
function joinCalls(a, b, c) {
  if (!isPlainCall(b) || !isPlainCall(c) || b.arguments.length === 0 || c.arguments.length === 0) {
    return null;
  }
  const [[p, ...r], [q, ...s]] = [b.arguments, c.arguments];
  if (!isFree(a) || !isFree(b.callee) || !isSame(b.callee, c.callee) || !isSame(r, s)) return null;
  if (isSpread(p) !== isSpread(q)) return null;
  const first = isSpread(p)
    ? { ...p, argument: conditional(a, p.argument, q.argument) }
    : conditional(a, p, q);
  return { ...b, arguments: [first, ...r] };
}

const isSteadyKey = (node) =>
  !node.computed || (node.property.type === "Literal" && !node.property.regex)
    || isSteadyName(node.property);

// Whether the target may stand before the test.
function isMovable(target, test) {
  if (isName(target)) return isResolved(target) || isFree(test);
  if (!isMember(target)) return false;
  const isHeld = isSteadyName(target.object)
    || (target.object.type === "ThisExpression" && isFree(target.object));
  return isHeld && isSteadyKey(target);
}

// 45: assignments that differ in what is assigned.
function joinAssignments(a, b, c) {
  const isBoth = [b, c].every((node) => node.type === "AssignmentExpression");
  if (!isBoth || b.operator !== c.operator || !isSame(b.left, c.left)) return null;
  const isCompound = b.operator !== "=";
  if (/^(&&|\|\||\?\?)=$/.test(b.operator)) return null;
  const isAllowed = isCompound ? isResolved(b.left) && isFree(a) : isMovable(b.left, a);
  return isAllowed ? assignment(b.operator, b.left, conditional(a, b.right, c.right)) : null;
}

// The name that a loose comparison with null tests, and the expression that stands for it.
function looseNull(node) {
  if (!isBinary(node, ["==", "!="]) || !isNull(node.right)) return null;
  const { left } = node;
  if (isResolved(left)) return { name: left, value: left };
  const isSet = isPlainAssignment(left) && isResolved(left.left) && left.left.symbol.isWritable;
  return isSet ? { name: left.left, value: left } : null;
}

// 46: `x == null ? b : x` becomes `x ?? b`.
function coalesce(a, b, c) {
  const found = looseNull(a);
  if (!found) return null;
  const [missing, present] = a.operator === "==" ? [b, c] : [c, b];
  if (isSame(present, found.name)) return logical("??", found.value, missing);
  return isUndefined(missing) ? chained(found, present) : null;
}

// The chain that begins at the value in place of the name.
function chained({ name, value }, whole) {
  const top = isChain(whole) ? whole.expression : whole;
  const links = spine(top);
  const innermost = links.at(-1);
  if (!innermost || links.some(isCarried) || innermost.optional || name.name === "eval") {
    return null;
  }
  const field = innermost.type === "MemberExpression" ? "object" : "callee";
  if (!isSame(innermost[field], name)) return null;
  const marked = { ...innermost, [field]: value, optional: true };
  return { type: "ChainExpression", expression: rebuilt(links, links.length - 1, marked) };
}

const knownBoolean = (node) => (isFreeOf(node, "boolean") ? constant(node).value : undefined);

// 47: branches that are known booleans.
function booleanBranches(a, b, c, seat) {
  const isBoolean = kind(a) === "Boolean";
  const [first, second] = [knownBoolean(b), knownBoolean(c)];
  if (first === true && second === false) return isBoolean || seat.boolean ? a : not(not(a));
  if (first === false && second === true) return lighterNot(a, seat);
  const found = [];
  if (first === false) found.push(notFirst("&&", a, c, seat));
  if (second === true) found.push(notFirst("||", a, b, seat));
  if (isBoolean && first === true) found.push(logical("||", a, c));
  if (isBoolean && second === false) found.push(logical("&&", a, b));
  return found;
}

// 48: branches that are 1 and 0.
function numberBranches(a, b, c) {
  if (isLiteral(b, 1) && isLiteral(c, 0)) {
    return unary("+", kind(a) === "Boolean" ? a : not(not(a)));
  }
  if (!isLiteral(b, 0) || !isLiteral(c, 1)) return null;
  return unary("+", lighterNot(a, seatOf(unary("+", a), "argument")));
}

// 49: two equal branches.
function sameBranches(a, b, c) {
  if (!isSame(b, c)) return null;
  return isFree(a) ? b : follow(a, b);
}

// 50: `!a && b` becomes `a || b` where the value isn't used.
function turnUnused(node, seat) {
  if (!seat.unused || !isLogical(node) || node.operator === "??") return null;
  return notFirst(node.operator === "&&" ? "||" : "&&", node.left, node.right, seat);
}

const CONDITIONALS = [
  [40, turn], [41, branchIsTest], [42, nest], [43, share], [44, joinCalls], [45, joinAssignments],
  [46, coalesce], [47, booleanBranches], [48, numberBranches], [49, sameBranches],
];
const EXPRESSIONS = [
  ...CONDITIONALS.map(([row, give]) => [row, ofConditional(give)]), [50, turnUnused],
];

module.exports = { EXPRESSIONS };
