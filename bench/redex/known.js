// The rewrites that are known to be narrower than the tables, as docs/REWRITES.md says in its last
// column: what is found of them is told as known, as long as that column isn't empty for the row.
"use strict";
const fs = require("fs");
const path = require("path");
const { isDeclaration, isScoped, isVar } = require("./statements.js");
const { constant, namesVariable } = require("./terms.js");
const {
  isChain, isFunction, isMember, isName, isNegative, isNode, isPlainAssignment, isUnary, partsOf,
} = require("./nodes.js");

const PAGE = path.join(__dirname, "..", "..", "docs", "REWRITES.md");

// What the last column of docs/REWRITES.md says of each row.
function columns() {
  const found = new Map();
  for (const line of fs.readFileSync(PAGE, "utf8").split("\n")) {
    const row = /^\| \[(\d+)\]/.exec(line);
    if (row) found.set(Number(row[1]), line.split(/(?<!\\)\|/).at(-2).trim());
  }
  return found;
}

// ---- what stands in a node

const below = (node) =>
  Object.entries(node).flatMap(([field, part]) => (field === "inBody" ? [] : part)).filter(isNode);

function* nodes(node) {
  for (const each of [node].flat()) {
    if (!isNode(each)) continue;
    yield each;
    yield* nodes(below(each));
  }
}

const has = (node, test) => {
  for (const each of nodes(node)) if (test(each)) return true;
  return false;
};

const OPERATORS = /^(Unary|Binary|Logical|Conditional)Expression$/;
const countOperators = (node) =>
  [...nodes(node)].filter((each) => OPERATORS.test(each.type)).length;
const isBigInt = (node) => node.type === "Literal" && Boolean(node.bigint);
const isDeep = ({ node }) => countOperators(node) > 8;
const root = (node, up) => (up.parent ? root(up.parent, up.up) : node);

// The variables that a declaration of a list, or a node with a name of its own, declares.
const declaredBy = ({ node, list }) => {
  const ids = (list ?? [node]).flatMap((each) => [
    each.id, each.param, ...(each.declarations ?? []).map((part) => part.id),
  ]);
  return new Set(ids.filter((id) => id && isName(id) && id.symbol).map((id) => id.symbol));
};

// Whether another variable is spelled like one that is declared there.
function hasNamesake(found) {
  const symbols = declaredBy(found);
  const names = new Set([...symbols].map((symbol) => symbol.name));
  const isLike = (each) =>
    isName(each) && each.symbol !== undefined && names.has(each.name) && !symbols.has(each.symbol);
  return has(root(found.node, found.up), isLike)
    || [...symbols].some((symbol) => symbol.kind === "parameter");
}

// The statements of a list, or the node, of which something is told.
const partsOfFound = ({ list, node }) => list ?? [node];

// A test of whether something stands in what is found.
const holding = (test) => (found) => has(partsOfFound(found), test);

const isThis = (node) => node.type === "ThisExpression";
const isFreeThis = (part) =>
  part.type === "VariableDeclarator" && Boolean(part.init) && has(part.init, isThis);
const isConstantName = ({ node }) =>
  has(node, (each) => namesVariable(each) && constant(each) !== null);
const isMemberSet = holding((each) => each.type === "AssignmentExpression" && isMember(each.left));
const isTurned = ({ node, written }) =>
  has(node, (each) => isUnary(each, "typeof")) || has(written, (each) => isUnary(each, "!"));
const isDeclared = (node) =>
  isName(node) && Boolean(node.symbol) && node.symbol.kind !== "parameter";
// Whether two variables of the body are named, of which one may be passed by the other's value.
const isPast = (found) =>
  new Set([...nodes(partsOfFound(found))].filter(isDeclared).map((each) => each.symbol)).size > 1;
const isOneOfSeveral = (found) =>
  partsOfFound(found).some((node) => isDeclaration(node) && node.declarations.length > 1);
const isEval = (node) =>
  node.type === "CallExpression" && isName(node.callee) && node.callee.name === "eval";
const isPatternOrCaptured = holding((each) =>
  /^(Object|Array)Pattern$/.test(each.type) || isFunction(each) || isEval(each));
const isBareReturn = (node) => node.type === "ReturnStatement" && !node.argument;
const hasScoped = (node) => node.type === "BlockStatement" && node.body.some(isScoped);

const DEEP = [1, 3, 4, 5, 8, 9, 12, 13, 14, 18, 25, 26, 29, 30, 47, 56, 78, 81];

// Each row with a reason and a test of what is found.
const KNOWN = [
  ...DEEP.map((row) => [row, "a constant of more than eight operators", isDeep]),
  [1, "a zero before an equality", ({ seat }) => Boolean(seat.eqLeft)],
  [4, "a constant that reads a variable", isConstantName],
  [5, "a constant that reads a variable", isConstantName],
  [18, "a constant that reads a variable", isConstantName],
  [11, "a chain as the callee of new", ({ seat }) => Boolean(seat.newCallee)],
  [12, "a text's length under a minus", ({ node }) => has(node.left, isMember)],
  [13, "a text's length under a minus", ({ node }) => has(node.left, isMember)],
  [20, "a minus over a sequence that ends in a number", ({ written }) => has(written, isNegative)],
  [23, "two negations over a comparison", ({ node }) => isUnary(node.argument, "!")],
  [26, "a negation that is found inside", isTurned],
  [47, "a negation that is found inside", isTurned],
  [48, "a negation that is found inside", isTurned],
  [33, "members in patterns and heads of loops", ({ seat }) => seat.is === "target"],
  [37, "an assigned name that no scope declares", ({ node }) => has(node, isPlainAssignment)],
  [38, "a member of a var with an initializer", isMemberSet],
  [45, "a member of a var with an initializer, or of a function", isMemberSet],
  [46, "a chain in what follows the name", ({ node }) => has(node, isChain)],
  [43, "sequences of three parts", ({ node }) => has(node, (each) => partsOf(each).length > 2)],
  [62, "a name that another variable is spelled like", hasNamesake],
  [63, "a name that another variable is spelled like", hasNamesake],
  [72, "a name that another variable is spelled like", hasNamesake],
  [72, "one of several declarators", isOneOfSeveral],
  [70, "a BigInt", holding(isBigInt)],
  [71, "a name that another variable is spelled like", hasNamesake],
  [71, "this as an initializer", holding(isFreeThis)],
  [71, "the initializer of an export", holding((each) => /^Export/.test(each.type))],
  [71, "a BigInt", holding(isBigInt)],
  [71, "a number under a minus", holding((each) => isUnary(each, "-") && isName(each.argument))],
  [71, "a key in brackets", holding((each) => each.type === "Property" && each.computed)],
  [71, "past a var, a function or a class of the body", isPast],
  [73, "a bare jump that isn't the last", holding(isBareReturn)],
  [75, "a block that declares names", holding(hasScoped)],
  [75, "the break of a do", ({ up }) => up.parent?.type === "DoWhileStatement"],
  [77, "a name that two vars declare", holding(isVar)],
  [79, "a block under a label", ({ up }) => up.parent?.type === "LabeledStatement"],
  [80, "names that another body sees, and names of patterns", isPatternOrCaptured],
  [84, "names that another body sees, and names of patterns", isPatternOrCaptured],
  [83, "a block that needs its braces", ({ node }) => isUnary(node.test, "!")],
];

// The reason for which something that is found is known, or null.
function reasonOf(found, told = columns()) {
  if (!told.get(found.row)) return null;
  return KNOWN.find(([row, , holds]) => row === found.row && holds(found))?.[1] ?? null;
}

module.exports = { columns, reasonOf };
