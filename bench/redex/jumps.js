// Rewrites 73 to 78 and 80: jumps in a list of statements, and a `switch` of one case. Each is a
// function of the list and of where it stands that gives the lists that would be written.
"use strict";
const {
  binary, block, conditional, ifStatement, isFunction, isName, isNode, isSame, logical, oneOf,
  sequence, statement, voidZero,
} = require("./nodes.js");
const { isPlain, lighterNot } = require("./terms.js");
const { TEST } = require("./seats.js");
const { isIdleJump, isLexical, isScoped, isTerminated, isVar } = require("./statements.js");
const { ofEach, ofNeighbours, spliced } = require("./lists.js");
const { boundNames } = require("./names.js");

const LIMIT = 500;

// How many conditionals follow one another by their alternates.
const chainLength = (node) =>
  (node?.type === "ConditionalExpression" ? 1 + chainLength(node.alternate) : 0);

const isBareIf = (node) => node.type === "IfStatement" && !node.alternate;

// 73: `if (a) return b; return c;` becomes one `return`.
function joinJumps(list, { place }) {
  return list.slice(0, -1).flatMap((first, at) => {
    const second = list[at + 1];
    const jump = isBareIf(first) ? first.consequent : null;
    if (!jump || jump.type !== second.type || !/^(Return|Throw)Statement$/.test(jump.type)) {
      return [];
    }
    const isLast = place === "function" && at === list.length - 2;
    if (jump.argument && !second.argument && isLast) return [];
    return chainLength(second.argument) >= LIMIT
      ? []
      : [spliced(list, at, 2, ...joinedJump(first.test, jump, second))];
  });
}

function joinedJump(test, jump, second) {
  if (!jump.argument && !second.argument) return [statement(test), second];
  const [yes, no] = [jump.argument ?? voidZero(), second.argument ?? voidZero()];
  return [{ ...second, argument: conditional(test, yes, no) }];
}

// 74: two tests of one jump become one.
function joinGuards(first, second) {
  if (!isBareIf(first) || second.type !== "IfStatement" || !isTerminated(first.consequent)) {
    return null;
  }
  if (!isSame(first.consequent, second.consequent)) return null;
  return [{ ...second, test: logical("||", first.test, second.test) }];
}

// 75: the statements after a guard go into its other branch.
function takeRest(list, { place }) {
  return list.flatMap((node, at) => {
    if (node.type !== "IfStatement") return [];
    const rest = [...(node.alternate ? [node.alternate] : []), ...list.slice(at + 1)];
    const found = rest.some(isScoped) ? null : guarding(node, rest, place);
    return found ? [spliced(list, at, list.length, found)] : [];
  });
}

// The `if` of a guard, with what follows in its other branch.
function guarding({ test, consequent }, rest, place) {
  const other = rest.length > 0 ? oneOf(rest) : null;
  if (isIdleJump(consequent, place)) {
    return ifStatement(lighterNot(test, TEST), other ?? { type: "EmptyStatement" });
  }
  const isBlock = consequent.type === "BlockStatement" && consequent.body.length > 0;
  if (!isBlock || !isIdleJump(consequent.body.at(-1), place)) return null;
  return ifStatement(test, block(consequent.body.slice(0, -1)), other);
}

// 76: an `else` after a jump isn't needed.
function dropElse(node) {
  if (node.type !== "IfStatement" || !node.alternate || !isTerminated(node.consequent)) return [];
  return isScoped(node.alternate) ? [] : [[{ ...node, alternate: null }, node.alternate]];
}

// ---- 77

// How often each variable is referred to below some nodes.
function references(nodes, found = new Map()) {
  for (const node of nodes) {
    if (isName(node) && node.symbol && node.isReference) {
      found.set(node.symbol, (found.get(node.symbol) ?? 0) + 1);
    }
    const below = Object.entries(node).filter(([field]) => field !== "inBody");
    references(below.flatMap(([, part]) => part).filter(isNode), found);
  }
  return found;
}

// The variables of the `var`s in statements, functions aside.
function vars(node) {
  if (!isNode(node) || isFunction(node) || node.type === "StaticBlock") return [];
  const own = isVar(node) ? node.declarations.flatMap((part) => boundNames(part.id)) : [];
  const below = Object.entries(node).filter(([field]) => field !== "inBody");
  return [...own, ...below.flatMap(([, part]) => part).flatMap(vars)];
}

const declared = (node) =>
  isLexical(node) ? node.declarations.flatMap((part) => boundNames(part.id)) : [node.id];

// Whether a declaration that isn't reached has to stay, given the references that go with others.
function isNeeded(node, lost) {
  if (!isLexical(node) && node.type !== "ClassDeclaration") return false;
  return declared(node).some(({ symbol }) => {
    const left = symbol.reads + symbol.writes - (lost.get(symbol) ?? 0);
    return left > 0 || symbol.isTop || symbol.isInEvalsReach;
  });
}

const isKept = (node) => node.type === "FunctionDeclaration" || /^(Import|Export)/.test(node.type);

// The statements that go of those that aren't reached.
function dropped(list) {
  let going = list.filter((node) => !isKept(node));
  for (;;) {
    const lost = references(going);
    const left = going.filter((node) => !isNeeded(node, lost));
    if (left.length === going.length) return going;
    going = left;
  }
}

// 77: what isn't reached goes; `var` names that are needed are declared at the end.
function dropUnreached(list) {
  const at = list.findIndex(isTerminated);
  if (at < 0 || at === list.length - 1) return [];
  const rest = list.slice(at + 1);
  const going = dropped(rest);
  const names = new Map(going.flatMap(vars).map((name) => [name.symbol, name]));
  const needed = [...names.values()].filter(({ symbol }) => !symbol.isUnused || symbol.isShared);
  const declarations = needed.map((id) => ({ type: "VariableDeclarator", id, init: null }));
  const stub = declarations.length > 0
    ? [{ type: "VariableDeclaration", kind: "var", declarations }]
    : [];
  return [[...list.slice(0, at + 1), ...rest.filter((node) => !going.includes(node)), ...stub]];
}

// 78: a jump at the end to where the end goes anyway.
function dropLastJump(list, { place }) {
  return list.length > 0 && isIdleJump(list.at(-1), place) ? [list.slice(0, -1)] : [];
}

// Whether a `break` of the `switch` itself stands in a statement.
function hasBreak(node) {
  if (!isNode(node) || isFunction(node)) return false;
  if (node.type === "BreakStatement") return !node.label;
  if (/^(Switch|While|DoWhile|For|ForIn|ForOf)Statement$/.test(node.type)) return false;
  const below = Object.entries(node).filter(([field]) => field !== "inBody");
  return below.flatMap(([, part]) => part).some(hasBreak);
}

// 80: a `switch` of one case is an `if`.
function inlineCase(node) {
  if (node.type !== "SwitchStatement" || node.cases.length !== 1) return [];
  const [{ test, consequent }] = node.cases;
  if ((test && !isPlain(test)) || consequent.some(hasBreak)) return [];
  if (test) return [[ifStatement(binary("===", node.discriminant, test), block(consequent))]];
  return [[statement(sequence(node.discriminant)), block(consequent)]];
}

const LISTS = [
  [73, joinJumps], [74, ofNeighbours(joinGuards)], [75, takeRest], [76, ofEach(dropElse)],
  [77, (list) => dropUnreached(list)], [78, dropLastJump], [80, ofEach(inlineCase)],
];

module.exports = { LISTS, vars };
