// Rewrites 66 to 72 and 79 in a list of statements. Each is a function of the list and of where it
// stands that gives the lists that would be written.
"use strict";
const { isExpressionStatement, isName, sequence, statement } = require("./nodes.js");
const { isFree, isPlain } = require("./terms.js");
const {
  firstExpressions, headOf, isBareHead, isDeclaration, isLexicalHead, isScoped, isSetName, isVar,
  partAt, replaced,
} = require("./statements.js");

// The list with statements in place of some.
const spliced = (list, at, count, ...nodes) => list.toSpliced(at, count, ...nodes);

// What a function makes of each two neighbours.
const ofNeighbours = (make) => (list) =>
  list.slice(0, -1).flatMap((first, at) => {
    const found = make(first, list[at + 1]);
    return found ? [spliced(list, at, 2, ...found)] : [];
  });

// What a function makes of each statement.
const ofEach = (make) => (list, where) =>
  list.flatMap((node, at) => make(node, where, at).map((nodes) => spliced(list, at, 1, ...nodes)));

// 66: empty statements go.
function dropEmpty(list) {
  const kept = list.filter((node) => node.type !== "EmptyStatement");
  return kept.length < list.length ? [kept] : [];
}

// 66: neighbouring expression statements become one.
function joinExpressions(first, second) {
  if (!isExpressionStatement(first) || !isExpressionStatement(second)) return null;
  return [statement(sequence(first.expression, second.expression))];
}

// 67: an expression statement goes into the next statement.
function joinHead(first, second) {
  if (!isExpressionStatement(first)) return null;
  const field = headOf(second);
  if (field) return [{ ...second, [field]: sequence(first.expression, second[field]) }];
  return second.type === "ForStatement" && !second.init
    ? [{ ...second, init: first.expression }]
    : null;
}

// 68: neighbouring declarations of one kind become one.
function joinDeclarations(first, second) {
  if (!isDeclaration(first)) return null;
  if (isDeclaration(second) && first.kind === second.kind) return [joined(first, second)];
  if (!isVar(first) || second.type !== "ForStatement") return null;
  if (!second.init) return [{ ...second, init: first }];
  return isVar(second.init) ? [{ ...second, init: joined(first, second.init) }] : null;
}

const joined = (first, second) =>
  ({ ...first, declarations: [...first.declarations, ...second.declarations] });

// 69: a `var` goes into the head of the loop that writes it.
function declareInHead(first, second) {
  if (!isVar(first) || first.declarations.length !== 1
    || !/^For(In|Of)Statement$/.test(second.type)) {
    return null;
  }
  const [{ id, init }] = first.declarations;
  const isOne = !init && isName(id) && isName(second.left) && second.left.symbol === id.symbol;
  return isOne ? [{ ...second, left: first }] : null;
}

// ---- 70

// Whether the first expression of a statement may lose an assignment that leads it.
function losesLeading(node) {
  if (node.type === "ForOfStatement") return isBareHead(node.left);
  if (node.type === "ForInStatement") return headOf(node) !== null;
  return !isLexicalHead(node);
}

// The statement without the assignment that its first expression is or begins with, and that
// assignment.
function withoutLeading(node) {
  const [path] = losesLeading(node) ? firstExpressions(node) : [];
  const whole = path && partAt(node, path);
  if (!whole) return null;
  if (isSetName(whole)) return withoutWhole(node, whole);
  if (whole.type !== "SequenceExpression" || !isSetName(whole.expressions[0])) return null;
  const [first, ...others] = whole.expressions;
  return { first, rest: [replaced(node, path, sequence(...others))] };
}

function withoutWhole(node, first) {
  if (isExpressionStatement(node)) return { first, rest: [] };
  return node.type === "ForStatement" && node.init === first
    ? { first, rest: [{ ...node, init: null }] }
    : null;
}

// 70: a declaration takes the value that is assigned next.
function initialise(first, second) {
  if (!isDeclaration(first) || first.kind === "const") return null;
  const found = withoutLeading(second);
  const at = found
    ? first.declarations.findLastIndex((part) => isName(part.id)
      && part.id.symbol === found.first.left.symbol)
    : -1;
  if (at < 0 || first.declarations.slice(at).some((part) => part.init)) return null;
  const isLast = at === first.declarations.length - 1;
  if (first.kind === "let" && !(isLast && isPlain(found.first.right))) return null;
  return [replaced(first, ["declarations", at, "init"], found.first.right), ...found.rest];
}

// ---- 72

// Whether a declarator may go.
function isRemovable(part) {
  if (!isName(part.id)) return false;
  const { symbol } = part.id;
  return symbol.isUnused && !symbol.isExported && !symbol.isShared && !symbol.isTop
    && !symbol.isInEvalsReach;
}

const declaring = (node, declarations) =>
  (declarations.length > 0 ? [{ ...node, declarations }] : []);

// 72: a declarator that nothing reads goes; an initializer with effects stays.
function dropDeclarators(node) {
  if (!isDeclaration(node)) return [];
  return node.declarations.flatMap((part, at) => {
    if (!isRemovable(part)) return [];
    const [before, after] = [node.declarations.slice(0, at), node.declarations.slice(at + 1)];
    if (!part.init || isFree(part.init)) return [declaring(node, [...before, ...after])];
    return [[...declaring(node, before), statement(part.init), ...declaring(node, after)]];
  });
}

// 72: in the head of a `for` one without effects goes.
function dropHeadDeclarators(node) {
  if (node.type !== "ForStatement" || !isDeclaration(node.init)) return [];
  return node.init.declarations.flatMap((part, at) => {
    if (!isRemovable(part) || (part.init && !isFree(part.init))) return [];
    const [init = null] = declaring(node.init, node.init.declarations.toSpliced(at, 1));
    return [{ ...node, init }];
  });
}

// 79: a block that declares nothing is spread.
function spread(node) {
  return node.type === "BlockStatement" && !node.body.some(isScoped) ? [node.body] : [];
}

const LISTS = [
  [66, (list) => dropEmpty(list)], [66, ofNeighbours(joinExpressions)],
  [67, ofNeighbours(joinHead)], [68, ofNeighbours(joinDeclarations)],
  [69, ofNeighbours(declareInHead)], [70, ofNeighbours(initialise)], [72, ofEach(dropDeclarators)],
  [79, ofEach(spread)],
];
const STATEMENTS = [[72, dropHeadDeclarators]];

module.exports = { LISTS, STATEMENTS, ofEach, ofNeighbours, spliced };
