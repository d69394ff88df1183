// Shapes of statements that the rows on lists and branches share.
"use strict";
const { isExpressionStatement, isName, isNode, isPlainAssignment } = require("./nodes.js");
const { isFree, namesVariable, truth } = require("./terms.js");

const isDeclaration = (node) => isNode(node) && node.type === "VariableDeclaration";
const isVar = (node) => isDeclaration(node) && node.kind === "var";
const isLexical = (node) => isDeclaration(node) && node.kind !== "var";

// Whether a statement declares something in the list in which it stands, `var`s aside.
function isScoped(node) {
  if (node.type === "LabeledStatement") return isScoped(node.body);
  return isLexical(node) || /^(Class|Function|Import|Export)\w*Declaration$/.test(node.type);
}

const JUMPS = ["ReturnStatement", "ThrowStatement", "BreakStatement", "ContinueStatement"];
const isIdleTail = (node) =>
  node.type === "FunctionDeclaration"
    || (isVar(node) && node.declarations.every((part) => !part.init));

// Whether a statement never completes normally, as far as its form tells.
function isTerminated(node) {
  if (!node) return false;
  if (JUMPS.includes(node.type)) return true;
  if (node.type === "BlockStatement") return isTerminatedList(node.body);
  if (node.type === "IfStatement") {
    return isTerminated(node.consequent) && isTerminated(node.alternate);
  }
  if (node.type !== "TryStatement") return false;
  return isTerminated(node.finalizer)
    || (isTerminated(node.block) && isTerminated(node.handler?.body));
}

const isTerminatedList = (list) => isTerminated(list.filter((node) => !isIdleTail(node)).at(-1));

// ---- the ends of lists

// Where a list stands: "function", "loop" or "do" (a `do` that runs once) where its end is that of
// the body of one.
function placeOf(owner, { parent, field }) {
  if (field !== "body" || !parent) return "other";
  if (/Function/.test(parent.type)) return "function";
  if (parent.type === "DoWhileStatement" && isOnce(parent.test)) return "do";
  return /^(While|DoWhile|For|ForIn|ForOf)Statement$/.test(parent.type) ? "loop" : "other";
}

const isOnce = (test) => isFree(test) && !namesVariable(test) && truth(test) === false;

// Whether a jump at the end of such a list goes where the end goes.
function isIdleJump(node, place) {
  if (node.label || node.argument) return false;
  if (node.type === "ContinueStatement") return place === "loop" || place === "do";
  if (node.type === "ReturnStatement") return place === "function";
  return node.type === "BreakStatement" && place === "do";
}

// ---- heads: the expression that a statement evaluates first

const HEADS = {
  ReturnStatement: "argument", ThrowStatement: "argument", IfStatement: "test",
  SwitchStatement: "discriminant",
};

const isBareHead = (left) => !isLexical(left) && !(isVar(left) && left.declarations[0].init);

// The field with the head of a statement, or null.
function headOf(node) {
  if (HEADS[node.type]) return node[HEADS[node.type]] ? HEADS[node.type] : null;
  if (node.type === "ForStatement") return node.init && !isDeclaration(node.init) ? "init" : null;
  return node.type === "ForInStatement" && isBareHead(node.left) ? "right" : null;
}

// The first initializer of a declaration, of an exported one, or of the declaration that begins a
// `for`: the path to it, or null.
function initializerOf(node) {
  if (isDeclaration(node)) return node.declarations[0].init ? [] : null;
  const field = { ForStatement: "init", ExportNamedDeclaration: "declaration" }[node.type];
  return field && isDeclaration(node[field]) && node[field].declarations[0].init ? [field] : null;
}

// A node with another one at the end of a path.
function replaced(node, [field, ...path], part) {
  if (Array.isArray(node)) {
    return node.with(field, path.length ? replaced(node[field], path, part) : part);
  }
  return { ...node, [field]: path.length ? replaced(node[field], path, part) : part };
}

const partAt = (node, path) => path.reduce((at, field) => at[field], node);

// The paths to the expressions of a statement that are evaluated before all else in it: its head,
// its first initializer, the right side of a `for..of`.
function firstExpressions(node) {
  if (isExpressionStatement(node)) return [["expression"]];
  const head = headOf(node);
  if (head) return [[head]];
  const initial = initializerOf(node);
  if (initial) return [[...initial, "declarations", 0, "init"]];
  const isPlainIn = node.type === "ForInStatement"
    && !(isDeclaration(node.left) && node.left.declarations[0].init);
  return node.type === "ForOfStatement" || isPlainIn ? [["right"]] : [];
}

// Whether the first expression of a statement stands in the head of a loop that declares names.
function isLexicalHead(node) {
  return /^For/.test(node.type) && isLexical(node.init ?? node.left ?? null);
}

// The assignment of a value to a name that an expression is.
const isSetName = (node) => isPlainAssignment(node) && isName(node.left);

module.exports = {
  firstExpressions, headOf, isDeclaration, isIdleJump, isLexical, isLexicalHead, isScoped,
  isSetName, isTerminated, isVar, isBareHead, partAt, placeOf, replaced,
};
