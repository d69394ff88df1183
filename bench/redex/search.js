// Looks for rewrites that are left in a program: every row at every node, expression, statement and
// list.
"use strict";
const { isOf, text } = require("../estree.js");
const branches = require("./branches.js");
const conditionals = require("./conditionals.js");
const fold = require("./fold.js");
const jumps = require("./jumps.js");
const lists = require("./lists.js");
const logic = require("./logic.js");
const single = require("./single-use.js");
const syntax = require("./syntax.js");
const { resolve } = require("./names.js");
const { isNegative, isPositive, oneOf } = require("./nodes.js");
const { eachPart, guarded, weightOf, weightOfList } = require("./seats.js");
const { placeOf } = require("./statements.js");

const EXPRESSIONS = [
  ...fold.EXPRESSIONS, ...logic.EXPRESSIONS, ...conditionals.EXPRESSIONS, ...syntax.EXPRESSIONS,
];
const STATEMENTS = [
  ...fold.STATEMENTS, ...lists.STATEMENTS, ...branches.STATEMENTS, ...syntax.OTHERS,
  ...single.DECLARATIONS,
];
const LISTS = [...lists.LISTS, ...single.LISTS, ...jumps.LISTS];

const LISTED = {
  Program: "body", BlockStatement: "body", SwitchCase: "consequent", StaticBlock: "body",
};
const asList = (found) => (Array.isArray(found) ? found : found ? [found] : []);
const isDirective = (node) => typeof node.directive === "string";

// What a row gives of an expression, where it is lighter in its seat.
function* ofExpression(node, seat, up) {
  for (const [row, give] of EXPRESSIONS) {
    for (const made of asList(give(node, seat, up))) {
      const written = guarded(made, node, seat);
      if (seat.minus && isPositive(written)) continue;
      if (weightOf(written, seat) < weightOf(node, seat)) yield { row, written };
    }
  }
}

// The same of a statement, or of a part that is neither.
function* ofStatement(node, seat, up) {
  for (const [row, give] of STATEMENTS) {
    for (const written of asList(give(node, seat, up))) {
      if (weightOf(written, seat) < weightOf(node, seat)) yield { row, written };
    }
  }
}

// The same of the list of statements that a node holds.
function* ofList(node, up) {
  const list = node[LISTED[node.type]].filter((each) => !isDirective(each));
  const where = { place: placeOf(node, up) };
  for (const [row, give] of LISTS) {
    for (const written of give(list, where)) {
      if (weightOfList(written) < weightOfList(list)) yield { row, written, list };
    }
  }
}

// Rows on lists that read a statement alone, too, as a body or branch.
const ALONE = [72, 75, 78, 80];

// The same of a statement that is a body or branch, as a list of its own.
function* ofBody(node, seat, up) {
  const where = { place: placeOf(node, up) };
  for (const [row, give] of LISTS.filter(([row]) => ALONE.includes(row))) {
    for (const list of give([node], where)) {
      const written = list.length === 0 ? { type: "EmptyStatement" } : oneOf(list);
      if (weightOf(written, seat) < weightOf(node, seat)) yield { row, written };
    }
  }
}

// Of a target, a key or a directive no row speaks.
const isExpressionSeat = (seat) => seat.is === "expression";

function* found(node, seat, up) {
  if (isOf(Object.keys(LISTED), node)) yield* ofList(node, up);
  else if (["body", "consequent"].includes(seat.seat)) yield* ofBody(node, seat, up);
  if (node.type === "ExpressionStatement" && isDirective(node)) return;
  if (isExpressionSeat(seat) && !/^VariableDecl/.test(node.type)) {
    yield* ofExpression(node, seat, up);
  }
  else yield* ofStatement(node, seat, up);
}

// Whether no row reads a node: a directive's text, the number of a negative literal.
const isUnread = (node, { parent }) =>
  Boolean(parent) && (isNegative(parent) || isDirective(parent));

// All rewrites that are left in a program: row, pointer, the node, and what would be written.
function search(program) {
  const tree = JSON.parse(text(program));
  resolve(tree);
  const told = [];
  eachPart(tree, { is: "elsewhere" }, { pointer: "" }, (node, seat, up) => {
    if (isUnread(node, up)) return;
    for (const each of found(node, seat, up)) {
      told.push({ ...each, node, seat, up, pointer: up.pointer });
    }
  });
  return told;
}

module.exports = { search };
