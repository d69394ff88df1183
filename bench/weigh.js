// What a program of ESTree weighs, written apart from the program, by the rules of
// crates/mini_model/specs/Weight.antt.
"use strict";
const { FIELDS, scopes } = require("./estree.js");

const SPELLED = { undefined: 18, Infinity: 16, NaN: 6 };
const LEVELS = [["|"], ["^"], ["&"], ["==", "!=", "===", "!=="], ["<", "<=", ">", ">=", "in", "instanceof"], ["<<", ">>", ">>>"], ["+", "-"], ["*", "/", "%"], ["**"]];
const BINARY_LEVEL = new Map(LEVELS.flatMap((operators, at) => operators.map((operator) => [operator, at + 5])));
const EQUALITIES = LEVELS[3];
const [ASSIGNMENT, CONDITIONAL, UNARY, UPDATE, PRIMARY] = [1, 2, 14, 15, 16];

// ---- places

const expr = (level, marks = {}) => ({ is: "expression", level, ...marks });
const stmt = (seat) => ({ is: "statement", seat });
const ELSEWHERE = { is: "elsewhere" };
const TARGET = { is: "target" };
const METHOD = { is: "method" };
const WHOLE = expr(0);
const ARGUMENT = expr(ASSIGNMENT);
const OBJECT = expr(PRIMARY, { access: true });
const LIST = stmt("list");
const BODY = stmt("body");

// ---- small facts

const isNumber = (node, test) => node.type === "Literal" && typeof node.value === "number" && test(node.value);
const isNegative = (node) => node.type === "UnaryExpression" && node.operator === "-" && isNumber(node.argument, (n) => n > 0);
const isVoidZero = (node) => node.type === "UnaryExpression" && node.operator === "void" && isNumber(node.argument, (n) => n === 0);
const isSuper = (node) => node.type === "Super";
const isPrivate = (node) => node.type === "PrivateIdentifier";
const isIfElse = (node) => node.type === "IfStatement" && Boolean(node.alternate);

function isPlain(node) {
  if (node.type === "Literal") return !node.regex;
  return isNegative(node) || isVoidZero(node) || (node.type === "TemplateLiteral" && node.expressions.length === 0);
}

function level(node) {
  switch (node.type) {
    case "SequenceExpression":
      return 0;
    case "AssignmentExpression":
    case "ArrowFunctionExpression":
    case "YieldExpression":
      return ASSIGNMENT;
    case "ConditionalExpression":
      return CONDITIONAL;
    case "LogicalExpression":
      return node.operator === "&&" ? 4 : 3;
    case "BinaryExpression":
      return BINARY_LEVEL.get(node.operator);
    case "UnaryExpression":
      return UNARY;
    case "UpdateExpression":
      return UPDATE;
    default:
      return PRIMARY;
  }
}

const isAndOr = (operator) => operator !== "??";
const mixes = (node, mix) => node.type === "LogicalExpression" && mix !== undefined && isAndOr(node.operator) !== isAndOr(mix);

function isParenthesized(node, place) {
  if (level(node) < place.level || mixes(node, place.mix)) return true;
  return (place.access && node.type === "ChainExpression") || (place.newCallee && node.type === "CallExpression" && !isSuper(node.callee));
}

function isAwkward(node, place) {
  if (place.eqLeft && isPlain(node)) return true;
  if (place.condTest && node.type === "BinaryExpression" && /^!=/.test(node.operator)) return true;
  return Boolean(place.lifted) && node.type === "SequenceExpression";
}

// What the place adds.
function placed(node, place) {
  if (place.is === "expression") return (isParenthesized(node, place) ? 4 : 0) + (isAwkward(node, place) ? 1 : 0);
  return place.is === "statement" && place.seat === "consequent" && isIfElse(node) ? 1 : 0;
}

const commas = (list) => 2 * Math.max(0, list.length - 1);
const quoted = (text) => 2 * text.length + 4;
const directives = (body) => body.filter((part) => typeof part.directive === "string");
const directivesWeight = (body) => directives(body).reduce((sum, part) => sum + 2 * part.directive.length + 6, 0);

function operatorWeight(operator) {
  return { "^": 4, "^=": 6, instanceof: 20 }[operator] || 2 * operator.length;
}

function literalWeight(node) {
  if (node.regex) return 2 * (node.regex.pattern.length + node.regex.flags.length) + 4;
  if (node.bigint) return 2 * String(BigInt(node.bigint)).length + 2;
  if (node.value === null) return 8;
  if (typeof node.value === "boolean") return 10;
  return typeof node.value === "string" ? quoted(node.value) : 2 * String(node.value).length;
}

// ---- the weights of nodes: what each writes itself, and its children in their places

class Weigher {
  // The names of the global object that a scope declares.
  constructor(declared = new Set()) {
    this.declared = declared;
  }

  weight(node, place) {
    if (!node) return 0;
    return placed(node, place) + this[node.type](node, place);
  }

  all(list, place) {
    return list.reduce((sum, node) => sum + this.weight(node, place), 0);
  }

  // A list with commas.
  parts(list, place) {
    return commas(list) + this.all(list, place);
  }

  statements(list) {
    return this.all(list.filter((part) => typeof part.directive !== "string"), LIST);
  }

  // What a function gives, inside the scopes that a node opens before a field.
  inside(node, field, give, isBody = false) {
    const opened = scopes(node, isBody);
    const names = Object.keys(opened).filter((key) => FIELDS[node.type].indexOf(key) <= FIELDS[node.type].indexOf(field)).flatMap((key) => opened[key]);
    return give(new Weigher(new Set([...this.declared, ...names])));
  }

  key(node, computed) {
    if (computed) return this.weight(node, ARGUMENT);
    if (node.type === "Literal") return literalWeight(node);
    return isPrivate(node) ? 4 : 2;
  }

  Program(node) {
    return directivesWeight(node.body) + this.inside(node, "body", (within) => within.statements(node.body));
  }

  // -- statements

  ExpressionStatement(node) {
    return 4 + this.weight(node.expression, WHOLE);
  }

  EmptyStatement() {
    return 2;
  }

  DebuggerStatement() {
    return 18;
  }

  BlockStatement(node, place) {
    const isBare = place.seat === "consequent" && node.body.length === 1 && isIfElse(node.body[0]);
    return (isBare ? 0 : 4) + this.inside(node, "body", (within) => within.all(node.body, LIST));
  }

  LabeledStatement(node) {
    return 4 + this.weight(node.body, BODY);
  }

  BreakStatement(node) {
    return 16 + (node.label ? 2 : 0);
  }

  ContinueStatement(node) {
    return this.BreakStatement(node);
  }

  ReturnStatement(node) {
    return 16 + this.weight(node.argument, WHOLE);
  }

  ThrowStatement(node) {
    return this.ReturnStatement(node);
  }

  IfStatement(node) {
    const own = 14 + (node.alternate ? 10 : 0);
    return own + this.weight(node.test, WHOLE) + this.weight(node.consequent, stmt("consequent")) + this.weight(node.alternate, BODY);
  }

  SwitchStatement(node) {
    return 20 + this.weight(node.discriminant, WHOLE) + this.inside(node, "cases", (within) => within.all(node.cases, ELSEWHERE));
  }

  SwitchCase(node) {
    return (node.test ? 12 : 16) + this.weight(node.test, WHOLE) + this.all(node.consequent, LIST);
  }

  TryStatement(node) {
    return 12 + (node.finalizer ? 16 : 0) + this.all([node.block, node.handler, node.finalizer], ELSEWHERE);
  }

  CatchClause(node) {
    return 12 + (node.param ? 4 : 0) + this.inside(node, "body", (within) => within.all([node.param, node.body], ELSEWHERE));
  }

  WhileStatement(node) {
    return 14 + this.weight(node.test, WHOLE) + this.weight(node.body, BODY);
  }

  DoWhileStatement(node) {
    return 22 + this.weight(node.test, WHOLE) + this.weight(node.body, BODY);
  }

  ForStatement(node) {
    return 14 + this.inside(node, "body", (within) => within.all([node.init, node.test, node.update], WHOLE) + within.weight(node.body, BODY));
  }

  ForInStatement(node) {
    const right = node.type === "ForInStatement" ? WHOLE : ARGUMENT;
    return 16 + this.inside(node, "body", (within) => within.weight(node.left, TARGET) + within.weight(node.right, right) + within.weight(node.body, BODY));
  }

  ForOfStatement(node) {
    return this.ForInStatement(node);
  }

  VariableDeclaration(node, place) {
    const end = ["expression", "target"].includes(place.is) ? 0 : 2;
    return (node.kind === "const" ? 12 : 8) + end + this.parts(node.declarations, ELSEWHERE);
  }

  VariableDeclarator(node) {
    return (node.init ? 2 : 0) + this.weight(node.id, ELSEWHERE) + this.weight(node.init, ARGUMENT);
  }

  // -- functions and classes

  body(node) {
    if (node.type !== "BlockStatement") return this.weight(node, ARGUMENT);
    return 4 + directivesWeight(node.body) + this.statements(node.body);
  }

  functionParts(node) {
    const params = this.inside(node, "params", (within) => within.parts(node.params, ELSEWHERE));
    return params + this.inside(node, "body", (within) => within.body(node.body));
  }

  FunctionExpression(node, place) {
    return (place === METHOD ? 4 : 20) + (node.generator ? 2 : 0) + (node.id ? 2 : 0) + this.functionParts(node);
  }

  FunctionDeclaration(node, place) {
    return this.FunctionExpression(node, place);
  }

  ArrowFunctionExpression(node) {
    return 8 + this.functionParts(node);
  }

  ClassExpression(node) {
    const parts = (within) => within.weight(node.superClass, expr(PRIMARY)) + within.all(node.body.body, ELSEWHERE);
    return 16 + (node.superClass ? 16 : 0) + (node.id ? 2 : 0) + this.inside(node, "superClass", parts);
  }

  ClassDeclaration(node) {
    return this.ClassExpression(node);
  }

  member(node) {
    return (node.computed ? 4 : 0) + (node.static ? 14 : 0) + this.key(node.key, node.computed);
  }

  MethodDefinition(node) {
    return (/^[gs]et$/.test(node.kind) ? 8 : 0) + this.member(node) + this.weight(node.value, METHOD);
  }

  PropertyDefinition(node) {
    return (node.value ? 2 : 0) + this.member(node) + this.weight(node.value, ARGUMENT);
  }

  StaticBlock(node) {
    return 18 + this.inside(node, "body", (within) => within.all(node.body, LIST));
  }

  // -- modules

  ImportDeclaration(node) {
    return 20 + this.parts(node.specifiers, ELSEWHERE) + literalWeight(node.source);
  }

  ImportSpecifier(node) {
    return 6 + this.key(node.imported, false);
  }

  ImportDefaultSpecifier() {
    return 6;
  }

  ImportNamespaceSpecifier() {
    return 6;
  }

  ExportNamedDeclaration(node) {
    const source = node.source ? literalWeight(node.source) : 0;
    const names = node.source ? new Weigher(new Set(Object.keys(SPELLED))) : this;
    return 14 + this.weight(node.declaration, ELSEWHERE) + names.parts(node.specifiers, ELSEWHERE) + source;
  }

  ExportSpecifier(node) {
    return 4 + this.key(node.exported, false) + this.weight(node.local, ELSEWHERE);
  }

  ExportDefaultDeclaration(node) {
    return 30 + this.weight(node.declaration, ARGUMENT);
  }

  ExportAllDeclaration(node) {
    return 14 + (node.exported ? this.key(node.exported, false) : 0) + literalWeight(node.source);
  }

  // -- names and literals

  Identifier(node) {
    return this.declared.has(node.name) ? 2 : Object.hasOwn(SPELLED, node.name) ? SPELLED[node.name] : 2;
  }

  Literal(node) {
    return literalWeight(node);
  }

  // -- expressions

  ThisExpression() {
    return 8;
  }

  Super() {
    return 10;
  }

  ArrayExpression(node) {
    return 4 + this.parts(node.elements, ARGUMENT);
  }

  ObjectExpression(node) {
    return 4 + this.parts(node.properties, ELSEWHERE);
  }

  Property(node) {
    if (node.shorthand) return this.weight(node.value, ARGUMENT);
    const isAccessor = node.kind !== "init";
    const own = (isAccessor ? 8 : node.method ? 0 : 2) + (node.computed ? 4 : 0);
    return own + this.key(node.key, node.computed) + this.weight(node.value, isAccessor || node.method ? METHOD : this.valuePlace(node.value));
  }

  // The value of a property: a pattern is a target.
  valuePlace(value) {
    return /Pattern$/.test(value.type) ? TARGET : ARGUMENT;
  }

  SpreadElement(node) {
    return 6 + this.weight(node.argument, ARGUMENT);
  }

  UnaryExpression(node) {
    if (isNegative(node)) return 2 + literalWeight(node.argument);
    const own = { typeof: 10, void: 10, delete: 14 }[node.operator] || 2;
    return own + this.weight(node.argument, expr(UNARY, { lifted: own === 2 }));
  }

  UpdateExpression(node) {
    return 4 + this.weight(node.argument, TARGET);
  }

  BinaryExpression(node) {
    const own = BINARY_LEVEL.get(node.operator);
    const power = node.operator === "**";
    const left = expr(power ? UPDATE : own, { lifted: true, eqLeft: EQUALITIES.includes(node.operator) });
    const first = isPrivate(node.left) ? 4 : this.weight(node.left, left);
    return operatorWeight(node.operator) + first + this.weight(node.right, expr(power ? own : own + 1));
  }

  LogicalExpression(node) {
    const own = level(node);
    const left = this.weight(node.left, expr(own, { lifted: true, mix: node.operator }));
    return 4 + left + this.weight(node.right, expr(own + 1, { mix: node.operator }));
  }

  AssignmentExpression(node) {
    return operatorWeight(node.operator) + this.weight(node.left, TARGET) + this.weight(node.right, ARGUMENT);
  }

  ConditionalExpression(node) {
    const test = expr(3, { lifted: true, condTest: true });
    return 4 + this.weight(node.test, test) + this.all([node.consequent, node.alternate], ARGUMENT);
  }

  SequenceExpression(node) {
    return this.parts(node.expressions, ARGUMENT);
  }

  CallExpression(node) {
    return 4 + (node.optional ? 4 : 0) + this.weight(node.callee, OBJECT) + this.parts(node.arguments, ARGUMENT);
  }

  NewExpression(node) {
    return 12 + this.weight(node.callee, expr(PRIMARY, { access: true, newCallee: true })) + this.parts(node.arguments, ARGUMENT);
  }

  MemberExpression(node) {
    const own = (node.computed ? 4 : 2) * (node.optional ? 2 : 1);
    return own + this.weight(node.object, OBJECT) + (node.computed ? this.weight(node.property, WHOLE) : this.key(node.property, false));
  }

  ChainExpression(node) {
    return this.weight(node.expression, WHOLE);
  }

  YieldExpression(node) {
    return 10 + (node.delegate ? 2 : 0) + this.weight(node.argument, expr(ASSIGNMENT, { lifted: true }));
  }

  TemplateLiteral(node) {
    const count = node.expressions.length;
    return 4 + 6 * count + (count === 0 ? 1 : 0) + this.all(node.quasis, ELSEWHERE) + this.all(node.expressions, WHOLE);
  }

  TemplateElement(node) {
    return 2 * node.value.raw.length;
  }

  TaggedTemplateExpression(node) {
    return this.weight(node.tag, OBJECT) + this.weight(node.quasi, ELSEWHERE);
  }

  MetaProperty() {
    return 20;
  }

  ImportExpression(node) {
    return 16 + this.weight(node.source, ARGUMENT);
  }

  // -- patterns

  ObjectPattern(node) {
    return 4 + this.parts(node.properties, ELSEWHERE);
  }

  ArrayPattern(node) {
    return 4 + this.parts(node.elements, ELSEWHERE);
  }

  RestElement(node) {
    return 6 + this.weight(node.argument, TARGET);
  }

  AssignmentPattern(node) {
    return 2 + this.weight(node.left, TARGET) + this.weight(node.right, ARGUMENT);
  }
}

// What a program weighs.
const weigh = (program) => new Weigher().weight(program, ELSEWHERE);

// What an expression weighs as the test of an `if`, and a statement in a list, as a body and as a
// consequent.
const weighTest = (expression) => new Weigher().weight(expression, WHOLE);
const weighStatement = (statement) => ["list", "body", "consequent"].map((seat) => new Weigher().weight(statement, stmt(seat)));

// What the detector of rewrites needs: the weigher itself, and the places.
const SEATS = {
  elsewhere: ELSEWHERE,
  target: TARGET,
  method: METHOD,
  object: OBJECT,
  list: LIST,
  body: BODY,
  consequent: stmt("consequent"),
  levels: BINARY_LEVEL,
};

module.exports = { SEATS, Weigher, expr, stmt, weigh, weighTest, weighStatement };
