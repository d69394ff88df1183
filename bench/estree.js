// What the scripts beside this one need of ESTree, written apart from the program: how code is
// parsed, what the program writes for it, and how many nodes and names of it have a number. Run
// with `node --expose-internals`: the parser is the acorn inside node.
"use strict";
const acorn = require("internal/deps/acorn/acorn/dist/acorn");

// The fields of each type of node, its children in order. What stands first is written and holds no
// node.
const FIELDS = {
  Program: ["sourceType", "body"],
  ExpressionStatement: ["expression"],
  EmptyStatement: [],
  DebuggerStatement: [],
  BlockStatement: ["body"],
  LabeledStatement: ["label", "body"],
  BreakStatement: ["label"],
  ContinueStatement: ["label"],
  ReturnStatement: ["argument"],
  ThrowStatement: ["argument"],
  IfStatement: ["test", "consequent", "alternate"],
  SwitchStatement: ["discriminant", "cases"],
  SwitchCase: ["test", "consequent"],
  TryStatement: ["block", "handler", "finalizer"],
  CatchClause: ["param", "body"],
  WhileStatement: ["test", "body"],
  DoWhileStatement: ["body", "test"],
  ForStatement: ["init", "test", "update", "body"],
  ForInStatement: ["left", "right", "body"],
  ForOfStatement: ["await", "left", "right", "body"],
  VariableDeclaration: ["kind", "declarations"],
  VariableDeclarator: ["id", "init"],
  FunctionDeclaration: ["generator", "async", "id", "params", "body"],
  FunctionExpression: ["generator", "async", "id", "params", "body"],
  ArrowFunctionExpression: ["expression", "async", "params", "body"],
  ClassDeclaration: ["id", "superClass", "body"],
  ClassExpression: ["id", "superClass", "body"],
  ClassBody: ["body"],
  MethodDefinition: ["kind", "computed", "static", "key", "value"],
  PropertyDefinition: ["computed", "static", "key", "value"],
  StaticBlock: ["body"],
  ImportDeclaration: ["specifiers", "source", "attributes"],
  ImportSpecifier: ["imported", "local"],
  ImportDefaultSpecifier: ["local"],
  ImportNamespaceSpecifier: ["local"],
  ExportNamedDeclaration: ["declaration", "specifiers", "source", "attributes"],
  ExportSpecifier: ["exported", "local"],
  ExportDefaultDeclaration: ["declaration"],
  ExportAllDeclaration: ["exported", "source", "attributes"],
  Identifier: ["name"],
  PrivateIdentifier: ["name"],
  ThisExpression: [],
  Super: [],
  ArrayExpression: ["elements"],
  ObjectExpression: ["properties"],
  Property: ["kind", "method", "shorthand", "computed", "key", "value"],
  SpreadElement: ["argument"],
  UnaryExpression: ["operator", "prefix", "argument"],
  UpdateExpression: ["operator", "prefix", "argument"],
  BinaryExpression: ["operator", "left", "right"],
  LogicalExpression: ["operator", "left", "right"],
  AssignmentExpression: ["operator", "left", "right"],
  ConditionalExpression: ["test", "consequent", "alternate"],
  SequenceExpression: ["expressions"],
  CallExpression: ["optional", "callee", "arguments"],
  NewExpression: ["callee", "arguments"],
  MemberExpression: ["computed", "optional", "object", "property"],
  ChainExpression: ["expression"],
  YieldExpression: ["delegate", "argument"],
  TemplateLiteral: ["quasis", "expressions"],
  TemplateElement: ["tail", "value"],
  TaggedTemplateExpression: ["tag", "quasi"],
  MetaProperty: ["meta", "property"],
  ImportExpression: ["source"],
  ObjectPattern: ["properties"],
  ArrayPattern: ["elements"],
  RestElement: ["argument"],
  AssignmentPattern: ["left", "right"],
};

const FUNCTIONS = ["FunctionDeclaration", "FunctionExpression", "ArrowFunctionExpression"];
const CLASSES = ["ClassDeclaration", "ClassExpression"];
const LOOPS = ["ForStatement", "ForInStatement", "ForOfStatement"];

const isNode = (value) => value !== null && typeof value === "object" && typeof value.type === "string";
const isOf = (types, node) => node !== null && types.includes(node.type);

const BIND_VAR = 1;
const SCOPE_CLASS_STATIC_BLOCK = 256;
const EARLY_NAME = /has already been declared$/;
const EARLY_JUMP = /^(Unsyntactic|Label |'return' outside)/;

// A parser that lets early errors through, and takes `yield` for an expression everywhere. It notes
// where names are declared twice and where jumps have no target.
class LenientParser extends acorn.Parser {
  names = [];
  jumps = [];

  get inGenerator() {
    return true;
  }

  // Functions are like `var` directly in a static block too (ECMA-262,
  // ClassStaticBlockStatementList, "Static Semantics: LexicallyDeclaredNames").
  treatFunctionsAsVarInScope(scope) {
    return super.treatFunctionsAsVarInScope(scope) || (scope.flags & SCOPE_CLASS_STATIC_BLOCK) !== 0;
  }

  // A `var` that clashes in an inner scope is one of those around it as well.
  declareName(name, binding, at) {
    super.declareName(name, binding, at);
    if (binding !== BIND_VAR) return;
    for (const scope of this.scopeStack.slice(this.scopeStack.indexOf(this.currentVarScope()))) {
      if (!scope.var.includes(name)) scope.var.push(name);
    }
  }

  raise(at, message) {
    if (!EARLY_JUMP.test(message)) super.raise(at, message);
    this.jumps.push(at);
  }

  raiseRecoverable(at, message) {
    if (EARLY_NAME.test(message)) this.names.push(at);
  }
}

const options = (sourceType) => ({ ecmaVersion: 2022, sourceType });

// The ESTree of a script or module (sourceType); throws where it is no code.
function parse(source, sourceType = "script") {
  return acorn.parse(source, options(sourceType));
}

// The same, early errors left aside.
function parseLeniently(source, sourceType = "script") {
  return LenientParser.parse(source, options(sourceType));
}

// The same, and where acorn finds early errors: the offsets of names that are declared twice, and
// of jumps without a target.
function parseWithErrors(source, sourceType) {
  const parser = new LenientParser(options(sourceType), source);
  return { tree: parser.parse(), names: parser.names, jumps: parser.jumps };
}

// ---- what is written

// The JSON of a value of ESTree, which can't have the value of a BigInt.
const text = (value) => JSON.stringify(value, (key, part) => (typeof part === "bigint" ? null : part));

function literal(node) {
  if (node.regex) return { regex: { flags: node.regex.flags, pattern: node.regex.pattern }, type: "Literal", value: null };
  if (node.bigint !== undefined && node.bigint !== null) return { bigint: node.bigint, type: "Literal", value: null };
  return { type: "Literal", value: node.value };
}

function fieldWritten(node, field) {
  const value = node[field];
  if (field === "attributes") return [];
  if (node.type === "TemplateElement" && field === "value") return { cooked: value.cooked, raw: value.raw };
  return written(value === undefined ? (["await", "async", "generator", "optional"].includes(field) ? false : null) : value);
}

// What the program writes for a value of ESTree: every field of the type, and no other, in the
// order of their names.
function written(value) {
  if (Array.isArray(value)) return value.map(written);
  if (!isNode(value)) return value;
  if (value.type === "Literal") return literal(value);
  const found = { type: value.type };
  for (const field of FIELDS[value.type]) found[field] = fieldWritten(value, field);
  if (value.type === "ExpressionStatement" && typeof value.directive === "string") {
    found.directive = value.directive;
    found.expression = { type: "Literal", value: value.directive };
  }
  return Object.fromEntries(Object.keys(found).sort().map((key) => [key, found[key]]));
}

// ---- children

// The nodes below a node, in order.
function children(node) {
  return (FIELDS[node.type] || []).flatMap((field) => node[field]).filter(isNode);
}

// Calls a function with each node, in preorder.
function each(node, look) {
  look(node);
  for (const child of children(node)) each(child, look);
}

// ---- numbers

const isSuper = (node) => isOf(["Super"], node);
const isPrivate = (node) => isOf(["PrivateIdentifier"], node);

// The expressions in spread elements stand for these.
const operands = (list) => list.map((part) => (part.type === "SpreadElement" ? part.argument : part));

// The inner expressions of a carried node, or nothing where the node is not carried.
function inner(node) {
  switch (node.type) {
    case "ClassDeclaration":
    case "ClassExpression":
      return [node.superClass, ...node.body.body.flatMap((part) => [part.computed && part.key, part.type === "PropertyDefinition" && part.value])];
    case "ObjectPattern":
      return node.properties.flatMap((part) => (part.type === "Property" ? [part.computed && part.key, ...element(part.value)] : element(part.argument)));
    case "ArrayPattern":
      return node.elements.filter(isNode).flatMap((part) => element(part.type === "RestElement" ? part.argument : part));
    case "TaggedTemplateExpression":
      return [node.tag, ...node.quasi.expressions];
    case "CallExpression":
      return isSuper(node.callee) ? operands(node.arguments) : null;
    case "MemberExpression":
      if (isSuper(node.object)) return [node.computed && node.property];
      return isPrivate(node.property) ? [node.object] : null;
    case "BinaryExpression":
      return isPrivate(node.left) ? [node.right] : null;
    case "ImportExpression":
      return [node.source];
    case "MetaProperty":
      return [];
    case "Literal":
      return node.regex ? [] : null;
    default:
      return null;
  }
}

// Of an element of a pattern its default, and the member that it is assigned to.
function element(part) {
  if (part.type === "AssignmentPattern") return [...element(part.left), part.right];
  return part.type === "MemberExpression" ? [part] : [];
}

// How many nodes of a program have a number.
function countNumbers(program) {
  let count = 0;
  each(program, (node) => {
    if (["Program", "StaticBlock", ...FUNCTIONS].includes(node.type)) count += 1;
    const parts = inner(node);
    if (parts) count += 1 + parts.filter(Boolean).length;
    if (isOf(FUNCTIONS, node)) count += 2 * node.params.filter((part) => part.type === "AssignmentPattern").length;
  });
  return count;
}

// ---- names

// The names that a pattern or a declarator binds.
function bound(node) {
  if (node === null) return [];
  switch (node.type) {
    case "Identifier":
      return [node.name];
    case "ObjectPattern":
      return node.properties.flatMap((part) => bound(part.type === "Property" ? part.value : part.argument));
    case "ArrayPattern":
      return node.elements.flatMap(bound);
    case "AssignmentPattern":
      return bound(node.left);
    case "RestElement":
      return bound(node.argument);
    case "VariableDeclaration":
      return node.declarations.flatMap((part) => bound(part.id));
    case "FunctionDeclaration":
    case "ClassDeclaration":
      return bound(node.id);
    case "ImportDeclaration":
      return node.specifiers.map((part) => part.local.name);
    default:
      return [];
  }
}

const isVar = (node) => node.type === "VariableDeclaration" && node.kind === "var";

// The names that statements declare directly, but for `var`s.
function lexical(statement) {
  if (/^Export(Named|Default)/.test(statement.type)) return statement.declaration === null ? [] : lexical(statement.declaration);
  const declares = ["VariableDeclaration", "FunctionDeclaration", "ClassDeclaration", "ImportDeclaration"];
  return declares.includes(statement.type) && !isVar(statement) ? bound(statement) : [];
}

// The `var`s at any depth of a statement, functions and classes aside.
function hoisted(node) {
  if (isVar(node)) return bound(node);
  return /Statement$|^SwitchCase$|^CatchClause$|^ExportNamed/.test(node.type) ? children(node).flatMap(hoisted) : [];
}

const distinct = (names) => [...new Set(names)];
const inBody = (statements) => distinct(statements.flatMap((part) => [...lexical(part), ...hoisted(part)]));

function statementsOf(body) {
  return body.type === "BlockStatement" ? body.body : [];
}

// A default or a bracketed key among the parameters, at any depth.
function hasInner(params) {
  let found = false;
  const look = (part) => {
    if (!isNode(part)) return;
    if (part.type === "AssignmentPattern" || (part.type === "Property" && part.computed)) found = true;
    if (part.type !== "Identifier") children(part).forEach(look);
  };
  params.forEach(look);
  return found;
}

function functionScopes(node) {
  const params = distinct(node.params.flatMap(bound));
  const shared = hasInner(node.params) ? [] : params;
  const own = node.type === "FunctionExpression" ? bound(node.id) : [];
  const body = inBody(statementsOf(node.body)).filter((name) => !shared.includes(name));
  return { id: own, params, body };
}

// The names that the scopes declare which a node opens, by the field from which on they hold;
// `isBody` tells that a block is a function's.
function scopes(node, isBody) {
  if (isOf(FUNCTIONS, node)) return functionScopes(node);
  if (isOf(CLASSES, node)) return { superClass: bound(node.id) };
  if (node.type === "Program" || node.type === "StaticBlock") return { body: inBody(node.body) };
  if (node.type === "BlockStatement" && !isBody) return { body: distinct(node.body.flatMap(lexical)) };
  if (node.type === "SwitchStatement") return { cases: distinct(node.cases.flatMap((part) => part.consequent.flatMap(lexical))) };
  if (node.type === "CatchClause") return { param: distinct(bound(node.param)) };
  const head = node.type === "ForStatement" ? "init" : isOf(LOOPS, node) ? "left" : null;
  return head === null || node[head] === null ? {} : { [head]: distinct(lexical(node[head])) };
}

// The names that a program declares, in the order of their symbols.
function symbolNames(program) {
  const names = [];
  const bodies = new Set();
  each(program, (node) => {
    if (isOf(FUNCTIONS, node)) bodies.add(node.body);
    names.push(...Object.values(scopes(node, bodies.has(node))).flat());
  });
  return names;
}

const countSymbols = (program) => symbolNames(program).length;

// ---- what is no JSON that is read

// How deep JSON nests.
function nesting(value) {
  return value !== null && typeof value === "object" ? 1 + Math.max(0, ...Object.values(value).map(nesting)) : 0;
}

const depth = (node) => 1 + Math.max(0, ...children(node).map(depth));

// Whether a half of a surrogate pair stands in it, or it nests too deep, or its nodes do.
const isUnread = (program) => depth(program) > 118 || nesting(program) > 126 || /\\ud[89a-f]/.test(text(program));

// ---- what is outside the table

const TYPES = ["AwaitExpression", "WithStatement"];

// A number that JSON doesn't write as a whole one, or that is not safe.
const isOutsideNumber = (value) => typeof value === "number" && (!Number.isSafeInteger(value) || value < 0);
const isBigIntKey = (node) => "key" in node && !node.computed && node.key.bigint !== undefined;

function isOutsideNode(node) {
  if (TYPES.includes(node.type) || node.async === true || node.await === true) return true;
  if (node.type === "Literal") return isOutsideNumber(node.value) || (node.bigint && BigInt(node.bigint) >= 2n ** 128n);
  return isBigIntKey(node);
}

const isStrictList = (statements) => statements.some((part) => part.directive === "use strict");

// Where function declarations may stand in sloppy code: directly in a body, or in an export.
function hasSloppyFunction(node, isStrict, isBody) {
  if (isOf(CLASSES, node)) return children(node).some((child) => hasSloppyFunction(child, true, false));
  const strict = isStrict || (isOf(FUNCTIONS, node) && isStrictList(statementsOf(node.body)));
  return children(node).some((child) => {
    if (child.type === "FunctionDeclaration" && !strict && !isBody) return true;
    return hasSloppyFunction(child, strict, isOf(FUNCTIONS, node) && child === node.body);
  });
}

// Whether a form that isn't read stands in a program.
function isOutside(program) {
  let found = hasSloppyFunction(program, program.sourceType === "module" || isStrictList(program.body), true);
  each(program, (node) => {
    found = found || Boolean(isOutsideNode(node));
  });
  return found;
}

module.exports = { FIELDS, FUNCTIONS, children, countNumbers, countSymbols, each, isOf, isOutside, isUnread, nesting, parse, parseLeniently, parseWithErrors, scopes, symbolNames, text, written };
