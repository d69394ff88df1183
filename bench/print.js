// JavaScript for ESTree, with parentheses round every part, so that nothing hangs on how operators
// bind.
"use strict";

const list = (parts) => parts.join(", ");
const paren = (text) => `(${text})`;

// An expression in parentheses.
const whole = (node) => paren(expression(node));
const optional = (node, before = "") => (node ? before + whole(node) : "");

// What is assigned to or declared: in no parentheses, since those would make it an expression.
function target(node) {
  switch (node.type) {
    case "ObjectPattern":
      return `{ ${list(node.properties.map(targetProperty))} }`;
    case "ArrayPattern":
      return `[${list(node.elements.map((part) => (part ? target(part) : "")))}${node.elements.at(-1) === null ? "," : ""}]`;
    case "RestElement":
      return `...${target(node.argument)}`;
    case "AssignmentPattern":
      return `${target(node.left)} = ${whole(node.right)}`;
    case "VariableDeclaration":
      return declaration(node);
    default:
      return expression(node);
  }
}

function key(node) {
  return node.computed ? `[${whole(node.key)}]` : expression(node.key);
}

function pair(node, value) {
  return `${key(node)}: ${value(node.value)}`;
}

function literal(node) {
  if (node.regex) return `/${node.regex.pattern}/${node.regex.flags}`;
  if (node.bigint) return `${node.bigint}n`;
  return JSON.stringify(node.value).replace(/[\u2028\u2029]/g, (unit) => (unit === "\u2028" ? "\\u2028" : "\\u2029"));
}

function template(node) {
  return `\`${node.quasis.map((part, at) => part.value.raw + (part.tail ? "" : `\${${expression(node.expressions[at])}}`)).join("")}\``;
}

const star = (node) => (node.generator ? "*" : "");
const params = (node) => paren(list(node.params.map(target)));

function targetProperty(node) {
  if (node.type === "RestElement") return target(node);
  return node.shorthand ? target(node.value) : pair(node, target);
}

// A function or an accessor as a member: what stands before its parameters, and the function.
function method(node, before) {
  const kind = ["get", "set"].includes(node.kind) ? `${node.kind} ` : star(node.value);
  return `${before}${kind}${key(node)}${params(node.value)} ${statement(node.value.body)}`;
}

function property(node) {
  if (node.shorthand) return node.key.name;
  if (node.type === "SpreadElement") return expression(node);
  return node.method || node.kind !== "init" ? method(node, "") : pair(node, whole);
}

function classMember(node) {
  if (node.type === "StaticBlock") return `static { ${statements(node.body)} }`;
  const before = node.static ? "static " : "";
  if (node.type === "MethodDefinition") return method(node, before);
  return `${before}${key(node)}${node.value ? ` = ${whole(node.value)}` : ""};`;
}

function classText(node) {
  return `class ${node.id ? node.id.name : ""} ${optional(node.superClass, "extends ")} { ${node.body.body.map(classMember).join(" ")} }`;
}

// An object, a callee or a tag: the links of a chain stand in no parentheses, as little as `super`.
function link(node, inChain) {
  if (node.type === "Super") return "super";
  if (inChain && node.type === "CallExpression") return call(node, true);
  return inChain && node.type === "MemberExpression" ? member(node, true) : whole(node);
}

const call = (node, inChain) => `${link(node.callee, inChain)}${node.optional ? "?." : ""}(${list(node.arguments.map(part))})`;

function member(node, inChain) {
  const object = link(node.object, inChain);
  if (node.computed) return `${object}${node.optional ? "?." : ""}[${expression(node.property)}]`;
  return `${object}${node.optional ? "?." : "."}${expression(node.property)}`;
}

// An argument or an element.
const part = (node) => (node === null ? "" : node.type === "SpreadElement" ? expression(node) : whole(node));

function operand(node) {
  return node.type === "PrivateIdentifier" ? expression(node) : whole(node);
}

const EXPRESSIONS = {
  Identifier: (node) => node.name,
  PrivateIdentifier: (node) => `#${node.name}`,
  Literal: literal,
  ThisExpression: () => "this",
  Super: () => "super",
  ArrayExpression: (node) => `[${list(node.elements.map(part))}${node.elements.at(-1) === null ? "," : ""}]`,
  ObjectExpression: (node) => `{ ${list(node.properties.map(property))} }`,
  SpreadElement: (node) => `...${whole(node.argument)}`,
  FunctionExpression: (node) => `function${star(node)} ${node.id ? node.id.name : ""}${params(node)} ${statement(node.body)}`,
  ArrowFunctionExpression: (node) => `${params(node)} => ${node.body.type === "BlockStatement" ? statement(node.body) : whole(node.body)}`,
  ClassExpression: classText,
  UnaryExpression: (node) => `${node.operator} ${whole(node.argument)}`,
  UpdateExpression: (node) => (node.prefix ? node.operator + target(node.argument) : target(node.argument) + node.operator),
  BinaryExpression: (node) => `${operand(node.left)} ${node.operator} ${whole(node.right)}`,
  LogicalExpression: (node) => `${whole(node.left)} ${node.operator} ${whole(node.right)}`,
  AssignmentExpression: (node) => `${target(node.left)} ${node.operator} ${whole(node.right)}`,
  ConditionalExpression: (node) => `${whole(node.test)} ? ${whole(node.consequent)} : ${whole(node.alternate)}`,
  SequenceExpression: (node) => list(node.expressions.map(whole)),
  CallExpression: (node) => call(node, false),
  NewExpression: (node) => `new ${whole(node.callee)}(${list(node.arguments.map(part))})`,
  MemberExpression: (node) => member(node, false),
  ChainExpression: (node) => link(node.expression, true),
  YieldExpression: (node) => `yield${node.delegate ? "*" : ""} ${optional(node.argument)}`,
  TemplateLiteral: template,
  TaggedTemplateExpression: (node) => `${whole(node.tag)}${template(node.quasi)}`,
  MetaProperty: (node) => `${node.meta.name}.${node.property.name}`,
  ImportExpression: (node) => `import(${whole(node.source)})`,
};

function expression(node) {
  return EXPRESSIONS[node.type](node);
}

function declaration(node) {
  return `${node.kind} ${list(node.declarations.map((item) => target(item.id) + optional(item.init, " = ")))}`;
}

const statements = (nodes) => nodes.map(statement).join(" ");
const label = (node) => (node.label ? ` ${node.label.name}` : "");
// Whether an `else` behind it would be taken by an `if` that ends it.
function endsOpen(node) {
  if (node.type === "IfStatement") return !node.alternate || endsOpen(node.alternate);
  return /^(While|For|ForIn|ForOf|Labeled)Statement$/.test(node.type) && endsOpen(node.body);
}

// What stands before an `else`.
const guarded = (node) => (endsOpen(node) ? `{ ${statement(node)} }` : statement(node));

function head(node) {
  if (node === null) return "";
  return node.type === "VariableDeclaration" ? declaration(node) : whole(node);
}

function caseText(node) {
  return `${node.test ? `case ${whole(node.test)}` : "default"}: ${statements(node.consequent)}`;
}

function tryText(node) {
  const { handler, finalizer } = node;
  const caught = handler ? ` catch ${handler.param ? `(${target(handler.param)})` : ""} ${statement(handler.body)}` : "";
  return `try ${statement(node.block)}${caught}${finalizer ? ` finally ${statement(finalizer)}` : ""}`;
}

// ---- what modules have besides

const external = (node) => (node.type === "Literal" ? JSON.stringify(node.value) : node.name);
const renamed = (one, other) => (one === other ? one : `${one} as ${other}`);
const origin = (node) => (node.source ? ` from ${JSON.stringify(node.source.value)}` : "");

function imports(node) {
  const only = (type) => node.specifiers.filter((part) => part.type === type);
  const first = only("ImportDefaultSpecifier").map((part) => part.local.name);
  const all = only("ImportNamespaceSpecifier").map((part) => `* as ${part.local.name}`);
  const named = only("ImportSpecifier").map((part) => renamed(external(part.imported), part.local.name));
  return [...first, ...all, ...(named.length > 0 ? [`{ ${named.join(", ")} }`] : [])].join(", ");
}

function exported(node) {
  if (node.declaration) return `export ${statement(node.declaration)}`;
  return `export { ${node.specifiers.map((part) => renamed(external(part.local), external(part.exported))).join(", ")} }${origin(node)};`;
}

function byDefault({ declaration }) {
  const isDeclaration = /Declaration$/.test(declaration.type);
  return `export default ${isDeclaration ? statement(declaration) : `(${expression(declaration)});`}`;
}

const STATEMENTS = {
  ExpressionStatement: (node) => (typeof node.directive === "string" ? `${node.expression.raw || JSON.stringify(node.directive)};` : `${whole(node.expression)};`),
  EmptyStatement: () => ";",
  DebuggerStatement: () => "debugger;",
  BlockStatement: (node) => `{ ${statements(node.body)} }`,
  LabeledStatement: (node) => `${node.label.name}: ${statement(node.body)}`,
  BreakStatement: (node) => `break${label(node)};`,
  ContinueStatement: (node) => `continue${label(node)};`,
  ReturnStatement: (node) => `return ${optional(node.argument)};`,
  ThrowStatement: (node) => `throw ${whole(node.argument)};`,
  IfStatement: (node) => `if (${expression(node.test)}) ${node.alternate ? `${guarded(node.consequent)} else ${statement(node.alternate)}` : statement(node.consequent)}`,
  SwitchStatement: (node) => `switch (${expression(node.discriminant)}) { ${node.cases.map(caseText).join(" ")} }`,
  TryStatement: tryText,
  WhileStatement: (node) => `while (${expression(node.test)}) ${statement(node.body)}`,
  DoWhileStatement: (node) => `do ${statement(node.body)} while (${expression(node.test)});`,
  ForStatement: (node) => `for (${head(node.init)}; ${optional(node.test)}; ${optional(node.update)}) ${statement(node.body)}`,
  ForInStatement: (node) => `for (${target(node.left)} in ${whole(node.right)}) ${statement(node.body)}`,
  ForOfStatement: (node) => `for (${target(node.left)} of ${whole(node.right)}) ${statement(node.body)}`,
  VariableDeclaration: (node) => `${declaration(node)};`,
  FunctionDeclaration: EXPRESSIONS.FunctionExpression,
  ClassDeclaration: classText,
  ImportDeclaration: (node) => `import ${node.specifiers.length > 0 ? `${imports(node)} from ` : ""}${JSON.stringify(node.source.value)};`,
  ExportNamedDeclaration: exported,
  ExportDefaultDeclaration: byDefault,
  ExportAllDeclaration: (node) => `export *${node.exported ? ` as ${external(node.exported)}` : ""}${origin(node)};`,
};

function statement(node) {
  return STATEMENTS[node.type](node);
}

// The text of a script or module.
const print = (program) => statements(program.body);

module.exports = { print, whole };
