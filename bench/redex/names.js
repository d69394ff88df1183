// Resolves the names of a program, apart from the code under test: each identifier that means a
// variable gets it as `symbol` (null where no scope declares the name), each node the body in which
// it stands as `body`, and each `this` whether it stands in a derived constructor.
"use strict";
const { children, scopes } = require("../estree.js");
const {
  isCarried, isClass, isFunction, isName, isNode, isPrivate, isSuper,
} = require("./nodes.js");
const { Body, Scope } = require("./variable.js");

const isStrictList = (list) => list.some((part) => part.directive === "use strict");

class Resolver {
  order = 0;

  // -- scopes

  open(ctx, names, kind, options = {}) {
    const scope = new Scope(ctx.scope, { body: ctx.body, ...options });
    for (const name of names) scope.add(name, kind);
    return { ...ctx, scope };
  }

  // An expression of a carried node is a body of its own.
  inner(node, ctx) {
    if (!isNode(node)) return;
    this.visit(node, { ...ctx, carrier: null, body: new Body(node, ctx.among) });
  }

  visit(node, ctx) {
    if (!isNode(node)) return;
    this.mark(node, ctx);
    if (isFunction(node)) this.callable(node, ctx);
    else if (isClass(node)) this.class(node, ctx);
    else (this[node.type] ?? this.parts).call(this, node, ctx);
    node.last = this.order++;
    if (node.declared) node.declared.end = node.last;
  }

  mark(node, ctx) {
    node.first = this.order++;
    node.inBody = ctx.body;
  }

  parts(node, ctx) {
    for (const child of children(node)) this.visit(child, ctx);
  }

  all(list, ctx) {
    for (const node of list) this.visit(node, ctx);
  }

  // -- names

  refer(node, ctx, { reads = false, writes = false }) {
    const found = ctx.scope.find(node.name);
    Object.assign(node, { symbol: found, isReference: true });
    if (node.name === "arguments" && !found && ctx.owner) {
      ctx.owner.scope.showsArguments ||= !ctx.owner.isStrict;
    }
    if (!found) return;
    const by = ctx.carrier ?? ctx.body;
    found.mention(by, ctx.carrier !== null);
    found.reads += reads ? 1 : 0;
    found.writes += writes ? 1 : 0;
    if (reads) found.readBy(ctx.body, node.first);
    if (writes) found.writers.add(by);
  }

  // A declaring identifier: `isWrite` tells a `var` that gets a value here.
  declare(node, ctx, { kind, isWrite = false }) {
    const innermost = ctx.scope.find(node.name);
    const found = kind === "var" ? ctx.scope.findVar(node.name) : innermost;
    node.symbol = found;
    const by = ctx.carrier ?? ctx.body;
    found.mention(by, ctx.carrier !== null);
    found.isPatternBound ||= ctx.carrier !== null;
    if (kind === "var" && innermost !== found) found.isUnderCatch = true;
    if (kind === "var" && isWrite) found.writers.add(by);
    found.isConstant ||= kind === "const";
    found.isLexical ||= !["var", "parameter", "hoisted"].includes(kind);
    found.isExported ||= Boolean(ctx.isExport);
  }

  Identifier(node, ctx) {
    this.refer(node, ctx, { reads: true });
  }

  ThisExpression(node, ctx) {
    node.isDerived = ctx.isDerived;
  }

  // -- targets and patterns; `how` is what is done with each name

  target(node, ctx, how) {
    if (!isNode(node)) return;
    this.mark(node, ctx);
    if (isName(node)) this.bind(node, ctx, how);
    else if (node.type === "MemberExpression") this.memberTarget(node, ctx);
    else if (node.type === "AssignmentPattern") this.defaulted(node, ctx, how);
    else if (node.type === "RestElement") this.target(node.argument, ctx, how);
    else this.pattern(node, { ...ctx, carrier: node }, how);
    node.last = this.order++;
  }

  bind(node, ctx, how) {
    if (how.kind) this.declare(node, ctx, how);
    else this.refer(node, ctx, how);
  }

  // In a pattern a member that is assigned to is an expression of its own.
  memberTarget(node, ctx) {
    const within = ctx.carrier ? { ...ctx, carrier: null, body: new Body(node, ctx.among) } : ctx;
    this.mark(node, within);
    this.MemberExpression(node, within);
  }

  defaulted(node, ctx, how) {
    const within = ctx.carrier ? ctx : { ...ctx, carrier: node };
    this.target(node.left, within, how);
    this.inner(node.right, within);
  }

  pattern(node, ctx, how) {
    for (const part of node.properties ?? node.elements) {
      if (!part) continue;
      if (part.type !== "Property") this.target(part, ctx, how);
      else {
        this.mark(part, ctx);
        if (part.computed) this.inner(part.key, ctx);
        this.target(part.value, ctx, how);
      }
    }
  }

  AssignmentExpression(node, ctx) {
    this.target(node.left, ctx, { reads: node.operator !== "=", writes: true });
    this.visit(node.right, ctx);
  }

  UpdateExpression(node, ctx) {
    this.target(node.argument, ctx, { reads: true, writes: true });
  }

  // -- expressions that aren't plain sums of their parts

  MemberExpression(node, ctx) {
    const isInner = isCarried(node);
    if (!isSuper(node.object)) this[isInner ? "inner" : "visit"](node.object, ctx);
    if (node.computed) this[isInner ? "inner" : "visit"](node.property, ctx);
  }

  BinaryExpression(node, ctx) {
    if (isPrivate(node.left)) return this.inner(node.right, ctx);
    this.parts(node, ctx);
  }

  CallExpression(node, ctx) {
    const isEval = isName(node.callee) && node.callee.name === "eval" && !node.optional;
    for (let scope = isEval ? ctx.scope : null; scope; scope = scope.parent) scope.hasEval = true;
    if (!isSuper(node.callee)) return this.parts(node, ctx);
    for (const part of node.arguments) {
      this.mark(part, ctx);
      this.inner(part.type === "SpreadElement" ? part.argument : part, ctx);
    }
  }

  ImportExpression(node, ctx) {
    this.inner(node.source, ctx);
  }

  MetaProperty() {}

  TaggedTemplateExpression(node, ctx) {
    this.mark(node.quasi, ctx);
    this.inner(node.tag, ctx);
    for (const part of node.quasi.expressions) this.inner(part, ctx);
  }

  Property(node, ctx) {
    if (node.computed) this.visit(node.key, ctx);
    this.visit(node.value, ctx);
  }

  // -- functions and classes

  callable(node, ctx) {
    if (node.type === "FunctionDeclaration" && node.id) this.declareFunction(node, ctx);
    const isArrow = node.type === "ArrowFunctionExpression";
    const list = node.body.type === "BlockStatement" ? node.body.body : [];
    const isStrict = ctx.isStrict || isStrictList(list);
    const opened = scopes(node, false);
    const named = opened.id.length > 0 ? this.open(ctx, opened.id, "own", { body: null }) : ctx;
    if (node.type === "FunctionExpression" && node.id) this.nameOwn(node, named);
    const body = new Body(node, ctx.among);
    const whole = { ...named, body, carrier: null, isStrict, isExport: false };
    const outer = this.open(whole, opened.params, "parameter", { isLevel: true, body });
    outer.owner = isArrow ? ctx.owner : { scope: outer.scope, isStrict };
    outer.isDerived = isArrow ? ctx.isDerived : Boolean(ctx.isConstructor);
    outer.isConstructor = false;
    this.callableParts(node, outer, opened.body);
  }

  callableParts(node, outer, names) {
    const among = { ...outer, among: [...outer.among, outer.scope] };
    for (const part of node.params) this.target(part, among, { kind: "parameter" });
    const within = this.open(outer, names, "local", { isLevel: true });
    if (node.body.type !== "BlockStatement") return this.visit(node.body, within);
    this.mark(node.body, within);
    this.all(node.body.body, within);
    node.body.last = this.order++;
  }

  declareFunction(node, ctx) {
    this.mark(node.id, ctx);
    const isHoisted = ctx.scope.isLevel && ctx.scope !== ctx.moduleTop;
    this.declare(node.id, ctx, { kind: isHoisted ? "hoisted" : "function" });
    node.declared = node.id.symbol;
  }

  nameOwn(node, named) {
    node.id.symbol = named.scope.variables.get(node.id.name);
    node.id.symbol.isLexical = true;
  }

  class(node, ctx) {
    if (node.type === "ClassDeclaration" && node.id) {
      this.mark(node.id, ctx);
      this.declare(node.id, ctx, { kind: "class" });
      node.declared = node.id.symbol;
    }
    const held = this.open(ctx, node.id ? [node.id.name] : [], "class", { body: null });
    const within = { ...held, isStrict: true, isExport: false, carrier: node };
    for (const name of within.scope.variables.values()) name.isLexical = true;
    if (node.type === "ClassExpression" && node.id) {
      node.id.symbol = within.scope.find(node.id.name);
    }
    this.inner(node.superClass, within);
    for (const part of node.body.body) this.member(part, within, Boolean(node.superClass));
  }

  member(part, ctx, isDerived) {
    this.mark(part, ctx);
    if (part.type === "StaticBlock") return this.staticBlock(part, ctx);
    if (part.computed) this.inner(part.key, ctx);
    if (part.type === "PropertyDefinition") {
      return this.inner(part.value, { ...ctx, isDerived: false });
    }
    const isConstructor = part.kind === "constructor" && isDerived;
    this.visit(part.value, { ...ctx, carrier: null, isConstructor });
  }

  staticBlock(node, ctx) {
    const body = new Body(node, ctx.among);
    const whole = { ...ctx, body, carrier: null, isDerived: false };
    const names = scopes(node, false).body;
    this.all(node.body, this.open(whole, names, "local", { isLevel: true }));
  }

  // -- statements

  VariableDeclaration(node, ctx, headRight = null) {
    for (const part of node.declarations) {
      this.mark(part, ctx);
      const isWrite = Boolean(part.init) || headRight !== null;
      this.target(part.id, ctx, { kind: node.kind, isWrite });
      this.visit(part.init, ctx);
      part.last = this.order++;
      for (const name of boundNames(part.id)) this.ends(name, part.last, headRight);
    }
  }

  ends(name, last, headRight) {
    if (!name.symbol.isLexical) return;
    Object.assign(name.symbol, { end: last, headRight });
  }

  BlockStatement(node, ctx) {
    this.all(node.body, this.opened(node, "body", "block", ctx));
  }

  opened(node, field, kind, ctx, options = {}) {
    const names = scopes(node, false)[field] ?? [];
    return names.length > 0 ? this.open(ctx, names, kind, options) : ctx;
  }

  SwitchStatement(node, ctx) {
    this.visit(node.discriminant, ctx);
    this.all(node.cases, this.opened(node, "cases", "block", ctx, { isSwitch: true }));
  }

  CatchClause(node, ctx) {
    const within = this.opened(node, "param", "catch", ctx);
    this.target(node.param, within, { kind: "catch" });
    this.visit(node.body, within);
  }

  ForStatement(node, ctx) {
    this.parts(node, this.opened(node, "init", "block", ctx));
  }

  ForInStatement(node, ctx) {
    const within = this.opened(node, "left", "block", ctx);
    this.mark(node.left, within);
    if (node.left.type === "VariableDeclaration") {
      this.VariableDeclaration(node.left, within, node.right);
    }
    else this.target(node.left, within, { writes: true });
    this.visit(node.right, within);
    this.visit(node.body, within);
  }

  ForOfStatement(node, ctx) {
    this.ForInStatement(node, ctx);
  }

  LabeledStatement(node, ctx) {
    this.visit(node.body, ctx);
  }

  BreakStatement() {}

  ContinueStatement() {}

  // -- modules

  ImportDeclaration(node, ctx) {
    for (const part of node.specifiers) {
      this.declare(part.local, ctx, { kind: "import" });
      part.local.symbol.isImported = true;
    }
  }

  ExportNamedDeclaration(node, ctx) {
    if (node.declaration) this.visit(node.declaration, { ...ctx, isExport: true });
    if (node.source) return;
    for (const part of node.specifiers) {
      this.visit(part.local, ctx);
      if (part.local.symbol) part.local.symbol.isExported = true;
    }
  }

  ExportDefaultDeclaration(node, ctx) {
    this.visit(node.declaration, { ...ctx, isExport: /Declaration$/.test(node.declaration.type) });
  }

  ExportAllDeclaration() {}
}

// The identifiers that a pattern declares.
function boundNames(node) {
  if (!isNode(node)) return [];
  if (isName(node)) return [node];
  if (node.type === "Property") return boundNames(node.value);
  if (node.type === "AssignmentPattern") return boundNames(node.left);
  if (node.type === "RestElement") return boundNames(node.argument);
  return (node.properties ?? node.elements ?? []).flatMap(boundNames);
}

// Resolves a program in place.
function resolve(program) {
  const resolver = new Resolver();
  const isStrict = program.sourceType === "module" || isStrictList(program.body);
  const body = new Body(program);
  const ctx = {
    scope: null, body, carrier: null, among: [], owner: null, isStrict, isDerived: false,
  };
  resolver.mark(program, ctx);
  const names = scopes(program, false).body;
  const isScript = program.sourceType === "script";
  const within = resolver.open(ctx, names, "top", { isLevel: true });
  within.moduleTop = isScript ? null : within.scope;
  resolver.all(program.body, within);
  for (const variable of within.scope.variables.values()) variable.isTop = isScript;
}

module.exports = { boundNames, resolve };
