// What the rows ask of a variable: how often it is read and written, by which bodies, and whether
// its value may change or be missing where a body reads it.
"use strict";

// The statements of a program, function or static block, or an expression inside a class, pattern
// or other carried node. `among` has the parameter scopes in whose defaults and keys it stands.
class Body {
  constructor(node, among = []) {
    this.node = node;
    this.among = among;
  }
}

class Scope {
  constructor(parent, { isLevel = false, body = null, isSwitch = false } = {}) {
    this.parent = parent;
    this.isLevel = isLevel;
    this.body = body;
    this.isSwitch = isSwitch;
    this.hasEval = false;
    this.showsArguments = false;
    this.variables = new Map();
  }

  add(name, kind) {
    this.variables.set(name, new Variable(name, kind, this));
  }

  // The variable that a name means here, or null.
  find(name) {
    return this.variables.get(name) ?? (this.parent ? this.parent.find(name) : null);
  }

  // The variable of a `var`: that of the innermost function or program.
  findVar(name) {
    if (this.isLevel && this.variables.has(name)) return this.variables.get(name);
    return this.parent ? this.parent.findVar(name) : null;
  }
}

class Variable {
  // The kind is that of its scope: "own", "parameter", "local", "top", "block", "catch", "class".
  constructor(name, kind, scope) {
    Object.assign(this, { name, kind, scope, reads: 0, writes: 0, isTop: false, isLexical: false });
    Object.assign(this, { isExported: false, isImported: false, isConstant: false });
    Object.assign(this, { isPatternBound: false, isUnderCatch: false, headRight: null });
    this.end = 0;
    this.mentions = new Set();
    this.carried = false;
    this.writers = new Set();
    this.readsIn = new Map();
  }

  mention(by, isCarried) {
    this.mentions.add(by);
    this.carried ||= isCarried;
  }

  readBy(body, order) {
    if (!this.readsIn.has(body)) this.readsIn.set(body, []);
    this.readsIn.get(body).push(order);
  }

  get isUnused() {
    return this.reads === 0 && this.writes === 0;
  }

  get isInEvalsReach() {
    return this.scope.hasEval;
  }

  get isWritable() {
    return !this.isConstant && !this.isImported && this.kind !== "own" && this.kind !== "class";
  }

  // Seen from outside one body.
  get isShared() {
    const isSeen = this.isTop || this.isImported || this.isExported || this.isInEvalsReach;
    return isSeen || this.mentions.size > 1 || this.carried || this.isShown || this.isUnderCatch;
  }

  // A parameter that `arguments` shows.
  get isShown() {
    return this.kind === "parameter" && this.scope.showsArguments;
  }

  // Whether it may change, or hold no value, while a body runs.
  isForeign(body) {
    if (this.isImported || this.isTop || this.isInEvalsReach || this.isShown) return true;
    if (this.isPatternBound) return true;
    const isElsewhere = this.scope.body !== body;
    if (isElsewhere && this.writers.size > 0) return true;
    if (this.isShared && [...this.writers].some((writer) => writer !== body)) return true;
    return this.mayBeUninitialised(body, isElsewhere);
  }

  mayBeUninitialised(body, isElsewhere) {
    if (this.kind === "parameter") return body.among.includes(this.scope);
    if (!this.isLexical) return false;
    if (isElsewhere || this.scope.isSwitch) return true;
    const isEarly = (order) => order < this.end || this.isInHead(order);
    return (this.readsIn.get(body) ?? []).some(isEarly);
  }

  // Whether a place is in the right side of the loop whose head declares it.
  isInHead(order) {
    return this.headRight !== null && this.headRight.first <= order && order <= this.headRight.last;
  }

  isSteady(body) {
    return this.writes === 0 && !this.isForeign(body);
  }
}

module.exports = { Body, Scope };
