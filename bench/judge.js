// Node as a judge: runs scripts before and after the built program has rewritten them, against an
// outside that records what is asked of it, and compares. Builds nothing.
//
//     node --expose-internals bench/judge.js [PROGRAM [COUNT [SEED [modules]]]]
//
// PROGRAM is crates/mini_app/out/mini_app of this repository unless it is given: `rt run` in
// crates/mini_app makes it. COUNT scripts (200) are generated (generate.js), and as many pieces of
// installed code are taken that something is rewritten in (pieces.js). Each is run six times, with
// an outside that answers otherwise each time: three times one that has every name, and three times
// one that lacks some of them.
//
// Every name that a script doesn't declare is the outside's: writing one, calling, and what is done
// to the objects that it hands out, is an event with its operands. It calls the functions that it
// is handed, and those that a script declares. A run ends by itself, by a throw, or after EVENTS
// events. The events must be the same in order, and how it ends. A name that the outside lacks is
// absent: node throws a ReferenceError where it is read, and where strict code writes it; sloppy
// code that writes it adds it to the global object, and each event shows what was added so. The
// outside answers by what was asked before, so that two runs part no sooner than their events do.
// The text of a function is the same for all, since it is of the source alone.
//
// With the word `modules` COUNT installed files are run that are read as modules, for a PROGRAM
// that drops what is dead, such as crates/mini_shake/out/mini_shake: each as a strict function,
// whose imports are names of the outside. That is handed what the module exports, and what it
// writes to the outside, as `module.exports = { f }` does, and calls these functions. No event
// shows that a function is created, so that runs with and without that are compared as they are.
"use strict";
const vm = require("vm");
const { isNativeError } = require("util").types;
const { words, run } = require("./built.js");
const { isOutside, isUnread, parse, scopes, symbolNames } = require("./estree.js");
const { chosenModules } = require("./modules.js");
const { chosenPieces } = require("./pieces.js");
const { script } = require("./generate.js");
const { print } = require("./print.js");

const { program, count, seed } = words(200);
const EVENTS = 400;
const SECONDS = 2;
const MODULES = process.argv[5] === "modules";
const OWN = ["undefined", "NaN", "Infinity", "arguments", "eval"];
const GIVEN = ["names", "self", "judge"];
// An outside answers by its salt, and lacks none of the names or one in so many.
const OUTSIDES = [
  { salt: 1, lacks: 0 },
  { salt: 2, lacks: 0 },
  { salt: 3, lacks: 0 },
  { salt: 4, lacks: 3 },
  { salt: 5, lacks: 5 },
  { salt: 6, lacks: 8 },
];

// ---- the outside

class CutOff extends Error {}

class Outside {
  constructor(seed, lacks) {
    this.events = [];
    this.state = seed;
    this.seed = seed;
    this.lacks = lacks;
    this.context = vm.createContext({ names: this.names(), self: null, judge: (value) => this.enter(value) });
    this.builtIn = new Set(vm.runInContext("Object.getOwnPropertyNames(globalThis)", this.context));
    this.labels = new WeakMap();
    this.depth = 0;
  }

  // A number below the bound, by what happened so far.
  chance(below) {
    this.state = (Math.imul(this.state ^ (this.state >>> 15), 0x2c1b3c6d) + 0x9e3779b9) >>> 0;
    return (this.state >>> 8) % below;
  }

  record(...event) {
    const text = [...event.map((part) => this.told(part)), ...this.added()].join(" ");
    for (const unit of text) this.state = (Math.imul(this.state, 31) + unit.codePointAt(0)) >>> 0;
    this.events.push(text);
    if (this.events.length >= EVENTS) throw new CutOff();
  }

  // A value as an event tells it: an object of the script by what it is alone.
  told(value) {
    if (this.labels.has(Object(value))) return this.labels.get(Object(value));
    if (Array.isArray(value)) return `[${value.map((part) => this.told(part)).join(" ")}]`;
    if (typeof value === "object" && value !== null) return isNativeError(value) ? value.name : "object";
    if (typeof value === "function") return "function";
    return typeof value === "string" ? JSON.stringify(value) : String(value);
  }

  answer(label) {
    const made = [
      () => undefined,
      () => null,
      () => true,
      () => false,
      () => this.chance(3),
      () => ["", "s", "p"][this.chance(3)],
      () => this.object(label),
      () => this.object(label),
      () => this.object(label),
    ];
    return made[this.chance(made.length)]();
  }

  // An object of the outside, which may be called and iterated.
  object(label) {
    const outside = this;
    const name = `<${label.length > 40 ? "far" : label}>`;
    const proxy = new Proxy(function () {}, {
      get: (_, key) => outside.property(name, key),
      set: (_, key, value) => (outside.record("set", name, key, value), outside.take(value), true),
      has: (_, key) => (outside.record("has", name, key), outside.chance(2) === 0),
      deleteProperty: (_, key) => (outside.record("delete", name, key), true),
      apply: (_, self, values) => outside.called("call", name, self, values),
      construct: (_, values) => outside.constructed(name, values),
      getPrototypeOf: () => null,
      ownKeys: () => ["prototype"],
    });
    this.labels.set(proxy, name);
    return proxy;
  }

  property(name, key) {
    if (key === Symbol.iterator) return () => [this.answer(`${name}0`), this.answer(`${name}1`)][Symbol.iterator]();
    if (key === Symbol.toPrimitive) return (hint) => (this.record("primitive", name, hint), this.chance(2) === 0 ? this.chance(3) : "s");
    this.record("get", name, key);
    return typeof key === "symbol" ? undefined : this.answer(`${name}.${key}`);
  }

  called(what, name, self, values) {
    this.record(what, name, self, ...values);
    for (const value of values) if (typeof value === "function" && !this.labels.has(value)) this.enter(value);
    if (this.chance(12) === 0) throw this.object(`thrown by ${name}`);
    return this.answer(`${name}()`);
  }

  constructed(name, values) {
    this.called("new", name, undefined, values);
    return this.object(`new ${name}`);
  }

  // Calls a function of the script; what it throws is an event.
  enter(value) {
    if (this.depth > 3) return;
    this.depth += 1;
    try {
      const given = value.call(this.object("this"), this.answer("x"), this.object("y"));
      this.record("returned", given);
      if (given && typeof given === "object" && typeof given.next === "function" && !this.labels.has(given)) this.advance(given);
    } catch (error) {
      this.caught(error);
    } finally {
      this.depth -= 1;
    }
  }

  // Calls what a module writes to the outside, and the functions that an object of its own holds.
  take(value) {
    if (!MODULES || value === null || this.labels.has(Object(value))) return;
    const held = typeof value === "object" ? Object.values(Object.getOwnPropertyDescriptors(value)).map((part) => part.value) : [value];
    for (const part of held) if (typeof part === "function" && !this.labels.has(part)) this.enter(part);
  }

  // Goes on in a generator of the script.
  advance(generator) {
    for (let turn = 0; turn < 4; turn++) {
      const { value, done } = generator.next(this.answer("sent"));
      this.record("yielded", value, done);
      if (done) return;
    }
  }

  caught(error) {
    if (error instanceof CutOff || /timed out/.test(String(error && error.message))) throw error;
    this.record("threw", error);
  }

  // Whether a name is absent, by its text and the seed.
  isAbsent(name) {
    if (this.lacks === 0 || this.builtIn.has(name)) return false;
    let mixed = this.seed;
    for (const unit of name) mixed = Math.imul(mixed ^ unit.codePointAt(0), 0x01000193) >>> 0;
    return (mixed >>> 4) % this.lacks === 0;
  }

  // The absent names that sloppy code has added to the global object, with what they hold.
  added() {
    const names = Object.keys(this.context).filter((name) => !GIVEN.includes(name));
    return names.sort().map((name) => `${name}=${this.told(this.context[name])}`);
  }

  // The names of the outside, as the object of a `with`. That one is read is no event, since no
  // accessor stands on the global object (docs/MODEL.md); what it holds is another object after
  // each event, so that it is seen where a read moves past one.
  names() {
    const values = new Map();
    return new Proxy(Object.create(null), {
      has: (_, key) => typeof key === "string" && !OWN.includes(key) && key !== "judge" && !this.isAbsent(key),
      get: (_, key) => {
        if (key === Symbol.unscopables) return undefined;
        const held = values.get(key);
        if (held && held.since === this.events.length) return held.value;
        const value = this.object(`${key}${this.events.length}`);
        values.set(key, { value, since: this.events.length });
        return value;
      },
      set: (_, key, value) => (this.record("write", key, value), this.take(value), true),
      deleteProperty: () => true,
    });
  }
}

// ---- one run

// The names of the functions that a script declares at its top, which are called behind it.
const declaredFunctions = (tree) => tree.body.filter((part) => part.type === "FunctionDeclaration").map((part) => part.id.name);

// A function expression that stands alone is handed out, also in what is minified: it may be joined
// to others there.
function handedOut(tree) {
  const body = tree.body.map((part) => {
    const isFunction = part.type === "ExpressionStatement" && /Function/.test(part.expression.type);
    const callee = { type: "Identifier", name: "judge" };
    return isFunction ? { ...part, expression: { type: "CallExpression", callee, arguments: [part.expression] } } : part;
  });
  return { ...tree, body };
}

const directives = (tree) => print({ body: tree.body.filter((part) => typeof part.directive === "string") });

// What stands for a statement of a module in a function, and the names that it exports.
function inFunction(part) {
  const { type, declaration, source } = part;
  if (type === "ImportDeclaration" || type === "ExportAllDeclaration") return [[], []];
  if (type === "ExportNamedDeclaration" && declaration) return [[declaration], scopes({ type: "Program", body: [declaration] }).body];
  if (type === "ExportNamedDeclaration") return [[], source ? [] : part.specifiers.map(({ local }) => local.name)];
  if (type !== "ExportDefaultDeclaration") return [[part], []];
  if (declaration.id) return [[declaration], [declaration.id.name]];
  const callee = { type: "Identifier", name: "judge" };
  const value = { ...declaration, type: declaration.type.replace("Declaration", "Expression") };
  return [[{ type: "ExpressionStatement", expression: { type: "CallExpression", callee, arguments: [value] } }], []];
}

function textOfModule(tree) {
  const parts = tree.body.map(inFunction);
  const body = parts.flatMap(([statements]) => statements);
  const names = [...new Set(parts.flatMap(([, exported]) => exported))];
  return `with (names) (function () { "use strict"; ${print({ body })}\n ${names.map((name) => `judge(${name});`).join(" ")} }).call(undefined);`;
}

function textOf(tree) {
  if (MODULES) return textOfModule(tree);
  const calls = declaredFunctions(tree).map((name) => `judge(${name});`);
  return `with (names) (function () { ${directives(tree)} ${print(tree)}\n ${calls.join(" ")} }).call(self);`;
}

// The events of a run, and how it ended.
function eventsOf(tree, seed, lacks) {
  const outside = new Outside(seed, lacks);
  const { context } = outside;
  context.self = outside.object("this");
  vm.runInContext('Function.prototype.toString = () => "function";', context);
  try {
    vm.runInContext(textOf(tree), context, { timeout: SECONDS * 1000, displayErrors: false });
    outside.events.push(["ended", ...outside.added()].join(" "));
  } catch (error) {
    if (error && /timed out/.test(String(error.message))) return null;
    if (error instanceof CutOff) return outside.events;
    const thrown = error && error.name ? error.name : outside.told(error);
    outside.events.push(["threw", thrown, ...outside.added()].join(" "));
  }
  return outside.events;
}

function minified(tree) {
  const { status, output, notes } = run(program, tree);
  if (status !== 0) throw new Error(`status ${status} ${notes}for ${print(tree)}`);
  return JSON.parse(output);
}

// ---- all of them

const total = { scripts: 0, changed: 0, "lost a name": 0, runs: 0, events: 0, "ended by an absent name": 0, "too long": 0, wrong: 0 };

function compare(before, after) {
  for (const { salt, lacks } of OUTSIDES) {
    const [first, second] = [before, after].map((tree) => eventsOf(tree, seed * 1000 + salt, lacks));
    total.runs += 1;
    if (first === null || second === null) {
      total["too long"] += 1;
      continue;
    }
    total.events += first.length;
    total["ended by an absent name"] += lacks > 0 && /^threw ReferenceError/.test(first.at(-1)) ? 1 : 0;
    if (first.join("\n") === second.join("\n")) continue;
    total.wrong += 1;
    const at = first.findIndex((event, index) => event !== second[index]);
    console.log(`WRONG at event ${at}: ${first[at]} | ${second[at]}\n  ${textOf(before)}\n  ${textOf(after)}`);
  }
}

function judge(script, onlyChanged) {
  const tree = MODULES ? script : handedOut(script);
  const answer = minified(tree);
  if (onlyChanged && answer.passes === 1) return false;
  total.scripts += 1;
  total["lost a name"] += answer.symbols.length < symbolNames(tree).length ? 1 : 0;
  total.changed += answer.passes > 1 ? 1 : 0;
  compare(tree, answer.program);
  return true;
}

// Whether a piece is a script by itself: not, where it has a private name, `super` or a `return` of
// what it was cut from.
function isScript(tree) {
  try {
    return tree.sourceType === "script" && !isOutside(tree) && !isUnread(tree) && parse(print(tree)) !== null;
  } catch {
    return false;
  }
}

function judgeScripts() {
  for (let at = 1; at <= count; at++) judge(parse(script(seed * 100_003 + at * 7919)), false);
  let left = count;
  for (const [, tree] of chosenPieces(count * 40, seed)) if (left > 0 && isScript(tree) && judge(tree, true)) left -= 1;
}

function main() {
  if (MODULES) for (const tree of chosenModules(count, seed)) judge(tree, false);
  else judgeScripts();
  console.log(Object.entries(total).map(([key, value]) => `${key} ${value}`).join(", "));
  process.exitCode = total.wrong > 0 ? 1 : 0;
}

main();
