// Random programs for the detector: every type of ESTree, names of all kinds (declared, shared,
// absent), and the shapes that the rewrites read. A seed gives always the same one.
"use strict";
const { chances } = require("../pieces.js");

const ABSENT = ["a", "b", "c", "f", "g"];
const CONSTANTS = [
  "0", "1", "2", '""', '"s"', "null", "true", "false", "undefined", "void 0", "!0", "7n", "-1",
];
const BINARY = [
  "+", "-", "*", "/", "%", "**", "&", "|", "^", "<<", ">>", ">>>",
  "<", ">", "<=", ">=", "in", "instanceof",
];
const KNOWN = ["true", "false", "1", "0"];
const TYPES = ['"undefined"', '"string"', '"text"'];
const EQUALITIES = ["==", "!=", "===", "!=="];
const COMPOUND = ["=", "=", "=", "+=", "-=", "*=", "|=", "||=", "&&=", "??="];

class Generator {
  constructor(seed) {
    this.chance = chances(seed);
    for (let at = 0; at < 8; at++) this.chance(2);
    this.scopes = [];
    this.count = 0;
    this.state = { inFunction: false, inGenerator: false, inLoop: false, inMethod: false };
  }

  pick(list) {
    return list[this.chance(list.length)];
  }

  // One of several texts, of which only the chosen one is made.
  one(...makers) {
    return this.pick(makers)();
  }

  // ---- names

  fresh() {
    this.count += 1;
    return this.chance(4) === 0 ? this.pick(["x", "y"]) + this.count : `v${this.count}`;
  }

  declare(name) {
    this.scopes.at(-1)?.push(name);
    return name;
  }

  name() {
    const declared = this.scopes.flat();
    return declared.length > 0 && this.chance(3) > 0 ? this.pick(declared) : this.pick(ABSENT);
  }

  within(state, give) {
    const before = this.state;
    this.state = { ...before, ...state };
    this.scopes.push([]);
    const text = give();
    this.scopes.pop();
    this.state = before;
    return text;
  }

  // Text that a function gives where other forms may stand, in the scope that is open.
  withState(state, give) {
    const before = this.state;
    this.state = { ...before, ...state };
    const text = give();
    this.state = before;
    return text;
  }

  // ---- expressions, each in parentheses

  expression(depth) {
    if (depth <= 0) return this.chance(3) === 0 ? this.constant() : this.name();
    const makers = [
      this.logic, this.logic, this.choice, this.operator,
      this.access, this.set, this.shape, this.rest,
    ];
    return `(${this.pick(makers).call(this, depth - 1)})`;
  }

  constant() {
    return this.pick(CONSTANTS);
  }

  logic(depth) {
    const [x, e] = [this.name(), () => this.expression(depth)];
    return this.one(
      () => `!${e()}`,
      () => `!(${e()} ${this.pick(EQUALITIES)} ${e()})`,
      () => `${e()} ${this.pick(["&&", "||", "??"])} ${e()}`,
      () => `${e()} && (${e()} && ${e()})`,
      () => `${x} === null || ${x} === undefined`,
      () => `${x} !== void 0 && ${x} !== null`,
      () => `typeof ${x} === "object" && ${x} !== null`,
      () => `${x} || (${x} = ${e()})`,
      () => `${e()} || ${this.constant()} || ${e()}`,
      () => `${e()}, ${e()}`,
    );
  }

  choice(depth) {
    const [x, e, c] = [this.name(), () => this.expression(depth), () => this.expression(0)];
    const [p, q] = [c(), c()];
    return this.one(
      () => `${e()} ? ${e()} : ${e()}`,
      () => `!${e()} ? ${e()} : ${e()}`,
      () => `${x} ? ${x} : ${e()}`,
      () =>
        `${e()} ? ${this.pick(KNOWN)} : ${this.pick([...KNOWN, p])}`,
      () => `${e()} ? ${e()} ? ${p} : ${q} : ${q}`,
      () => `${e()} ? ${p} : (${e()}, ${p})`,
      () => `${e()} ? ${x}(${p}, ${q}) : ${x}(${e()}, ${q})`,
      () => `${e()} ? ${x} = ${e()} : ${x} = ${e()}`,
      () => `${e()} ? ${x}.k = ${e()} : ${x}.k = ${e()}`,
      () => `${x} == null ? undefined : ${x}.m.n(${e()})`,
      () => `${x} != null ? ${x} : ${e()}`,
      () => `${e()} ? ${p} : ${p}`,
    );
  }

  operator(depth) {
    const e = () => this.expression(depth);
    return this.one(
      () => `${e()} ${this.pick(BINARY)} ${e()}`,
      () => `${e()} ${this.pick(EQUALITIES)} ${e()}`,
      () => `${this.pick(["+", "-", "~", "typeof ", "void ", "delete "])}${e()}`,
      () =>
        `typeof ${this.name()} ${this.pick(EQUALITIES)} ${this.pick(TYPES)}`,
      () => `(${e()} & 1) ${this.pick(EQUALITIES)} 0`,
      () => `${e()} + \`x\${${this.name()}}\` + "z"`,
      () => `${e()} ${this.pick(["|", "<<", ">>", "^"])} 0`,
      () => `${e()} + "s" + ${this.constant()}`,
      () => `+${e()} * ${this.constant()}`,
      () => `${e()} ${this.pick(["& 12 &", "| 5 |"])} 10`,
      () => `${e()} ${this.pick(["& 3", "<< 1"])} | 0`,
      () => `typeof ${this.name()} ${this.pick(EQUALITIES)} typeof ${this.name()}`,
      () => `!${e()} ${this.pick(EQUALITIES)} ${this.pick(["true", "false", "undefined", "null"])}`,
      () => `\`x\${${e()}}y\${${this.constant()}}\` + ${this.pick(['"z"', "`w`", "1"])}`,
    );
  }

  access(depth) {
    const e = () => this.expression(depth);
    return this.one(
      () => `(${e()}).p`,
      () => `(${e()})["q"]`,
      () => `(${e()})[${e()}]`,
      () => `(${this.pick(["null", "[1]", e()])})?.p.q`,
      () => `((${e()})?.p)?.[${e()}]`,
      () => `"text".length`,
      () => `${this.name()}(${e()}, ${e()})`,
      () => `(${e()}, ${this.name()}.m)(...[${e()}])`,
      () => `new ${this.name()}(${e()})`,
      () => `${this.name()}\`x\${${e()}}\``,
      () => `import(${e()})`,
    );
  }

  target() {
    return this.one(
      () => this.name(), () => `${this.name()}.k`, () => `${this.name()}["k"]`, () => `this.k`,
    );
  }

  set(depth) {
    const [t, e] = [this.target(), () => this.expression(depth)];
    return this.one(
      () => `${t} ${this.pick(COMPOUND)} ${e()}`,
      () => `${t} = ${t} ${this.pick(["+", "*", "|", "||", "??"])} ${e()}`,
      () => `${t} -= ${this.pick(["1", "-1", "2"])}`,
      () => `${t}++`,
      () => `[${t}, , ...${this.name()}] = ${e()}`,
      () => `{ p: ${t}, "q": ${this.name()} = ${e()}, ["r"]: [${t}] } = ${e()}`,
      () => this.one(() => `{ x: x, y: y = ${e()} } = ${e()}`, () => `[{ x: x }, y] = ${e()}`),
    );
  }

  shape(depth) {
    const e = () => this.expression(depth);
    const x = this.name();
    return this.one(
      () => `[${e()}, , ...${e()}]`,
      () =>
        `{ ${x}: ${x}, "k": ${e()}, [${this.pick(['"l"', "2", e()])}]: ${e()}, ...${e()}, `
          + `m() { ${this.body(depth, {})} } }`,
      () => `{ get p() { ${this.body(depth, {})} }, set q(z) { ${this.body(depth, {})} } }`,
      () => `function ${this.pick(["", this.fresh()])}${this.callable(depth, false)}`,
      () => `function* ${this.callable(depth, true)}`,
      () => this.arrow(depth),
      () => `class ${this.pick(["", this.fresh()])} ${this.classBody(depth)}`,
    );
  }

  rest(depth) {
    const e = () => this.expression(depth);
    return this.one(
      () => "this",
      () => "/r/g",
      () => (this.state.inGenerator ? `yield ${this.pick(["", e(), "void 0"])}` : e()),
      () => (this.state.inGenerator ? `yield* ${e()}` : e()),
      () => (this.state.inFunction ? "new.target" : e()),
      () => (this.state.inMethod ? `super.m(${e()})` : e()),
      () => `-(${e()}, 5)`,
      () => `(${e()}, ${e()}) + ${e()}`,
      () => (this.chance(4) === 0 ? `eval(${e()})` : e()),
      () => (this.state.inFunction ? "arguments[0]" : e()),
    );
  }

  // ---- functions and classes

  parameters(depth) {
    const names = [this.declare(this.fresh()), this.declare(this.fresh())];
    return this.one(
      () => "",
      () => names[0],
      () => names.join(", "),
      () => `${names[0]}, ...${names[1]}`,
      () =>
        `${names[0]} = ${this.default(depth - 1)}, `
          + `{ p: ${names[1]}, ["q"]: ${this.declare(this.fresh())} = 1 } = {}`,
    );
  }

  // The default of a parameter, in which no `yield` may stand.
  default(depth) {
    return this.withState({ inGenerator: false }, () => this.expression(depth));
  }

  callable(depth, inGenerator) {
    const state = { inFunction: true, inGenerator, inLoop: false, inMethod: false };
    return this.within(state, () => `(${this.parameters(depth)}) { ${this.list(depth)} }`);
  }

  body(depth, state) {
    const usual = { inFunction: true, inGenerator: false, inLoop: false, inMethod: true };
    return this.within({ ...usual, ...state }, () => this.list(depth));
  }

  arrow(depth) {
    return this.within({ inGenerator: false, inLoop: false }, () => {
      const parameters = this.parameters(depth);
      if (this.chance(2) === 0) return `(${parameters}) => ${this.expression(depth)}`;
      return this.within({ inFunction: true }, () => `(${parameters}) => { ${this.list(depth)} }`);
    });
  }

  classBody(depth) {
    const state = { inFunction: false, inGenerator: false, inLoop: false, inMethod: true };
    return this.within(state, () => {
      const e = () => this.expression(depth);
      const extending = this.chance(3) === 0;
      const members = [
        () => `constructor() { ${extending ? "super(this);" : ""} ${this.body(depth, {})} }`,
        () => `"m"(z) { ${this.body(depth, {})} }`,
        () => `static ["s"] = ${e()};`,
        () => `#p = ${e()}; h(o) { return #p in o && o.#p || ${e()}; }`,
        () => `static { ${this.within({ inLoop: false }, () => this.list(depth))} }`,
        () => `get [${this.withState({ inMethod: false }, e)}]() { ${this.body(depth, {})} }`,
      ];
      return `${extending ? `extends ${this.name()}` : ""} { ${this.pick(members)()} }`;
    });
  }

  // ---- statements

  list(depth) {
    let text = "";
    for (let at = 1 + this.chance(4); at > 0; at--) text += `${this.statement(depth - 1)} `;
    return text;
  }

  block(depth, state = {}) {
    return this.within(state, () => `{ ${this.list(depth)} }`);
  }

  statement(depth) {
    const e = () => this.expression(depth);
    if (depth <= 0) {
      return this.one(
        () => `${e()};`, () => `${this.name()}(${e()});`,
        () => this.jump(0), () => this.declaration(0),
      );
    }
    const makers = [
      this.branch, this.declaration, this.declaration, this.loop, this.jump, this.other,
    ];
    return this.chance(3) === 0 ? `${e()};` : this.pick(makers).call(this, depth);
  }

  declaration(depth) {
    const e = () => this.expression(depth);
    const [one, two] = [this.fresh(), this.fresh()];
    const text = this.one(
      () => `let ${one} = ${e()};`,
      () => `const ${one} = ${e()}; ${this.name()}(${one}, ${e()});`,
      () =>
        `let ${one} = ${e()}; ${this.jumpWord()} ${one}.m(${this.name()});`,
      () => `var ${one} = ${e()}, ${two} = ${one};`,
      () => `let ${one} = ${this.name()}(), ${two} = [${one}, ${e()}];`,
      () => `var ${one}; ${one} = ${e()};`,
      () => `let ${one} = undefined;`,
      () => `const { p: ${one}, ["q"]: ${two} = 1 } = ${e()};`,
      () => `var ${one} = ${e()}; var ${two} = ${e()};`,
    );
    this.declare(one);
    if (text.includes(two)) this.declare(two);
    return text;
  }

  // A word that may stand before an expression here.
  jumpWord() {
    return this.pick(this.state.inFunction ? ["return", "throw", ""] : ["throw", ""]);
  }

  branch(depth) {
    const [e, s] = [() => this.expression(depth), () => this.plain(depth - 1)];
    return this.one(
      () => `if (${e()}) ${s()}`,
      () => `if (!${e()}) ${s()} else ${s()}`,
      () => `if (${e()}) ; else ${s()}`,
      () => `if (${e()}) { if (${e()}) ${s()} }`,
      () => `if (${e()}) ${this.jump(0)} ${this.jump(0)}`,
      () => `if (${e()}) { ${s()} ${this.jump(0)} } ${s()}`,
      () => this.guards(depth),
      () =>
        `switch (${this.pick([e(), "2"])}) { case 1: ${s()} `
          + `case ${this.pick(["2", e()])}: ${s()} default: ${s()} }`,
      () => `switch (${e()}) { case ${this.constant()}: ${this.block(depth - 1).slice(1, -1)} }`,
    );
  }

  // Two tests of one jump.
  guards(depth) {
    const jump = this.jump(0);
    const [first, second] = [this.expression(depth), this.expression(depth)];
    return `if (${first}) ${jump} if (${second}) ${jump} debugger;`;
  }

  // A statement that may stand alone as a body.
  plain(depth) {
    return this.one(
      () => this.block(depth), () => `${this.expression(depth)};`, () => this.jump(0),
    );
  }

  loop(depth) {
    const e = () => this.expression(depth);
    const body = (extra = "") => this.block(depth, { inLoop: true }).replace(/^\{/, `{ ${extra}`);
    const one = this.fresh();
    return this.one(
      () => `while (${e()}) ${body()}`,
      () => `do ${body()} while (${this.pick([e(), "0", "false"])});`,
      () => `for (let ${one} = ${e()}; ${one} < ${e()}; ${one} -= 1) ${body()}`,
      () => `for (; ${this.pick(["", e()])};) ${body(`if (${e()}) break; `)}`,
      () => `var ${one}; for (${one} ${this.pick(["in", "of"])} ${e()}) ${body()}`,
      () => `for (const ${one} of ${e()}) ${body(`${one}(${e()}); `)}`,
      () => `for (var ${one} in ${e()}) ${body()}`,
    );
  }

  jump(depth) {
    const e = () => this.expression(depth + 1);
    const found = [() => `throw ${e()};`];
    if (this.state.inFunction) {
      found.push(() => `return ${e()};`, () => "return;", () => "return void 0;");
    }
    if (this.state.inLoop) found.push(() => "break;", () => "continue;");
    return this.pick(found)();
  }

  other(depth) {
    const e = () => this.expression(depth);
    const one = this.fresh();
    return this.one(
      () => ";",
      () => "debugger;",
      () => this.block(depth - 1),
      () => `l${one}: ${this.block(depth - 1)}`,
      () => `l${one}: for (;;) { if (${e()}) break l${one}; ${this.block(depth - 1)} }`,
      () => `try ${this.block(depth - 1)} catch (e${this.pick(["", "1"])}) { ${e()}; }`,
      () =>
        `try ${this.block(depth - 1)} catch ({ p: z }) { ${e()}; } `
          + `finally ${this.block(depth - 1)}`,
      () => `class ${one} ${this.classBody(depth - 1)}`,
    );
  }

  // ---- programs

  top() {
    const main = this.declare(this.fresh());
    const isGenerator = this.chance(5) === 0;
    return `function${isGenerator ? "*" : ""} ${main}${this.callable(4, isGenerator)}`;
  }

  script() {
    this.scopes.push([]);
    const parts = [this.chance(4) === 0 ? '"use strict";' : "", this.top()];
    for (let at = this.chance(4); at > 0; at--) parts.push(this.statement(3));
    return parts.join(" ");
  }

  module() {
    this.scopes.push([]);
    const [one, two] = [this.declare(this.fresh()), this.declare(this.fresh())];
    const parts = [
      `import ${one}, { "k" as ${two} } from "m"; import * as ns from "n"; import "o";`, this.top(),
    ];
    const exported = this.fresh();
    parts.push(
      this.declaration(2), `export const ${exported} = ${this.expression(3)};`, this.statement(3),
    );
    parts.push(this.pick([
      'export * from "m";', 'export * as n from "m";',
      `export { ${exported} as z };`, "x = import.meta.url;",
    ]));
    parts.push(this.pick([
      `export default ${this.expression(2)};`, "export default function () {}",
      'export { q } from "m";',
    ]));
    return parts.join(" ");
  }
}

// A program of a seed: its text, and whether it is a script or a module.
function generated(seed) {
  const generator = new Generator(seed);
  return seed % 5 === 0
    ? { source: generator.module(), type: "module" }
    : { source: generator.script(), type: "script" };
}

module.exports = { generated };
