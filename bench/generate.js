// Random scripts in which there is much to rewrite: negations, conditionals and `if`s over calls of
// the outside, in functions, classes, loops and patterns.
"use strict";
const { chances } = require("./pieces.js");

const OUTSIDE = ["a", "b", "c", "d", "e", "f"];

class Generator {
  constructor(seed) {
    this.chance = chances(seed);
    this.names = [...OUTSIDE];
    this.count = 0;
    this.inGenerator = false;
  }

  pick(list) {
    return list[this.chance(list.length)];
  }

  fresh() {
    this.count += 1;
    return `v${this.count}`;
  }

  // Text that a function gives, in which the names may be referred to as well.
  with(names, give) {
    const before = this.names;
    this.names = [...before, ...names];
    const text = give();
    this.names = before;
    return text;
  }

  name() {
    return this.pick(this.names);
  }

  // An expression that stands in parentheses; what is left of the depth tells how far it may nest.
  expression(depth) {
    if (depth <= 0) return this.pick([() => this.name(), () => this.name(), () => this.pick(["0", "1", '"s"', "true", "null", "this", "undefined"])])();
    return `(${this.pick([...this.common(depth), ...this.common(depth), ...this.rare(depth)])()})`;
  }

  common(depth) {
    const next = () => this.expression(depth - 1);
    return [
      () => `!${next()}`,
      () => `!${next()}`,
      () => `!(${next()} && ${next()})`,
      () => `!(${next()} || ${next()})`,
      () => `${next()} && ${next()}`,
      () => `${next()} || ${next()}`,
      () => `!${next()} ? ${next()} : ${next()}`,
      () => `${next()} ? ${next()} : ${next()}`,
      () => `${this.pick(OUTSIDE)}(${next()})`,
      () => `${this.pick(OUTSIDE)}(${next()}, ${this.name()})`,
    ];
  }

  rare(depth) {
    const next = () => this.expression(depth - 1);
    return [
      () => `${next()} ?? ${next()}`,
      () => `${this.pick(OUTSIDE)}.p`,
      () => `${this.pick(OUTSIDE)}[${next()}]`,
      () => `(${this.pick(OUTSIDE)}.m ? ${this.pick(OUTSIDE)} : ${this.pick(OUTSIDE)})(${next()}, ...[${next()}])`,
      () => `${this.pick(OUTSIDE)}?.q?.p?.[${next()}]`,
      () => `new ${this.pick(OUTSIDE)}(${next()})`,
      () => `${this.pick(OUTSIDE)} ${this.pick(["=", "+=", "||=", "??="])} ${next()}`,
      () => `${this.pick(OUTSIDE)}.p = ${next()}`,
      () => `[${this.pick(OUTSIDE)}, { k: ${this.pick(OUTSIDE)}.p = ${next()} }] = [${next()}, { k: ${next()} }]`,
      () => `${next()}, ${next()}`,
      () => `typeof ${next()}`,
      () => `delete ${this.pick(OUTSIDE)}.p`,
      () => `${this.pick(OUTSIDE)}++`,
      () => `${next()} ${this.pick(["+", "<", "==", "===", "!=", "%"])} ${next()}`,
      () => `${next()} in ${this.pick(OUTSIDE)}`,
      () => `[${next()}, , ...[${next()}]]`,
      () => `{ p: ${next()}, [${next()}]: ${next()}, ${this.method(depth)} }`,
      () => `\`x\${${next()}}y\``,
      () => `${this.pick(OUTSIDE)}\`x\${${next()}}\``,
      () => `/r/g`,
      () => this.functionText("", depth),
      () => this.arrow(depth),
      () => this.classText("", depth),
      () => (this.inGenerator ? `yield ${next()}` : next()),
    ];
  }

  // The body of a function, with a name for each of its parameters.
  body(names, depth, isGenerator) {
    const before = this.inGenerator;
    this.inGenerator = isGenerator;
    const text = this.with(names, () => `{ ${this.statements(depth - 1, true)} }`);
    this.inGenerator = before;
    return text;
  }

  // Parameters, and the names that they bind.
  parameters(depth) {
    const [first, second, third] = [this.fresh(), this.fresh(), this.fresh()];
    return this.pick([
      () => ["", []],
      () => [first, [first]],
      () => [`${first}, ...${second}`, [first, second]],
      () => [`${first} = ${this.expression(depth - 1)}, { k: ${second}, l: [${third}] = [${this.expression(depth - 1)}] } = {}`, [first, second, third]],
    ])();
  }

  functionText(name, depth) {
    const isGenerator = this.chance(4) === 0;
    const [text, names] = this.parameters(0);
    return `function${isGenerator ? "*" : ""} ${name}(${text}) ${this.body(names, depth, isGenerator)}`;
  }

  arrow(depth) {
    const [text, names] = this.parameters(0);
    if (this.chance(2) === 0) return `(${text}) => ${this.body(names, depth, false)}`;
    const before = this.inGenerator;
    this.inGenerator = false;
    const body = this.with(names, () => this.expression(depth - 1));
    this.inGenerator = before;
    return `(${text}) => ${body}`;
  }

  method(depth) {
    const [text, names] = this.parameters(0);
    return `m(${text}) ${this.body(names, depth, false)}`;
  }

  classText(name, depth) {
    const before = this.inGenerator;
    this.inGenerator = false;
    const next = () => this.expression(depth - 1);
    const members = [
      () => this.method(depth),
      () => `#p = ${next()}; g() { return #p in this ? this.#p : ${next()}; }`,
      () => `static s = ${next()};`,
      () => `get [${next()}]() { return ${next()}; }`,
      () => `static { ${this.statements(depth - 1, false)} }`,
    ];
    const text = `class ${name} { ${this.pick(members)()} ${this.pick(members.slice(0, 1))()} }`;
    this.inGenerator = before;
    return text;
  }

  statements(depth, inFunction) {
    const count = 1 + this.chance(3);
    let text = "";
    const before = this.names;
    for (let at = 0; at < count; at++) text += ` ${this.statement(depth, inFunction)}`;
    this.names = before;
    return text;
  }

  // A name that is declared where a statement stands, and may be referred to behind it.
  declared(give) {
    const name = this.fresh();
    const text = give(name);
    this.names = [...this.names, name];
    return text;
  }

  statement(depth, inFunction) {
    const next = () => this.expression(depth);
    if (depth <= 0) return `${next()};`;
    const block = () => `{ ${this.statements(depth - 1, inFunction)} }`;
    const forms = [
      () => `if (${next()}) ${next()};`,
      () => `if (!${next()}) ${next()};`,
      () => `if (${next()}) ${next()}; else ${next()};`,
      () => `if (!${next()}) ${next()}; else ${block()}`,
      () => `if (${next()}) ${block()}`,
      () => `${next()};`,
      () => this.declared((name) => `let ${name} = ${next()};`),
      () => this.declared((name) => `var ${name} = ${next()};`),
      () => this.declared((name) => `const [${name} = ${next()}] = [${next()}];`),
      () => this.declared((name) => `${this.classText(name, depth - 1)}`),
      () => `for (let i = 0; i < 2 && !${next()}; i++) ${block()}`,
      () => `for (const k of [${next()}, ${next()}]) ${block()}`,
      () => `l${this.fresh()}: ${block()}`,
      () => `switch (${next()}) { case ${next()}: ${next()}; break; default: ${next()}; }`,
      () => `try ${block()} catch ({ message: z }) ${block()} finally { ${next()}; }`,
      () => (inFunction ? `return ${next()};` : `${next()};`),
      () => `throw ${next()};`,
    ];
    return this.pick(this.chance(2) === 0 ? forms : forms.slice(0, 6))();
  }

  script() {
    const main = this.fresh();
    const parts = [this.functionText(main, 4)];
    this.names = [...this.names, main];
    for (let at = 0; at < 4; at++) parts.push(this.statement(3, false));
    return parts.join("\n");
  }
}

// A script for each seed.
const script = (seed) => new Generator(seed).script();

module.exports = { script };
