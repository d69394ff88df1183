// Holds the early errors that the built program tells against those that acorn finds, in random
// scripts and modules with few names, many declarations and many jumps. Builds nothing.
//
//     node --expose-internals bench/early.js [PROGRAM [COUNT [SEED]]]
//
// PROGRAM is crates/mini_app/out/mini_app of this repository unless it is given: `rt run` in
// crates/mini_app makes it. COUNT is 2,000 and SEED is 1. Where acorn finds a name that is declared
// twice, the program must refuse with EarlyName at one of those; else, where it finds a jump
// without a target, with EarlyJump at one of those; else it must answer.
"use strict";
const { words, run } = require("./built.js");
const { isOutside, parseWithErrors } = require("./estree.js");
const { chances } = require("./pieces.js");

const { program, count, seed } = words(2000);
const NAMES = ["a", "b", "c", "d", "e", "f", "g", "h", "i", "j", "k", "l", "m", "n", "o", "p", "q", "r", "s", "t"];

class Generator {
  constructor(seed) {
    this.chance = chances(seed);
    this.names = NAMES.slice(0, 3 + this.chance(NAMES.length - 2));
    this.isModule = this.chance(3) === 0;
    this.isStrict = this.isModule || this.chance(2) === 0;
  }

  pick(list) {
    return list[this.chance(list.length)];
  }

  name() {
    return this.pick(this.names);
  }

  pattern() {
    return this.pick([() => this.name(), () => this.name(), () => `[${this.name()}, ${this.name()}]`, () => `{ k: ${this.name()}, ...${this.name()} }`])();
  }

  // Declarators of a kind, each with an initializer.
  declaration() {
    return `${this.pick(["var", "var", "let", "const"])} ${this.pattern()} = 0${this.chance(3) === 0 ? `, ${this.pattern()} = 0` : ""}`;
  }

  functionText(name, depth) {
    return `function ${name}(${this.parameters()}) ${this.block(depth, true)}`;
  }

  parameters() {
    const [first, second] = this.pick([[0, 1], [1, 2], [0, 2]]).map((at) => this.names[at]);
    return this.pick(["", first, `${first}, ${second}`, `${first} = 0`, `{ ${first} }, ...${second}`]);
  }

  // A block; directly in a body functions may be declared.
  block(depth, isBody = false) {
    return `{ ${this.statements(depth, isBody)} }`;
  }

  statements(depth, isBody) {
    let text = "";
    for (let at = this.chance(3); at >= 0; at--) text += ` ${this.statement(depth, isBody)}`;
    return text;
  }

  jump() {
    return this.pick(["break;", "continue;", "return;", ";", ";", ";", "0;", "0;", `break ${this.name()};`, `continue ${this.name()};`]);
  }

  loop(depth) {
    const body = this.chance(3) === 0 ? this.jump() : this.block(depth);
    const heads = [`while (0) `, `for (;;) `, `for (${this.declaration()};;) `, `for (const ${this.pattern()} of 0) `, `for (var ${this.pattern()} in 0) `];
    return this.chance(6) === 0 ? `do ${body} while (0);` : this.pick(heads) + body;
  }

  statement(depth, isBody) {
    if (depth <= 0) return this.pick([() => `${this.declaration()};`, () => this.jump(), () => "0;"])();
    const below = depth - 1;
    const forms = [
      () => `${this.declaration()};`,
      () => `${this.declaration()};`,
      () => `class ${this.name()} { m(${this.parameters()}) ${this.block(below, true)} static ${this.block(below, true)} }`,
      () => (isBody || this.isStrict ? this.functionText(this.name(), below) : "0;"),
      () => `(function () ${this.block(below, true)});`,
      () => `0, (${this.parameters()}) => ${this.block(below, true)};`,
      () => this.block(below),
      () => this.block(below),
      () => this.loop(below),
      () => this.loop(below),
      () => `${this.name()}: ${this.chance(2) === 0 ? this.loop(below) : this.block(below)}`,
      () => `${this.name()}: ${this.name()}: ${this.loop(below)}`,
      () => `switch (0) { case 0: ${this.statements(below, false)} default: ${this.statements(below, false)} }`,
      () => `try ${this.block(below)} catch (${this.pattern()}) ${this.block(below)}`,
      () => `if (0) ${this.chance(2) === 0 ? this.jump() : this.block(below)}`,
      () => this.jump(),
    ];
    return this.pick(forms)();
  }

  modulePart() {
    const parts = [
      () => `import ${this.name()} from "m";`,
      () => `import { k as ${this.name()}, l as ${this.name()} } from "m";`,
      () => `import * as ${this.name()} from "m";`,
      () => `export ${this.declaration()};`,
      () => `export ${this.functionText(this.name(), 1)}`,
      () => `export class ${this.name()} { }`,
      () => `export default ${this.functionText(this.chance(2) === 0 ? this.name() : "", 1)}`,
    ];
    return this.pick(parts)();
  }

  source() {
    const own = this.isModule ? this.modulePart() : this.isStrict ? '"use strict";' : "";
    return `${own} ${this.statements(2, true)}`;
  }
}

// A source for a seed, and whether it is a module.
function generated(seed) {
  const generator = new Generator(seed);
  return { source: generator.source(), sourceType: generator.isModule ? "module" : "script" };
}

// The node that a JSON pointer leads to.
function nodeAt(tree, pointer) {
  return pointer.split("/").slice(1).reduce((value, step) => value && value[step], tree);
}

const total = { programs: 0, "a name twice": 0, "a jump without a target": 0, neither: 0, wrong: 0 };

// What is due: the error, and where it may be told.
function due({ names, jumps }) {
  if (names.length > 0) return { error: "EarlyName", places: names, kind: "a name twice" };
  return jumps.length > 0 ? { error: "EarlyJump", places: jumps, kind: "a jump without a target" } : { kind: "neither" };
}

function isDue(tree, { error, places }, { status, notes }) {
  if (!error) return status === 0;
  const [, told, pointer] = /^refused: (\w+) at (.*)\n$/.exec(notes) || [];
  const node = told === error && nodeAt(tree, pointer);
  return status === 3 && Boolean(node) && places.includes(node.start);
}

function look({ source, sourceType }) {
  const found = parseWithErrors(source, sourceType);
  if (isOutside(found.tree)) return;
  const wanted = due(found);
  const ended = run(program, found.tree);
  total.programs += 1;
  total[wanted.kind] += 1;
  if (isDue(found.tree, wanted, ended)) return;
  total.wrong += 1;
  console.log(`WRONG: status ${ended.status} ${ended.notes.trim()}, where ${wanted.kind} is at ${wanted.places}: ${source}`);
}

function main() {
  for (let at = 1; at <= count; at++) look(generated(seed * 100_003 + at * 7919));
  console.log(Object.entries(total).map(([key, value]) => `${key} ${value}`).join(", "));
  process.exitCode = total.wrong > 0 ? 1 : 0;
}

main();
