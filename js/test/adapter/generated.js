"use strict";
// Generated programs that wait: functions whose statements and expressions are drawn from those of
// waiting.js, one inside the other.

/** Numbers from 0 to below 1, the same ones for one seed. */
function random(seed) {
  let state = seed * 2654435761 + 1;
  return () => {
    state = (Math.imul(state ^ (state >>> 15), 0x2c1b3c6d) + 0x9e3779b9) | 0;
    return ((state ^ (state >>> 13)) >>> 0) / 4294967296;
  };
}

class Draw {
  constructor(seed) {
    this.random = random(seed);
    this.fresh = 0;
  }

  below(limit) {
    return Math.floor(this.random() * limit);
  }

  one(...forms) {
    return forms[this.below(forms.length)]();
  }

  number() {
    return this.one(() => String(this.below(4)), () => "0.5", () => "a", () => "b", () => "s.k");
  }

  /** An expression. */
  value(depth) {
    if (depth <= 0) return this.one(() => this.number(), () => `await later(${this.number()})`);
    const part = () => `(${this.value(depth - 1)})`;
    return this.one(
      () => this.number(),
      () => `await later(${part()}, ${this.below(3)})`,
      () => `await ${part()}`,
      () => `log(${part()})`,
      () => `${part()} + ${part()}`,
      () => `${part()} === ${part()}`,
      () => `${part()} ? ${part()} : ${part()}`,
      () => `${part()} && ${part()}`,
      () => `${part()} || ${part()}`,
      () => `${part()} ?? ${part()}`,
      () => `!${part()}`,
      () => `${this.target()} = ${part()}`,
      () => `${this.target()} += ${part()}`,
      () => `[${part()}, ${part()}]`,
      () => `(async () => ${part()})()`,
      () => `(${part()}, ${part()})`,
    );
  }

  target() {
    return this.one(() => "a", () => "b", () => "s.k");
  }

  block(depth) {
    const count = 1 + this.below(3);
    return `{ ${Array.from({ length: count }, () => this.statement(depth)).join(" ")} }`;
  }

  loop(depth) {
    const i = `i${this.fresh++}`;
    return this.one(
      () => `for (let ${i} = 0; ${i} < 2; ${i}++) ${this.block(depth)}`,
      () => `for (const ${i} of [1, 2]) { log(${i}); ${this.statement(depth)} }`,
      () => `for await (const ${i} of source("${i}", [1, 2])) { log(${i}); ${this.statement(depth)} }`,
      () => `for await (const ${i} of [later(1), 2]) { ${this.statement(depth)} if (${this.value(1)}) break; }`,
    );
  }

  statement(depth) {
    if (depth <= 0) return `${this.value(1)};`;
    const within = () => this.block(depth - 1);
    const name = () => `v${this.fresh++}`;
    return this.one(
      () => `${this.value(2)};`,
      () => `if (${this.value(1)}) ${within()}`,
      () => `if (${this.value(1)}) ${within()} else ${within()}`,
      () => `if (${this.value(1)}) ${this.end()}`,
      () => this.loop(depth - 1),
      () => `try ${within()} catch (e) { log("caught", e); ${this.statement(depth - 1)} }`,
      () => `try ${within()} finally ${within()}`,
      () => `try { await failing(${this.value(1)}); } catch { ${this.statement(depth - 1)} }`,
      () => this.named(name()),
      () => this.end(),
    );
  }

  named(name) {
    const kind = this.one(() => "let", () => "const", () => "var");
    return `{ ${kind} ${name} = ${this.value(2)}; log(${this.value(1)}, ${name}); }`;
  }

  end() {
    return this.one(
      () => `return ${this.value(1)};`,
      () => "return;",
      () => `throw ${this.value(1)};`,
      () => `return later(${this.value(1)});`,
      () => `return await failing(${this.value(1)});`,
    );
  }

  body() {
    return Array.from({ length: 2 + this.below(4) }, () => this.statement(2)).join(" ");
  }
}

/** A script of a few functions that wait, and what calls them. */
function generated(seed) {
  const draw = new Draw(seed);
  const functions = ["f", "g", "h"].map((name) => {
    const star = draw.below(4) === 0 ? "*" : "";
    const yields = star ? `yield ${draw.value(1)}; ` : "";
    const call = `${name}(${draw.number().replace(/[ab]|s\.k/, "1")}, 2)`;
    const run = star ? `drained(${call}, "${name}");` : `told(${call}, "${name}");`;
    return `async function${star} ${name}(a, b) { ${yields}${draw.body()} }\n${run}`;
  });
  return `const s = { k: 1 };\n${functions.join("\n")}\n`;
}

module.exports = { generated };
