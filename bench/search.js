// Looks for input that takes the built program long: random compositions of the shapes of
// bench/growth.js. Builds nothing.
//
//     node --expose-internals bench/search.js [PROGRAM [MINUTES [SEED [BYTES]]]]
//
// PROGRAM is crates/mini_app/out/mini_app of this repository unless it is given. Each composition
// takes two to four shapes, puts their statements one behind another, by turns, or one into
// another, some inside loops, branches, blocks, closures, `try` or `switch`, and makes them so
// large that the JSON has about BYTES (200,000). Compositions are numbered from SEED (1) on, and
// the number is the seed of each. After MINUTES (60): how many were answered, how many the parser
// or the program refused (names that are declared twice, JSON that nests too deep), the median of
// the seconds a MB of those that were answered, and the ten worst, as times of the median, with
// their numbers and shapes. The status is 1 where one takes more than TIMES times the median, or
// ends in another way than by an answer or a refusal.
"use strict";
const acorn = require("internal/deps/acorn/acorn/dist/acorn");
const { words } = require("./built.js");
const { parse, text } = require("./estree.js");
const { SHAPES, timed } = require("./growth.js");

const TIMES = 10;
const FEW = 60;
// The statuses of input that is refused: no JSON to the program, and no program.
const REFUSED = [2, 3];

// Numbers below a bound, of a seed (mulberry32).
function chance(seed) {
  let state = seed >>> 0;
  return (bound) => {
    state = (state + 0x6d2b79f5) >>> 0;
    let mixed = Math.imul(state ^ (state >>> 15), state | 1);
    mixed ^= mixed + Math.imul(mixed ^ (mixed >>> 7), mixed | 61);
    return ((mixed ^ (mixed >>> 14)) >>> 0) % bound;
  };
}

// The statements of a shape's code, those of its function where it is one alone, each name of which
// begins with `v` made another.
function statementsOf(name, units, mark) {
  const code = SHAPES[name](units).replace(/\b([vF])(?=\d|\b)/g, `$1${mark}`);
  const { body } = acorn.parse(code, { ecmaVersion: 2022, sourceType: "script", allowReturnOutsideFunction: true });
  const alone = body.length === 1 && body[0].type === "FunctionDeclaration" ? body[0].body.body : body;
  return alone.map((node) => code.slice(node.start, node.end));
}

const WRAPS = [
  (code) => code,
  (code) => `{ ${code} }`,
  (code) => `if (a) { ${code} }`,
  (code) => `if (a) { ${code} } else { b(); }`,
  (code) => `for (;;) { ${code} break; }`,
  (code) => `while (a) { ${code} }`,
  (code) => `try { ${code} } catch (e) { b(e); }`,
  (code) => `switch (a) { case 1: ${code} }`,
  (code) => `f(function (a, b, p, r) { ${code} });`,
  (code) => `f((a, b, p, r) => { ${code} });`,
  (code) => `out: { ${code} }`,
];

// One behind another, by turns, or the later behind the first half of the earlier.
const JOINS = [
  (one, two) => [...one, ...two],
  (one, two) => one.flatMap((code, at) => (at < two.length ? [code, two[at]] : [code])).concat(two.slice(one.length)),
  (one, two) => [...one.slice(0, one.length / 2), ...two, ...one.slice(one.length / 2)],
  (one, two, wrap) => [...one.slice(0, one.length / 2), wrap(two.join(" ")), ...one.slice(one.length / 2)],
];

// Code of such shapes, each of so many units, made by the numbers of `pick`.
function composed(names, units, pick) {
  const parts = names.map((name, at) => statementsOf(name, units, "abcd"[at]));
  const joined = parts.reduce((all, part) => {
    const wrap = WRAPS[pick(WRAPS.length)];
    const join = JOINS[pick(JOINS.length)];
    return join(all, pick(2) === 0 ? part : [wrap(part.join(" "))], wrap);
  });
  return `function G(a, b, p, r) { ${joined.join(" ")} }`;
}

const jsonOf = (names, units, seed) => text(parse(composed(names, units, chance(seed))));

// The composition of a number: its shapes and its JSON, or nothing where the shapes don't go
// together (a name twice, say).
function composition(number, bytes) {
  const pick = chance(number * 2 + 1);
  const all = Object.keys(SHAPES);
  const names = Array.from({ length: 2 + pick(3) }, () => all[pick(all.length)]);
  try {
    const slope = jsonOf(names, FEW, number).length / FEW;
    return { names, json: jsonOf(names, Math.max(1, Math.round(bytes / slope)), number) };
  } catch (error) {
    if (error instanceof SyntaxError) return null;
    throw error;
  }
}

function main() {
  const { program, count: minutes, seed } = words(60);
  const bytes = Number(process.argv[5] ?? 200_000);
  const end = Date.now() + minutes * 60_000;
  const rows = [];
  let refused = 0;
  for (let number = seed; Date.now() < end; number += 1) {
    const made = composition(number, bytes);
    const { seconds, status } = made === null ? { status: REFUSED[0] } : timed(program, made.json);
    if (REFUSED.includes(status)) refused += 1;
    else rows.push({ number, names: made.names, rate: (seconds / made.json.length) * 1_000_000, status });
  }
  rows.sort((one, two) => two.rate - one.rate);
  const median = rows[Math.floor(rows.length / 2)].rate;
  console.log(`${rows.length} answered, ${refused} refused; median ${median.toFixed(2)} seconds a MB`);
  for (const { number, names, rate } of rows.slice(0, 10)) console.log(`${number}: ${(rate / median).toFixed(1)} times: ${names.join(" + ")}`);
  const strange = rows.filter(({ status }) => status !== 0);
  for (const { number, names, status } of strange) console.log(`${number}: status ${status}: ${names.join(" + ")}`);
  if (strange.length > 0 || rows[0].rate > TIMES * median) process.exitCode = 1;
}

main();
