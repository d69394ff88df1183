// How the time of the built program grows with its input, shape by shape. Builds nothing.
//
//     node --expose-internals bench/growth.js [PROGRAM [BYTES [SHAPE]]]
//
// PROGRAM is crates/mini_app/out/mini_app of this repository unless it is given. Each shape is made
// so large that its JSON has about BYTES (1,000,000), and half as large, in sizes that double from
// a sixteenth on, so that one which takes too long (LIMIT seconds) stops early. With SHAPE only the
// shapes whose name has that word. A line a shape: the bytes, the seconds of processor at half of
// them and at all, and the ratio of the two, of which at most RATIO is wanted where they are more
// than LEAST. Then the median of the seconds a MB, and the shapes that take more than TIMES as
// many. What is above its bound, ends by a signal or stops early is marked, and the status is 1.
"use strict";
const { spawnSync } = require("child_process");
const fs = require("fs");
const os = require("os");
const path = require("path");
const { words } = require("./built.js");
const { parse, text } = require("./estree.js");

const RATIO = 2.3;
const TIMES = 50;
const LIMIT = 20;
const LEAST = 0.1;
const STEPS = 4;

const each = (n, make, between = " ") => Array.from({ length: n }, (_, at) => make(at)).join(between);
const body = (statements) => `function F(a, b, p, r) { ${statements} }`;
// Single-use names one in another: each initializer reads the name before it.
const chain = (make) => (n) => body(`let v0 = g(), ${each(n, (i) => `v${i + 1} = ${make(`v${i}`)}`, ", ")}; return v${n};`);
const apart = (make) => (n) => body(`${each(n, (i) => `let v${i} = ${i ? make(`v${i - 1}`) : "g()"};`)} return v${n - 1};`);
// Names that all stand in one list at the end.
const listed = (kind, make) => (n) => body(`${kind} ${each(n, (i) => `v${i} = ${make(i)}`, ", ")}; return [${each(n, (i) => `v${i}`, ", ")}];`);
const guards = (make) => (n) => body(`${each(n, make)} return f();`);
const loop = (make, head = "for (;;)") => (n) => body(`${head} { ${each(n, make)} }`);
const nest = (depth, open, inside, close, end = "") => (n) => each(Math.ceil(n / depth), () => open.repeat(depth) + inside + close.repeat(depth) + end);
const letters = (i) => i.toString(2).padStart(18, "0").replace(/0/g, "Aa").replace(/1/g, "BB");

const SHAPES = {
  "calls": (n) => each(n, () => "f();"),
  "calls of names that differ": (n) => each(n, (i) => `f${i}();`),
  "var without value": (n) => each(n, (i) => `var v${i};`),
  "one var again and again": (n) => each(n, () => "var v = g();"),
  "let at the top": (n) => each(n, (i) => `let v${i} = g();`),
  "let that nothing reads": (n) => body(each(n, (i) => `let v${i} = g();`)),
  "let read in the next statement": (n) => body(each(n, (i) => `let v${i} = g(); if (v${i}) h();`)),
  "let read twice": (n) => body(each(n, (i) => `let v${i} = g(); h(v${i}, v${i});`)),
  "let, all read at the end": (n) => body(`${each(n, (i) => `let v${i} = g();`)} ${each(n, (i) => `h(v${i});`)}`),
  "names of one hash": (n) => body(`${each(n, (i) => `let ${letters(i)} = g();`)} ${each(n, (i) => `h(${letters(i)}, ${letters(i)});`)}`),
  "chain of arrays": chain((v) => `[p, ${v}]`),
  "chain of members": chain((v) => `${v}.p`),
  "chain of negations": chain((v) => `!${v}`),
  "chain of &&": chain((v) => `${v} && a`),
  "chain of conditionals": chain((v) => `${v} ? a : b`),
  "chain of calls": chain((v) => `${v}(a)`),
  "chain of sums": chain((v) => `a + ${v}`),
  "chain of templates": chain((v) => `\`a\${${v}}\``),
  "chain of objects": chain((v) => `({ p: ${v} })`),
  "chain of new": chain((v) => `new ${v}(a)`),
  "chain of statements": apart((v) => `[p, ${v}]`),
  "aliases in a list": listed("const", () => "x"),
  "aliases of a parameter in a list": listed("const", () => "p"),
  "calls in a list": listed("let", () => "g()"),
  "constants in a list": listed("const", (i) => i % 7),
  "functions in a list": listed("const", () => "() => p"),
  "constants read far away": (n) => body(`${each(n, (i) => `const v${i} = ${i % 7};`)} ${each(n, () => "f();")} ${each(n, (i) => `h(v${i});`)}`),
  "var further inside": (n) => body(each(n, (i) => `if (g(${i})) { var x${i} = p(${i}); b(x${i}, x${i}); c(); }`)),
  "var further inside, read once": (n) => body(each(n, (i) => `if (a) { var x${i} = g(); h(x${i}); }`)),
  "one var further inside": (n) => body(each(n, (i) => `if (g(${i})) { var x = p(${i}); b(x, x); c(); }`)),
  "guards that return a call": guards(() => "if (a) return f();"),
  "guards that return a name": guards(() => "if (a) return r;"),
  "guards that return nothing": guards(() => "if (a) return; b();"),
  "guards that return a member": guards(() => "if (a) return f.g;"),
  "guards that throw": (n) => body(`${each(n, () => "if (a) throw f();")} throw f();`),
  "guards of names that differ": guards((i) => `if (a${i}) return b${i};`),
  "guards in blocks": guards(() => "if (a) { b(); return r; }"),
  "guards that break": loop(() => "if (a) break;"),
  "guards that break, and calls": loop(() => "if (a) break; b();"),
  "guards that continue": loop(() => "if (a) continue; b();", "while (p)"),
  "guards that leave a label": (n) => body(`l: { ${each(n, () => "if (a) break l; b();")} }`),
  "if and else": (n) => each(n, () => "if (a) b(); else c();"),
  "if without else": (n) => each(n, (i) => `if (a${i}) b();`),
  "if in if": nest(40, "if (a) { b(); ", "c();", "}"),
  "blocks in blocks": nest(50, "{ let x = g(); h(x, x); ", "c();", "}"),
  "sequences": (n) => `x = (${each(n, () => "a", ", ")}, c);`,
  "sequences of calls": (n) => `x = (${each(n, () => "a()", ", ")}, c);`,
  "sequences in a sequence": (n) => `x = (${each(n, () => "(a(), b)", ", ")}, c);`,
  "this in a sequence": (n) => body(`${each(n, () => "this, f()", ", ")};`),
  "sequences in one another": nest(40, "(a(), ", "b", ", c)", ";"),
  "templates of constants": (n) => `x = \`${each(n, (i) => `a\${${i % 10}}`, "")}\`;`,
  "templates of names": (n) => `x = \`${each(n, () => "a${p}", "")}\`;`,
  "sums of constants": nest(40, "(1 + ", "a", ")", ";"),
  "arrays": (n) => `x = [${each(n, () => "true", ", ")}];`,
  "arrays spread in an array": (n) => `x = [${each(n, () => "...[a, b]", ", ")}];`,
  "objects with keys": (n) => `x = { ${each(n, (i) => `["k${i}"]: true`, ", ")} };`,
  "objects spread in an object": (n) => `x = { ${each(n, () => "...{ a, b }", ", ")} };`,
  "class members": (n) => `class C { ${each(n, (i) => `["m${i}"]() { return true; }`)} }`,
  "cases that break": (n) => `switch (a) { ${each(n, (i) => `case ${i}: b(); break;`)} }`,
  "cases of one body": (n) => `switch (a) { ${each(n, (i) => `case ${i}:`)} b(); }`,
  "cases that return": (n) => body(`switch (a) { ${each(n, (i) => `case ${i}: return b;`)} }`),
  "switches": (n) => each(n, () => "switch (a) { case 1: b(); break; default: c(); }"),
  "closures over one name": (n) => body(`let v = g(); ${each(n, () => "h(() => v);")}`),
  "closures over a name each": (n) => body(each(n, (i) => `let v${i} = g(); h(() => v${i});`)),
  "closures in a loop": loop((i) => `let v${i} = g(); h(() => v${i});`),
  "functions that nothing calls": (n) => body(each(n, (i) => `function f${i}() { return ${i}; }`)),
  "functions called once": (n) => body(each(n, (i) => `function f${i}() { return a; } h(f${i}());`)),
  "arrows called at once": (n) => each(n, () => "x = (() => a)();"),
  "functions in functions": nest(15, "f(function (a) { let x = a(); ", "c();", "return x; });"),
  "loops after a var": (n) => body(each(n, (i) => `var v${i} = g(); for (; v${i}; ) b(v${i});`)),
  "while": (n) => each(n, () => "while (true) { if (a) b(); else break; }"),
  "try": (n) => each(n, () => "try { a(); } catch (e) { b(); } finally { }"),
  "assignments": (n) => each(n, () => "x = x + 1;"),
  "comparisons with undefined": (n) => each(n, () => "x = a === void 0 || a === null;"),
  "members by text": (n) => each(n, () => "x = a['b']['c'];"),
  "logical operators": nest(20, "a && (b || ", "c()", ")", ";"),
  "parameters": (n) => `function F(${each(n, (i) => `p${i}`, ", ")}) { return p0; }`,
};

const inputOf = (make, n) => text(parse(make(n)));

// So many units that the JSON has about these bytes.
function unitsFor(make, bytes) {
  const [few, many] = [400, 1200];
  const slope = (inputOf(make, many).length - inputOf(make, few).length) / (many - few);
  return Math.max(1, Math.round(bytes / slope));
}

// Seconds of processor and how the run ended.
function timed(program, input) {
  const folder = fs.mkdtempSync(path.join(os.tmpdir(), "growth-"));
  const file = path.join(folder, "input.json");
  fs.writeFileSync(file, input);
  const line = `ulimit -t ${4 * LIMIT}; TIMEFORMAT="%U %S"; time "$0" --max-depth=1000 < "$1" > /dev/null 2> /dev/null`;
  const ended = spawnSync("bash", ["-c", line, program, file]);
  fs.rmSync(folder, { recursive: true });
  const [user, system] = ended.stderr.toString().trim().split("\n").at(-1).split(" ").map(Number);
  return { seconds: user + system, status: ended.status };
}

// The last two sizes that were run.
function grown(program, make, bytes) {
  const units = unitsFor(make, bytes);
  const runs = [];
  for (let step = STEPS; step >= 0; step -= 1) {
    const input = inputOf(make, Math.max(1, Math.round(units / 2 ** step)));
    const { seconds, status } = timed(program, input);
    runs.push({ bytes: input.length, seconds, status });
    if (status !== 0 || seconds > LIMIT) break;
  }
  const [before, last] = runs.slice(-2);
  return { before, last, ratio: last.seconds / before.seconds };
}

function main() {
  const { program, count: bytes } = words(1_000_000);
  const rows = [];
  for (const [name, make] of Object.entries(SHAPES)) {
    if (!name.includes(process.argv[4] ?? "")) continue;
    const row = { name, ...grown(program, make, bytes) };
    rows.push(row);
    const { before, last, ratio } = row;
    const marks = [last.status !== 0 && `ended with ${last.status}`, last.bytes < bytes * 0.8 && "stopped early", ratio > RATIO && last.seconds > LEAST && "ratio"].filter(Boolean);
    if (marks.length > 0) process.exitCode = 1;
    const numbers = [last.bytes, before.seconds.toFixed(2), last.seconds.toFixed(2), ratio.toFixed(2)];
    console.log(name.padEnd(34) + numbers.map((word) => String(word).padStart(10)).join("") + "  " + marks.join(", "));
  }
  const perByte = ({ last }) => last.seconds / last.bytes;
  const median = rows.map(perByte).sort((a, b) => a - b)[Math.floor(rows.length / 2)];
  console.log(`median: ${(median * 1_000_000).toFixed(2)} seconds a MB`);
  for (const row of rows.filter((one) => perByte(one) > TIMES * median)) {
    console.log(`${row.name}: ${Math.round(perByte(row) / median)} times the median`);
    process.exitCode = 1;
  }
}

if (require.main === module) main();

module.exports = { SHAPES, timed };
