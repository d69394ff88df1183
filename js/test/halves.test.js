"use strict";
const assert = require("node:assert/strict");
const test = require("node:test");
const { minify } = require("../index.js");
const { halves, joined } = require("../src/halves.js");
const { numbered } = require("../src/numbered.js");
const { difference } = require("../src/guard.js");
const { parse } = require("../src/parser.js");

const ofScript = (code) => parse(code, { module: false }).ast;
const textIn = (code) => (part) => part.body.map(({ start, end }) => code.slice(start, end)).join(" ");
const halvesOf = (code) => halves(ofScript(code))?.map(textIn(code)) ?? null;

test("a script is parted in the middle of its text, and both halves have the directives", () => {
  assert.deepEqual(halvesOf("a(); b(); c(); d();"), ["a(); b();", "c(); d();"]);
  assert.deepEqual(halvesOf("'use strict'; a(function () { let b; }); c();"), [
    "'use strict'; a(function () { let b; });",
    "'use strict'; c();",
  ]);
  assert.deepEqual(halvesOf("a(1, 2, 3, 4, 5, 6, 7); b(); c();"), ["a(1, 2, 3, 4, 5, 6, 7);", "b(); c();"]);
});

test("none that declares something outside functions is, and no module", () => {
  for (const code of ["a(); var b;", "let a; b();", "function a() {} b();", "class A {} b();", "a(); { let b; }", "a(); for (var b of c);", "a();"]) {
    assert.equal(halvesOf(code), null, code);
  }
  assert.equal(halves(parse("a(); b();", { module: true }).ast), null);
});

test("the numbers of the halves are those of the whole", () => {
  const whole = ofScript("'use strict'; a(function () { b(/c/); }); d(() => e`f`); g(class {});");
  const parts = halves(whole);
  const texts = ["'use strict';a(function(){b(/c/)})", "'use strict';d(()=>e`f`),g(class{})"];
  const answers = texts.map((text) => {
    const tree = ofScript(text);
    return { program: tree, text, tree, kept: numbered(tree).map((_, at) => at), passes: 1, settled: true };
  });
  const { program, text, kept } = joined(parts[0], ...answers);
  assert.equal(text, "'use strict';a(function(){b(/c/)});d(()=>e`f`),g(class{})");
  assert.equal(difference(program, ofScript(text)), null);
  assert.deepEqual(kept, numbered(whole).map((_, at) => at));
});

test("a script of more than the program reads at once is minified", () => {
  const long = "e".repeat(500_000);
  const statement = (at) => `if (!a${at}) { b(function (c) { c(/d/); }); } else { d("${long}"); }\n`;
  const code = Array.from({ length: 40 }, (_, at) => statement(at)).join("");
  const { code: text, refused, stats } = minify(code);
  assert.equal(refused, null);
  assert.equal(stats.settled, true);
  const minified = (at) => `a${at}?d("${long}"):b(function(c){c(/d/)})`;
  const [first, second] = [[0, 20], [20, 40]].map(([from, to]) => {
    return Array.from({ length: to - from }, (_, at) => minified(from + at)).join(",");
  });
  assert.ok(text === `${first};${second}`);
  assert.equal(minify(`let x; ${code}`).refused.code, "TooLong");
});
