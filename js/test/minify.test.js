"use strict";
const assert = require("node:assert/strict");
const test = require("node:test");
const { minify, Refusal } = require("../index.js");

test("the result has the code and what it took", () => {
  const { code, map, refused, warnings, stats } = minify("if (!a) b(); else c();");
  assert.equal(code, "a?c():b()");
  assert.deepEqual([map, refused, warnings], [null, null, []]);
  assert.deepEqual(stats, { bytesBefore: 22, bytesAfter: 9, passes: 2, settled: true });
});

test("a refusal has its code, its place and what the program said", () => {
  const code = "f();\nwith (o) g();";
  const { code: same, refused, stats } = minify(code);
  assert.equal(same, code);
  assert.ok(refused instanceof Refusal);
  const { code: cause, message, line, column, status, pointer } = refused;
  assert.deepEqual(
    { cause, message, line, column, status, pointer },
    { cause: "Unsupported", message: "`with` isn't read", line: 2, column: 1, status: 3, pointer: "/body/1" },
  );
  assert.deepEqual(stats, { bytesBefore: 18, bytesAfter: 18 });
});

test("what the parser refuses has its place, too", () => {
  const { refused } = minify("f(;\n");
  assert.deepEqual([refused.code, refused.line, refused.column, refused.status], ["Syntax", 1, 3, null]);
  assert.equal(minify("import 'a'", { module: false }).refused.code, "Syntax");
});

test("a program that isn't there, and one that is none", () => {
  assert.equal(minify("a", { program: "/none" }).refused.code, "NoProgram");
  assert.equal(minify("a", { program: __dirname }).refused.code, "NoProgram");
  assert.equal(minify("a", { printer: "/none" }).refused.code, "NoProgram");
  assert.match(minify("a", { printer: "/none" }).refused.message, /in crates\/mini_text, or name it in MINI_TEXT$/);
  assert.equal(minify("a", { passes: "x" }).refused.code, "BadWords");
});

test("a wrong call is an error", () => {
  assert.throws(() => minify(1), TypeError);
  assert.throws(() => minify("a", null), TypeError);
});

test("an answer given again stays", () => {
  const once = minify("function f(a, b) { if (!a) { return b; } else { return b(a.c); } }").code;
  assert.equal(once, "function f(a,b){return a?b(a.c):b}");
  assert.equal(minify(once).code, once);
});

test("an answer that nests deeper than JSON may is printed, too", () => {
  const guards = Array.from({ length: 200 }, (_, at) => `if (a${at}) return b${at}();`);
  const { code, refused } = minify(`function f() { ${guards.join(" ")} return .5; }`);
  const branches = guards.map((_, at) => `a${at}?b${at}():`);
  assert.equal(refused, null);
  assert.equal(code, `function f(){return ${branches.join("")}.5}`);
});
