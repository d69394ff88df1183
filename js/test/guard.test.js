"use strict";
const assert = require("node:assert/strict");
const test = require("node:test");
const { difference, placeOf } = require("../src/guard.js");
const { parse } = require("../src/parser.js");

const ofScript = (code) => parse(code, { module: false }).ast;
const ofModule = (code) => parse(code, { module: true }).ast;

function place(one, other, read = ofScript) {
  const found = difference(read(one), read(other));
  return found && placeOf(found);
}

// What printers got wrong, or might: the program, another in its place, and where they differ.
const DAMAGED = [
  ["f(10n)", "f(10)", "/body/0/expression/arguments/0"],
  ["y((x = a) ?? b)", "y(x=a??b)", "/body/0/expression/arguments/0"],
  ["(a?.b).c", "a?.b.c", "/body/0/expression"],
  ["if (a) { if (b) c } else d", "if(a)if(b)c;else d", "/body/0/consequent/alternate"],
  ["('use strict'); a", "'use strict';a", "/body/0/directive"],
  ["a - -b", "a - b", "/body/0/expression/right"],
  ["a - (b - c)", "a-b-c", "/body/0/expression/left"],
  ["new (f())()", "new f()()", "/body/0/expression"],
  ["x = [a, , ]", "x=[a,]", "/body/0/expression/right/elements"],
  ["x = { a: a }", "x={a}", "/body/0/expression/right/properties/0/shorthand"],
  ["class A { static a() {} }", "class A{a(){}}", "/body/0/body/body/0/static"],
  ["function* f() { yield* a }", "function*f(){yield a}", "/body/0/body/body/0/expression/delegate"],
  ["async () => { for await (a of b); }", "async()=>{for(a of b);}", "/body/0/expression/body/body/0/await"],
  ["async () => {}", "()=>{}", "/body/0/expression/async"],
  ["x = `a\\n`", "x=`a`", "/body/0/expression/right/quasis/0"],
  ["x = '\\ud800'", "x='\\ufffd'", "/body/0/expression/right"],
  ["x = 0.1 + 0.2", "x=.1+.3", "/body/0/expression/right/right"],
  ["x = /a/g", "x=/a/", "/body/0/expression/right"],
  ["a: for (;;) break a", "a:for(;;)break", "/body/0/body/body/label"],
  ["let a", "var a", "/body/0/kind"],
  ["a; b", "a", "/body"],
];

test("damaged prints are told from the program", () => {
  for (const [program, print, at] of DAMAGED) {
    assert.equal(place(program, program), null);
    assert.equal(place(program, print), at, print);
    assert.equal(place(print, program), at, print);
  }
});

const DAMAGED_MODULES = [
  ["export default (function () {})()", "export default function(){}", "/body/0/declaration"],
  ["export default (function () {})", "export default function(){}", "/body/0/declaration"],
  ["export * as ns from 'a'", "export*from'a'", "/body/0/exported"],
  ["import { a as b } from 'c'", "import{b}from'c'", "/body/0/specifiers/0/imported/name"],
];

test("so are those of modules", () => {
  for (const [program, print, at] of DAMAGED_MODULES) assert.equal(place(program, print, ofModule), at, print);
});

test("what has no meaning is no difference", () => {
  assert.equal(place("a; ; b", "a;b"), null);
  assert.equal(place("if (a) { b }", "if(a)b"), null);
  assert.equal(place("if (a) { while (b) if (c) d } else e", "if(a)while(b){if(c)d}else e"), null);
  assert.equal(place("if (a) { if (b) c; else for (;;) if (d) e } else f", "if(a)if(b)c;else for(;;){if(d)e}else f"), null);
  assert.equal(place("x = 0x10 + 1e3 + 'a'", 'x=16+1000+"a"'), null);
  assert.equal(place("(a)(b)", "a(b)"), null);
  assert.equal(place("for (;;) {}", "for(;;){}"), null);
});

test("braces elsewhere are one, and so is an empty body", () => {
  assert.equal(place("while (a) { b }", "while(a)b"), "/body/0/body");
  assert.equal(place("if (a) while (b) { let c; }", "if (a) while (b) c;"), "/body/0/consequent/body");
  assert.equal(place("if (a) b; else { c }", "if(a)b;else c"), "/body/0/alternate");
  assert.equal(place("if (a) ; else b", "if(a){}else b"), "/body/0/consequent");
});

test("a negative number is a minus and a number", () => {
  const negative = (value) => ({ type: "Literal", value });
  const minus = (value) => ({ type: "UnaryExpression", operator: "-", prefix: true, argument: negative(value) });
  assert.equal(difference(negative(-1), minus(1)), null);
  assert.equal(difference(negative(-0), minus(0)), null);
  assert.notEqual(difference(negative(-0), negative(0)), null);
});
