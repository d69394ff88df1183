"use strict";
// The proved program that prints, and what becomes of the marks in its text: the parser reads just
// the tree that was printed.
const assert = require("node:assert/strict");
const test = require("node:test");
const { adapt } = require("../src/adapter.js");
const { difference, placeOf } = require("../src/guard.js");
const { toJson } = require("../src/json.js");
const { numbered } = require("../src/numbered.js");
const { parse } = require("../src/parser.js");
const { printed } = require("../src/printer.js");
const { skip } = require("./built.js");

/** The text of a program that nothing rewrites, if the parser reads that program. */
function textOf(code, module) {
  const { ast } = parse(code, { module });
  const { ast: lifted, restore, respell } = adapt(ast, code);
  const calls = [{ json: toJson(lifted), words: ["--max-depth=1000"] }];
  const { text, tree } = printed(module, calls, respell);
  const kept = numbered(lifted).map((node, number) => number);
  const found = difference(restore({ program: lifted, kept }), tree);
  assert.equal(found && placeOf(found), null, `${code}\nis printed as\n${text}`);
  return text;
}

// Scripts of every form.
const SCRIPTS = [
  // operators
  "x = a + +b, y = a - -b, z = a + ++b, w = a-- - --b",
  "x = -(-a), y = +(+a), z = - --a",
  "a-- > b",
  "a < !--b",
  "(-a) ** b, a ** -b, (a ** b) ** c, a ** b ** c, -(a ** b)",
  "(x = a) ?? b, a ?? (b = c), a ?? (b && c), (a || b) ?? c, a && (b ?? c)",
  "(a, b) ? (c, d) : (e, f)",
  "a ? b : c ? d : e, (a ? b : c) ? d : e",
  "a - (b - c), a - b - c, a * (b + c)",
  "typeof (a + b), !(a, b), void 0, delete a[b]",
  "a in b, a instanceof b, 1 in b, a in 1",
  "a / /b/, /c/ in d, /e/.f, g < /script/",
  "typeof /x/g",
  // calls, members and new
  "(a?.b).c, a?.b.c, (a?.b)(), a?.(b)?.[c]",
  "new (f())(), new (f().g)(a), new (f.g)(), new f().g, new new f()()",
  "new (import(a))(), new (a?.b)(), new (f()`x`)()",
  "(a, b).c, (a = b).c, (a ? b : c)()",
  "1..a + 1.5.b + 1e300.c + 0x10.d, 1?.e",
  "f(...a, (b, c), ...d)",
  "a`b${c}d`, (a, b)`c`, `${`${a}`}`",
  "String.raw`\\u{zz}`",
  // statements that begin with what opens another
  "({}).a, b",
  "(function () {})()",
  "(class {}).a",
  "(async function () {})()",
  "({ a } = b)",
  "(a, function () {})()",
  "f(function () {}, {})",
  // texts
  "'use strict'; a",
  "('use strict'); a",
  "function f() { ('use strict') }",
  "'it\\'s'; 'say \"so\"'; a",
  "x = 'a\"b' + \"a'b\" + 'a\"\\'b'",
  "x = '\\n\\r\\u2028\\0\\x001\\\\'",
  "x = '\\ud800\\udc00\\ud800'",
  "x = '</script></b>'",
  // numbers
  "x = [0.5, 1000, 1e21, 120000, 1.5e-9, 0.001, 0.0001, 1e400]",
  "x = [12345678901234, 0x7fffffff, 5e-324, 1.7976931348623157e308]",
  "x = [0xffn, 1_000n, 10n]",
  // arrays and objects
  "x = [,], y = [a, , ], z = [, a]",
  "x = { a, b: b, get c() {}, set c(d) {}, e() {}, async *f() {}, [g]: 1, 'h i': 2, ...j }",
  "x = { async: 1, get: 2, set() {}, async() {}, 1: 2, .5: 3, 1n: 4 }",
  // functions
  "x = () => ({}), y = () => ({}).a, z = () => [], w = () => { }",
  "x = a => b => c, y = (a = 1) => b, z = ([a]) => b, w = (...a) => b",
  "x = async a => await a, y = async (a, b) => (a, b)",
  "(() => {})(), (a => b) ? c : d, (a => b) || c",
  "function* f() { yield; yield* a; x = yield b; (yield) ? c : d; yield /e/ }",
  "async function f() { for await (const a of b); await (await c)(); (await d) ** 2 }",
  "function f(a, { b, c: d = 1, ...e }, [g, , h], ...i) {}",
  // classes
  "class A extends (a, b) { }",
  "class A { a; b = 1; static c; static d = 2; 'e' = 3; [f] = 4; #g; #h = 5 }",
  "class A { get; set; static; async; *b() {} }",
  "class A { static { a() } static async *#b() { } get #c() { } static static() {} }",
  "class A extends B { #a; constructor() { super(); super.b; #a in this; this.#a; new.target } }",
  // branches and loops
  "if (a) { if (b) c } else d",
  "if (a) { for (;;) if (b) c } else d",
  "if (a) { if (b) c; else d } else e",
  "if (a) ; else b",
  "if (a) b; else if (c) d; else e",
  "{ while (a); } for (;;); do ; while (b); c",
  "for (var a = (b in c); ;);",
  "for (a = () => (b in c), [b in c]; ;);",
  "for (a in b, c); for (a of (b, c)); for (var d of e);",
  "for ((async) of a);",
  "switch (a) { case (b, c): d; break; case e: default: }",
  "try { a } catch { } finally { } try { } catch ({ b }) { c }",
  "a: for (;;) { continue a; break a }",
  "var a, b = 1; let [c] = d, { e } = f; const g = (h, i)",
  "debugger; throw a; ;;",
];

test("scripts", { skip }, () => {
  for (const code of SCRIPTS) textOf(code, false);
});

const MODULES = [
  "import a, * as b from 'c'; import d, { e, f as g, default as h } from 'i'; import 'j'; import {} from 'k'",
  "import { 'a b' as c } from 'd'; export { c as 'e f' }; export { 'g h' as i } from 'j'",
  "export * from 'a'; export * as b from 'c'; export {}; export { default } from 'd'",
  "export default (function () { })()",
  "export default (class { }).a",
  "export default (function () { })",
  "export default function () { } export const a = 1, b = 2; export class C { }",
  "export default (a, b)",
  "export default { a }",
  "await a; import.meta.b; import(c)",
];

test("modules", { skip }, () => {
  for (const code of MODULES) textOf(code, true);
});

test("what has no text is refused", { skip }, () => {
  for (const code of ["(let)[a] = b", "yield = 1"]) {
    const calls = [{ json: toJson(parse(code).ast), words: [] }];
    assert.throws(() => printed(false, calls, (text) => text), /Reserved/, code);
  }
});

test("an answer that isn't read as JSON is made once more", { skip }, () => {
  const json = toJson(parse("if (!a) b(); else c();").ast);
  const calls = [
    { json: "[".repeat(200) + "]".repeat(200), words: ["--max-depth=1000"] },
    { json, words: ["--minify", "--max-depth=1000"] },
  ];
  assert.equal(printed(false, calls, (text) => text).text, "a?c():b()");
  assert.throws(() => printed(false, calls.slice(0, 1), (text) => text), /nests too deep/);
});
