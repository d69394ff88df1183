// Programs of every form that is read: one at least of each type of node, most of which have
// something to rewrite, and longer ones. bench/memory.py refuses memory to each, and
// bench/damage.py damages them.
//
//     node --expose-internals bench/forms.js
//
// writes a line each: its name, a tab, and ESTree as JSON. It throws where a type of ESTree is in
// none of them.
"use strict";
const { FIELDS, each, parse, text } = require("./estree.js");

// The type is that which the program is for; of a module the name begins with `module`.
const FORMS = {
  "Program": "",
  "ExpressionStatement": '"use strict"; a;',
  "EmptyStatement": "a();; b();",
  "DebuggerStatement": "if (a) debugger;",
  "BlockStatement": "{ a(); { let b = c(); d(b, b); } }",
  "LabeledStatement": "l: { if (a) break l; b(); }",
  "BreakStatement": "for (;;) { if (a) break; b(); }",
  "ContinueStatement": "while (a) { if (b) continue; c(); }",
  "ReturnStatement": "function f(a) { if (a) return b; return c; }",
  "ThrowStatement": "if (a) throw b; throw c;",
  "IfStatement": "if (!a) b(); else c();",
  "SwitchStatement": "switch (2) { case 1: a(); case 2: b(); break; default: c(); }",
  "SwitchCase": "switch (2) { case f(), 1: a(); case 2: b(); break; default: c(); }",
  "TryStatement": "try { a(); } catch (e) { b(); } finally { c(); }",
  "CatchClause": "try { a(); } catch ({ m = 1 }) { b(m); }",
  "WhileStatement": "while (true) { if (a) break; b(); }",
  "DoWhileStatement": "do { a(); continue; } while (!!b);",
  "ForStatement": "var i; for (i = 0; i < n; i++) { a(i); }",
  "ForInStatement": "for (var k in o) { a(k); }",
  "ForOfStatement": "for (const [x, y] of o) { a(x, y); }",
  "VariableDeclaration": "var a; var b = 1, c; a = 2;",
  "VariableDeclarator": "function g() { let x = fn(), y = x.z; return y(y); }",
  "FunctionDeclaration": "function f(a, b = 1, ...c) { return a ? b : c; }",
  "FunctionExpression": "x = function g() { return arguments; };",
  "ArrowFunctionExpression": "x = () => { return a; };",
  "ClassDeclaration": "class A extends B { constructor() { super(); } }",
  "ClassExpression": "x = class C { };",
  "MethodDefinition": "class A { get ['p']() { return !0; } static set q(v) { a(v); } *g() { yield 1; } }",
  "PropertyDefinition": "class A { p = 1 + 2; static ['q'] = !!a; #r; }",
  "StaticBlock": "class A { static { if (a) b(); } }",
  "module ImportDeclaration": "import a, { b as c } from 'd'; import * as e from 'f'; a(c, e);",
  "module ExportNamedDeclaration": "export const a = 1; export { a as b }; export { c } from 'd';",
  "module ExportDefaultDeclaration": "export default function () { return a; }",
  "module ExportAllDeclaration": "export * as a from 'b'; export * from 'c';",
  "Identifier": "a === undefined || b();",
  "PrivateIdentifier": "class A { #p; m(o) { return #p in o && o.#p; } }",
  "ThisExpression": "function f() { var t = this; return t.a; }",
  "Super": "class A extends B { m() { return super.m(...a) + super['n']; } }",
  "ArrayExpression": "x = [, 1, ...[a, b], ...c];",
  "ObjectExpression": "x = { a: a, ['b']: 1, get c() { return 1; }, d() { }, ...{ e } };",
  "SpreadElement": "f(...a, ...[b]);",
  "Literal": "x = [null, true, 'a', 12, 7n, /a/g];",
  "UnaryExpression": "x = [!(a == b), -1, +'1', typeof a == 'undefined', void 0, delete a.b, ~a];",
  "UpdateExpression": "a++; --b.c;",
  "BinaryExpression": "x = 1 + 2 * 3 << 4 | a; y = a != null;",
  "LogicalExpression": "x = a && (b || c); y = e ?? (0 && d);",
  "AssignmentExpression": "function h(a) { a = a || b; a = a + 1; ({ p: a, q: [a] } = c); }",
  "ConditionalExpression": "x = a ? b(c) : b(d); y = !a ? true : false;",
  "SequenceExpression": "(a, b(), 1, c());",
  "CallExpression": "(() => a)(); (0, o.f)(b);",
  "NewExpression": "new A(b); new (f())();",
  "MemberExpression": "a['b'].c[d]; a[1];",
  "ChainExpression": "function g(a) { return a != null ? a.b.c(e) : undefined; } x = a?.b?.(c);",
  "YieldExpression": "function* g() { yield; yield* a; yield b ? 1 : 2; }",
  "TemplateLiteral": "x = a + `x${b}` + `y${1}`;",
  "TaggedTemplateExpression": "f`a${b}\\u0041`;",
  "MetaProperty": "function f() { return new.target; }",
  "module MetaProperty": "x = import.meta.url;",
  "ImportExpression": "import(a ? 'b' : 'c');",
  "ObjectPattern": "var { a, [b]: c = 1, ...d } = e;",
  "ArrayPattern": "var [a, , [b] = 1, ...c] = d;",
};

// Longer programs, in which many rewrites meet.
const LONGER = {
  "a name that is read once": "function g() { let x = fn(); return x.y(); }",
  "a name that is read past a call": "function g() { let x = fn(); return h() + x; }",
  "module with all":
    'import { readFile } from "fs"; let count = 0; export class Box { constructor(v) { this.v = v; } ' +
    "get() { if (this.v !== undefined) { return this.v; } else { return null; } } } " +
    "export function add({ a, b = 1 }) { count = count + 1; if (!a) { return b; } return a + b; } " +
    "export function* ids(n) { var i; for (i = 0; i < n; i++) { yield i; } }",
};

const typeOf = (name) => (name.startsWith("module") ? "module" : "script");
const programs = Object.entries({ ...FORMS, ...LONGER }).map(([name, source]) => [name, parse(source, typeOf(name))]);

const seen = new Set();
for (const [, program] of programs) each(program, (node) => seen.add(node.type));
const missing = Object.keys(FIELDS).filter((type) => !seen.has(type));
if (missing.length > 0) throw new Error(`no program has ${missing}`);
for (const [name, program] of programs) console.log(`${name}\t${text(program)}`);
