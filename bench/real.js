// Writes a script of ESTree JSON as acorn gives it, with positions: functions, classes, loops,
// patterns and templates, over and over, in at most SIZE bytes (16,777,216). A little of each copy
// is rewritten.
//
//     node --expose-internals bench/real.js [SIZE] > real.json
"use strict";
const { parse, text } = require("./estree.js");

const [, , size = "16777216"] = process.argv;

// A class is declared once, so each copy has its own.
const code = (n) => `
function f(a, b = 1, ...c) { if (!a) { return b + c.length * 2; } else for (let i = 0; i < c.length; i++) { a.push(c[i] || null); } return { a, b: [1, 2, ...c], get d() { return this.a?.b; } }; }
class A${n} extends B { #p = 1; constructor(x) { super(x); this.y = x ? "one" : 'two'; } m() { try { return this.#p++; } catch (e) { throw new Error(\`bad \${e}\`); } finally { done(); } } static s(a) { switch (a) { case 1: return a => a ** 2; default: return -1; } } }
var { q, r: [s, t = 3] } = g(), re = /a+b/gi, n = 12n; l: while (true) { do { if (q in r) break l; continue l; } while (x instanceof Y); }
if (!q) r(); z = !s ? function () { if (t) u(); } : v => v;
`;

const part = (n) => parse(code(n)).body.map(text).join(",");

function parts(room) {
  const found = [];
  for (let length = 0; ; ) {
    const next = part(found.length);
    length += next.length + (found.length > 0 ? 1 : 0);
    if (length > room) return found;
    found.push(next);
  }
}

const [head, tail] = ['{"type":"Program","sourceType":"script","body":[', "]}"];
process.stdout.write(`${head}${parts(Number(size) - head.length - tail.length).join(",")}${tail}`);
