"use strict";
const assert = require("node:assert/strict");
const test = require("node:test");
const { Splices } = require("../src/splices.js");

/** A text in which a stretch, given by its words, becomes others; each node by its words, too. */
function spliced(source, ...changes) {
  const splices = new Splices(source);
  const node = (words) => {
    const start = source.lastIndexOf(words);
    return { start, end: start + words.length };
  };
  for (const [stretch, ...parts] of changes) {
    const { start, end } = node(stretch);
    splices.replace(start, end, parts.map((part) => (Array.isArray(part) ? node(part[0]) : part)));
  }
  return splices.text();
}

test("words and nodes in place of a stretch", () => {
  assert.equal(spliced("a;f(b+c);d", ["f(b+c)", "await(", ["b+c"], ")"]), "a;await(b+c);d");
  assert.equal(spliced("a;f((b,c));d", ["f((b,c))", ["b,c"]]), "a;b,c;d");
  assert.equal(spliced("a?b:c", ["a?b:c", "if(", ["a"], ")", ["b"], ";else ", ["c"]]), "if(a)b;else c");
  assert.equal(spliced("a", ["a"]), "");
});

test("stretches inside nodes of others", () => {
  const changes = [["f(g(a))", "await ", ["g(a)"]], ["g(a)", "await ", ["a"]]];
  assert.equal(spliced("f(g(a))", ...changes), "await await a");
  assert.equal(spliced("f(g(a))", ...changes.reverse()), "await await a");
});

test("a blank stands where two tokens would run together, and there alone", () => {
  assert.equal(spliced("return n", ["n", ".5"]), "return.5");
  assert.equal(spliced("return n", ["n", "(a)"]), "return(a)");
  assert.equal(spliced("return(a)", ["(a)", "b"]), "return b");
  assert.equal(spliced("f(a)in b", ["f(a)", "await ", ["a"]]), "await a in b");
  assert.equal(spliced("m in b", ["m", "5"]), "5 in b");
  assert.equal(spliced("f(/a/)in b", ["f(/a/)", ["/a/"]]), "/a/ in b");
  assert.equal(spliced("a+f(+b)", ["f(+b)", ["+b"]]), "a+ +b");
  assert.equal(spliced("a-f(-b)", ["f(-b)", ["-b"]]), "a- -b");
  assert.equal(spliced("(a)=>b", ["(", "async", "("]), "async(a)=>b");
  assert.equal(spliced("a=>b", ["a=", "async ", "a="]), "async a=>b");
  assert.equal(spliced("of n", ["n", "\u00e9"]), "of \u00e9");
});

test("blanks in texts stay", () => {
  assert.equal(spliced("`a ${n} b`", ["n", '"c "']), '`a ${"c "} b`');
  assert.equal(spliced("f(' ')", ["f(' ')", "g(", ["' '"], ")"]), "g(' ')");
});
