"use strict";
// Source maps: from trees alone, and with the program those of whole files.
const assert = require("node:assert/strict");
const fs = require("node:fs");
const path = require("node:path");
const test = require("node:test");
const { minify } = require("../../index.js");
const { adapt } = require("../../src/adapter.js");
const { align } = require("../../src/align.js");
const { walk } = require("../../src/estree.js");
const { toJson } = require("../../src/json.js");
const { decode, encode } = require("../../src/mappings.js");
const { numbered } = require("../../src/numbered.js");
const { parse } = require("../../src/parser.js");
const { runProgram } = require("../../src/program.js");
const { origins, sourceMap } = require("../../src/source-map.js");
const { skip } = require("../built.js");
const { checkMap, leadsTo, segmentsOf } = require("./maps.js");


/** The map of a text of which another is the answer, with the same functions. */
function mapped(code, text, more = {}) {
  const { ast } = parse(code);
  const [program, tree] = [parse(text).ast, parse(text, { isPlaced: false }).ast];
  const kept = more.kept ?? numbered(program).map((node, number) => number);
  return { text, ...sourceMap({ code, ast, program, kept, text, tree, file: "in.js", ...more }) };
}

test("numbers are written and read", () => {
  const lines = [[[0, 0, 0, 0], [4], [5, 1, 20, 3, 2]], [], [[1000, 0, 0, 100000]]];
  assert.deepEqual(decode(encode(lines)), lines);
  assert.equal(encode([[[0, 0, 0, 0], [16, 0, 1, 5]]]), "AAAA,gBACK");
  const map = { version: 3, names: [], mappings: "AAAA,gBACK;;D" };
  assert.deepEqual(segmentsOf(map).map((segment) => segment.column), [0, 16, -1]);
  assert.throws(() => decode("A!"), RangeError);
});

const pairsOf = (one, other) =>
  align([...one], [...other]).map(([at, place]) => `${one[at]}${at}${place}`);

test("lists are laid side by side", () => {
  assert.deepEqual(pairsOf("abc", "abc"), ["a00", "b11", "c22"]);
  assert.deepEqual(pairsOf("abcd", "acd"), ["a00", "c21", "d32"]);
  assert.deepEqual(pairsOf("aabbaa", "abba"), ["a00", "b21", "b32", "a53"]);
  assert.deepEqual(pairsOf("xaybz", "aqb"), ["a10", "b32"]);
  assert.deepEqual(pairsOf("abab", "baba").length, 3);
  assert.deepEqual(pairsOf("", "abc"), []);
});

test("pairs are equal and ascend", () => {
  let state = 7;
  const below = (limit) => (state = (state * 16807) % 2147483647) % limit;
  for (let round = 0; round < 300; round++) {
    const list = () => Array.from({ length: below(40) }, () => "abcdef"[below(1 + (round % 6))]);
    const [one, other] = [list(), list()];
    let last = [-1, -1];
    for (const pair of align(one, other)) {
      assert.equal(one[pair[0]], other[pair[1]]);
      assert.ok(pair[0] > last[0] && pair[1] > last[1]);
      last = pair;
    }
  }
});

test("each leaf leads to its place", () => {
  const code = "// a comment\nif (first) {\n  second(third);\n}\n";
  const { text, map } = mapped(code, "first&&second(third)");
  assert.equal(leadsTo(map, text, "first"), "in.js:2:5");
  assert.equal(leadsTo(map, text, "second"), "in.js:3:3");
  assert.equal(leadsTo(map, text, "third"), "in.js:3:10");
  assert.equal(checkMap(map, text), 3);
  assert.deepEqual(map.sourcesContent, [code]);
});

test("what can't be told leads nowhere", () => {
  const { text, map } = mapped("a(); b(); a(); c()", "a(), c()");
  assert.equal(leadsTo(map, text, "c"), "in.js:1:16");
  const made = mapped("x = undefined; y = 0", "x = void 0; y = 0");
  assert.equal(leadsTo(made.map, made.text, "y"), "in.js:1:16");
  assert.equal(leadsTo(made.map, made.text, "0,"), null);
});

test("bodies are told apart", () => {
  const code = "function f() { return x }\nfunction g() { return x }\nfunction h() { return x }";
  const answer = "function f(){return x}function h(){return x}";
  const { map } = mapped(code, answer, { kept: [0, 1, 3] });
  const place = ({ sourceLine, sourceColumn }) => `${sourceLine}:${sourceColumn}`;
  const places = segmentsOf(map).map(place);
  assert.deepEqual(places, ["0:9", "0:22", "2:9", "2:22"]);
});

test("lines before the text are counted", () => {
  const { map } = mapped("x", "x", { head: "#!/usr/bin/env node\n/*! a\n b */\n" });
  assert.equal(map.mappings, ";;;AAAA");
});

test("pieces of templates", () => {
  const code = "x = `one\n  two ${three} four\n${five}`;\nsix";
  const { text, map } = mapped(code, code);
  assert.equal(checkMap(map, text), 7);
  assert.equal(leadsTo(map, text, "six"), "in.js:4:1");
});

test("a map of the input is composed", () => {
  const inputMap = {
    version: 3,
    sources: ["a.ts", "b.ts"],
    sourcesContent: ["first as any", "second<T>(third)"],
    names: ["oldName"],
    mappings: encode([[[0, 0, 0, 0], [9, 1, 0, 0], [16, 1, 0, 10, 0]]]),
  };
  const { text, map } = mapped("if(first)second(third)", "first && second(third)", { inputMap });
  assert.deepEqual(map.sources, ["a.ts", "b.ts"]);
  assert.deepEqual(map.names, ["oldName"]);
  assert.equal(leadsTo(map, text, "first"), null, "other text stands there");
  assert.equal(leadsTo(map, text, "second"), "b.ts:1:1");
  assert.equal(leadsTo(map, text, "third"), "b.ts:1:11");
  assert.equal(segmentsOf(map).at(-1).name, "oldName");
});

test("a map of the input that can't be read", () => {
  const digitless = { version: 3, sources: [], mappings: "!" };
  for (const inputMap of [{ version: 3, sections: [] }, digitless]) {
    const { map, warnings } = mapped("x", "x", { inputMap });
    assert.equal(map, null);
    assert.match(warnings[0].message, /source map of the input/);
  }
});

const PROJECT = path.join(__dirname, "project");
const files = fs.readdirSync(PROJECT).map((name) => path.join(PROJECT, name));

test("whole files, through the program", { skip }, () => {
  for (const file of [...files, path.join(__dirname, "..", "..", "..", "examples", "start.js")]) {
    const code = fs.readFileSync(file, "utf8");
    const result = minify(code, { sourceMap: true, file: path.basename(file) });
    if (result.refused) continue;
    const places = segmentsOf(result.map);
    const count = checkMap(result.map, result.code);
    assert.ok(count > 0.8 * places.length, `${file}: ${count} of ${places.length}`);
  }
});

// ---- the very leaf

const isProperty = ({ type, computed }) => type === "MemberExpression" && !computed;
const SOURCES = path.join(__dirname, "..", "..", "src");

/** Gives each property that is read by its name a name of its own. */
function tagged(ast) {
  let count = 0;
  walk(ast, (node) => {
    if (!isProperty(node) || node.property.type !== "Identifier") return;
    node.property.name += `$tag${count++}`;
  });
}

/** Takes the tags off again, and gives that of each name. */
function untagged(tree) {
  const tags = new Map();
  walk(tree, (node) => {
    const [, name, tag] = /^(.*)\$tag(\d+)$/.exec(node.name ?? "") ?? [];
    if (tag === undefined) return;
    node.name = name;
    tags.set(node, tag);
  });
  return tags;
}

test("a name leads to the very one that it was", { skip }, () => {
  const counts = { right: 0, wrong: 0, none: 0 };
  for (const name of fs.readdirSync(SOURCES).filter((file) => file.endsWith(".js"))) {
    const code = fs.readFileSync(path.join(SOURCES, name), "utf8");
    const { ast } = parse(code);
    tagged(ast);
    const { ast: tree, restore } = adapt(ast, code);
    const { answer } = runProgram(toJson(tree), ["--max-depth=1000"]);
    const program = restore(answer);
    const [before, after] = [untagged(ast), untagged(program)];
    const found = origins(ast, program, answer.kept);
    for (const [leaf, tag] of after) {
      const origin = found.get(leaf);
      if (origin === undefined) counts.none++;
      else if (before.get(origin) === tag) counts.right++;
      else counts.wrong++;
    }
  }
  assert.equal(counts.wrong, 0);
  assert.ok(counts.right > 20 * counts.none, JSON.stringify(counts));
});
