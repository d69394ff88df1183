"use strict";
const assert = require("node:assert/strict");
const test = require("node:test");
const { difference, placeOf } = require("../src/guard.js");
const { nesting, toJson } = require("../src/json.js");
const { parse } = require("../src/parser.js");
const { generated, lenient, rows } = require("./programs.js");

function look(ast, code) {
  const found = difference(ast, JSON.parse(toJson(ast)));
  assert.equal(found && placeOf(found), null, code);
}

test("the JSON of a program says that program", () => {
  for (const code of rows()) look(lenient(code), code);
  for (const code of generated(200)) look(lenient(code), code);
});

const jsonOf = (code) => toJson(parse(code).ast.body[0].expression);

test("of literals", () => {
  assert.equal(jsonOf("1"), '{"type":"Literal","value":1}');
  assert.equal(jsonOf("0.5"), '{"type":"Literal","value":0.5}');
  assert.equal(jsonOf("null"), '{"type":"Literal","value":null}');
  assert.equal(jsonOf("1e400"), '{"type":"Literal","value":null,"raw":"Infinity"}');
  assert.equal(jsonOf("0xff_n".replace("_", "")), '{"type":"Literal","value":null,"bigint":"255"}');
  assert.equal(jsonOf("/a\\//g"), '{"type":"Literal","regex":{"pattern":"a\\\\/","flags":"g"}}');
  assert.equal(jsonOf("(`a\\n${b}`)").includes('{"raw":"a\\\\n","cooked":"a\\n"}'), true);
});

test("it is lean", () => {
  assert.equal(jsonOf("a.b"), '{"type":"MemberExpression","object":{"type":"Identifier","name":"a"},"property":{"type":"Identifier","name":"b"}}');
});

test("how deep it nests", () => {
  assert.equal(nesting(JSON.parse(jsonOf("a"))), 1);
  assert.equal(nesting(JSON.parse(jsonOf("[[a]]"))), 5);
});
