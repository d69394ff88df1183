"use strict";
// The adapter without the program: what comes back unchanged is the input, and what comes back in
// another way is refused.
const assert = require("node:assert/strict");
const test = require("node:test");
const { adapt } = require("../../src/adapter.js");
const { walk } = require("../../src/estree.js");
const { difference, placeOf } = require("../../src/guard.js");
const { toJson } = require("../../src/json.js");
const { numbered } = require("../../src/numbered.js");
const { parse } = require("../../src/parser.js");
const waiting = require("./waiting.js");

/** What the adapter makes of a text, and the answer of a program that changes nothing. */
function adapted(code, module) {
  const { ast } = parse(code, { module });
  const { ast: tree, restore } = adapt(ast, code);
  const program = JSON.parse(toJson(tree));
  return { ast, program, restore, kept: numbered(program).map((node, number) => number) };
}

function back(code, module) {
  const { ast, program, restore, kept } = adapted(code, module);
  return { ast, tree: restore({ program, kept }), program };
}

const hasType = (type) => (node) => node.type === type;

function found(tree, isIt) {
  const nodes = [];
  walk(tree, (node) => isIt(node) && nodes.push(node));
  return nodes;
}

// An arrow function that only returns something comes back without braces.
const isShortened = (code) => /async [^{}]*=> \{ return/.test(code);

test("what comes back unchanged is the input", () => {
  for (const [name, code] of waiting) {
    const { ast, tree, program } = back(code);
    const other = isShortened(code) ? null : difference(ast, tree);
    assert.equal(other && placeOf(other), null, name);
    walk(program, (node) => {
      assert.ok(!node.async && !node.await && node.type !== "AwaitExpression", name);
    });
  }
});

test("the input stays as it was", () => {
  const code = "async function f() { for await (x of y) await 0.5; return '\\ud800'; }";
  const { ast } = parse(code);
  const before = JSON.stringify(ast);
  adapt(ast, code);
  assert.equal(JSON.stringify(ast), before);
});

test("what stands for a node has its place", () => {
  const code = "x = 0.5;\nasync () => {\n  await y;\n};";
  const { ast } = parse(code);
  const [, call] = found(adapt(ast, code).ast, (node) => /^\$_/.test(node.name));
  const [wait] = found(ast, hasType("AwaitExpression"));
  assert.deepEqual(call.loc, wait.loc);
});

// A text, and what the program is given for it.
const LIFTED = [
  ["x=.5+.5-1e999", "x=$_n0+$_n0-$_n1"],
  ["x={0.5:a,1e999:b,10n:c,1e21:d}", 'x={"0.5":a,"Infinity":b,"10":c,"1e+21":d}'],
  ["({0.5:x}=y)", '({"0.5":x}=y)'],
  ["class A{0.5=1;static 1e21(){}}", 'class A{"0.5"=1;static"1e+21"(){}}'],
  ["delete .5,delete x[.5]", "delete 0,delete x[$_n0]"],
  ["x=340282366920938463463374607431768211455n", "x=340282366920938463463374607431768211455n"],
  ["x=340282366920938463463374607431768211456n", "x=$_b0"],
  ["x=0xffn+1_0n", "x=255n+10n"],
  ["x=9007199254740991+9007199254740992", "x=9007199254740991+$_n0"],
  ["x='\\ud83d\\ude00'+'\\ud83d'", 'x="😀"+$_s0'],
  ["x={'\\ud800':1}", "x={[$_s0]:1}"],
  ["class A{'\\ud800'=1}", "class A{[$_s0]=1}"],
  ["x=`a${b}\\ud800c${d}`", "x=`a${b}${$_s0}${d}`"],
  ["$_=.5", "$_=$__n0"],
  ["'\\x24_';x=.5", "'\\x24_';x=$__n0"],
  ["async()=>await x", '()=>{"$_a1";return $_w1(x)}'],
  ["async function f(){for await(x of y);}", 'function f(){"$_a1";for(x of $_f1(y));}'],
  ["async function*f(){return x}", 'function*f(){"$_a1";return $_r1(x)}'],
  ["async()=>{async()=>{await x};await y}", '()=>{"$_a1";()=>{"$_a2";$_w2(x)};$_w1(y)}'],
  ["async()=>{'use strict'}", '()=>{"$_a1";\'use strict\'}'],
];

test("what the program is given", () => {
  for (const [code, lifted] of LIFTED) {
    const { program } = adapted(code);
    const other = difference(program, parse(lifted).ast);
    assert.equal(other && placeOf(other), null, code);
  }
});

test("a module that waits", () => {
  const { ast, tree, program } = back("await x; for await (y of z); export default await w", true);
  const lifted = "$_w0(x);for(y of $_f0(z));export default $_w0(w)";
  assert.equal(difference(program, parse(lifted).ast), null);
  assert.equal(difference(ast, tree), null);
});

// Left as they are, each with its place.
const UNREAD = [
  ["import '\\ud800'", "1:8"],
  ["export * from '\\ud800'", "1:15"],
  ["x`\\ud800`", "1:3"],
  ["({ '\\ud800': x } = y)", "1:4"],
  ["x = /\ud800/", "1:5"],
  ["'\ud800'", "1:1"],
  ["let x, await", "1:8"],
  ["x.let, yield = 1", "1:8"],
  ["({ let: x, x: let })", "1:15"],
  ["let: for (;;) break let", "1:1"],
];

test("what is left is told by its place", () => {
  for (const [code, place] of UNREAD) {
    assert.throws(() => adapted(code), (error) => {
      assert.equal(error.code, "Unsupported");
      assert.equal(`${error.line}:${error.column}`, place, code);
      return true;
    });
  }
});

test("`adapt: false` leaves everything as it is", () => {
  const code = "x = 0.5; async () => {};";
  const { ast } = parse(code);
  assert.equal(adapt(ast, code, { adapt: false }).ast, ast);
});

// ---- damage

const name = (node, text) => Object.assign(node, { type: "Identifier", name: text });
const isMark = (node) => /^\$_/.test(node.directive ?? "");
const isCall = (letter) => (node) => node.callee?.name?.startsWith(`$_${letter}`);
const functions = (tree) => found(tree, (node) => /Function/.test(node.type));
const bodyOf = (node) => node.body.body;

/** Takes the marking directives out of a function, and gives them. */
function unmarked(node) {
  const marks = bodyOf(node).filter(isMark);
  node.body.body = bodyOf(node).filter((each) => !isMark(each));
  return marks;
}

const TWO = "async function f() { await x; } async function g() { await y; } function h() { z(); }";
const NUMBER = "x = 0.5;";
const GENERATOR = "async function* f() { if (a) return b; return c; }";

/** What it is, the text, and what is done to the tree that comes back. */
const DAMAGES = [
  ["a mark is missing", TWO, (tree) => unmarked(functions(tree)[0])],
  ["a mark is missing where nothing waits", "async () => {};", (tree) => unmarked(functions(tree)[0])],
  [
    "a mark is at another function",
    TWO,
    (tree) => bodyOf(functions(tree)[2]).unshift(...unmarked(functions(tree)[0])),
  ],
  ["a mark is doubled", TWO, (tree) => bodyOf(functions(tree)[1]).push(bodyOf(functions(tree)[0])[0])],
  ["a mark stands twice in one", TWO, (tree) => bodyOf(functions(tree)[0]).push(bodyOf(functions(tree)[0])[0])],
  [
    "two marks are exchanged",
    TWO,
    (tree) => {
      const [f, g] = functions(tree);
      [f.body, g.body] = [g.body, f.body];
    },
  ],
  ["a mark stands outside", TWO, (tree) => tree.body.unshift(bodyOf(functions(tree)[0])[0])],
  ["a mark has other words", TWO, (tree) => (bodyOf(functions(tree)[0])[0].directive += "1")],
  [
    "a wait is in another function",
    TWO,
    (tree) => bodyOf(functions(tree)[1]).push(bodyOf(functions(tree)[0])[1]),
  ],
  ["a wait is in a plain function", TWO, (tree) => bodyOf(functions(tree)[2]).push(bodyOf(functions(tree)[0])[1])],
  ["a wait is outside", TWO, (tree) => tree.body.push(bodyOf(functions(tree)[0])[1])],
  ["a wait has two arguments", TWO, (tree) => found(tree, isCall("w"))[0].arguments.push({ type: "ThisExpression" })],
  ["a wait has none", TWO, (tree) => (found(tree, isCall("w"))[0].arguments = [])],
  ["a wait is optional", TWO, (tree) => (found(tree, isCall("w"))[0].optional = true)],
  [
    "a wait has a spread",
    TWO,
    (tree) => {
      const [call] = found(tree, isCall("w"));
      call.arguments = [{ type: "SpreadElement", argument: call.arguments[0] }];
    },
  ],
  ["a wait becomes `new`", TWO, (tree) => (found(tree, isCall("w"))[0].type = "NewExpression")],
  ["a wait isn't called", TWO, (tree) => name(found(tree, isCall("w"))[0], "$_w1")],
  [
    "a wait is in a field",
    "async () => { class A { b = c } await x; };",
    (tree) => {
      const [field] = found(tree, hasType("PropertyDefinition"));
      field.value = found(tree, isCall("w"))[0];
    },
  ],
  [
    "a wait is in a static block",
    "async () => { class A { static { b } } await x; };",
    (tree) => {
      const [block] = found(tree, hasType("StaticBlock"));
      block.body = bodyOf(functions(tree)[0]).slice(-1);
    },
  ],
  [
    "a loop's mark is read elsewhere",
    "async () => { for await (x of y); };",
    (tree) => {
      const [loop] = found(tree, hasType("ForOfStatement"));
      bodyOf(functions(tree)[0]).push({ type: "ExpressionStatement", expression: loop.right });
    },
  ],
  [
    "a loop's mark isn't last",
    "async () => { for await (x of y); };",
    (tree) => {
      const [loop] = found(tree, hasType("ForOfStatement"));
      loop.right = { type: "SequenceExpression", expressions: [loop.right, { type: "ThisExpression" }] };
    },
  ],
  [
    "a loop's mark is in another function",
    "async () => { for await (x of y); async () => {}; };",
    (tree) => {
      const [outer, nested] = functions(tree);
      bodyOf(nested).push(bodyOf(outer)[1]);
    },
  ],
  ["a result has lost its mark", GENERATOR, (tree) => name(found(tree, isCall("r"))[1], "c")],
  [
    "a result's mark is an argument",
    GENERATOR,
    (tree) => {
      const [call] = found(tree, isCall("r"));
      call.arguments = [found(tree, isCall("r"))[1]];
    },
  ],
  ["a number is assigned to", NUMBER, (tree) => name(tree.body[0].expression.left, "$_n0")],
  ["a number is updated", "x++, 0.5;", (tree) => name(found(tree, hasType("UpdateExpression"))[0].argument, "$_n0")],
  ["a number is deleted", "delete x.y, 0.5;", (tree) => name(found(tree, hasType("UnaryExpression"))[0].argument, "$_n0")],
  ["a number is declared", "var x; y = 0.5;", (tree) => name(tree.body[0].declarations[0].id, "$_n0")],
  ["a number is a parameter", "(x) => 0.5;", (tree) => name(functions(tree)[0].params[0], "$_n0")],
  ["a number is caught", "try {} catch (x) { 0.5 }", (tree) => name(tree.body[0].handler.param, "$_n0")],
  ["a number is a label", "x: 0.5;", (tree) => name(tree.body[0].label, "$_n0")],
  ["a number is a key", "({ x: 0.5 });", (tree) => name(found(tree, hasType("Property"))[0].key, "$_n0")],
  ["a number is a property", "x.y = 0.5;", (tree) => name(tree.body[0].expression.left.property, "$_n0")],
  [
    "a number is in a pattern",
    "({ x: y } = 0.5);",
    (tree) => name(found(tree, hasType("Property"))[0].value, "$_n0"),
  ],
  ["a number is in a list of targets", "[x] = 0.5;", (tree) => name(tree.body[0].expression.left.elements[0], "$_n0")],
  ["a number is a loop's variable", "for (x of y) 0.5;", (tree) => name(tree.body[0].left, "$_n0")],
  ["a name that is none of the marks", NUMBER, (tree) => name(tree.body[0].expression.right, "$_n7")],
];

test("what comes back in another way is refused", () => {
  for (const [what, code, damage] of DAMAGES) {
    const { program, restore, kept } = adapted(code);
    damage(program);
    const refused = (error) => error.name === "Refusal" && error.code === "Adapter";
    assert.throws(() => restore({ program, kept }), refused, what);
  }
});

test("other numbers are refused", () => {
  const { program, restore, kept } = adapted(TWO);
  const orders = [[1, 0, 2, 3], [0, 2, 1, 3], [0, 1, 1, 3], [0, 1, 2, 9]];
  for (const others of [kept.slice(1), [...kept, 9], ...orders]) {
    assert.throws(() => restore({ program, kept: others }), { code: "Adapter" }, String(others));
  }
});

test("a module has to wait still", () => {
  const { program, restore, kept } = adapted("await x; y()", true);
  program.body.shift();
  assert.throws(() => restore({ program, kept }), { code: "Adapter" });
});

test("functions that are gone are no fault", () => {
  const { program, restore } = adapted(TWO);
  program.body.splice(0, 1);
  const tree = restore({ program, kept: [0, 2, 3] });
  const left = "async function g(){await y}function h(){z()}";
  assert.equal(difference(tree, parse(left).ast), null);
});

// What a `return` of an async generator becomes of results of which some are none.
const RESULTS = [
  ["a ? void 0 : $_r1(b)", "if(a)return;else return b"],
  ["a ? $_r1(b) : $_r1(c)", "return a?b:c"],
  ["d(), $_r1(b)", "return d(),b"],
  ["d(), a ? $_r1(b) : void e()", "{d();if(a)return b;else{e();return}}"],
  ["a ? (d(), void 0) : f ? $_r1(b) : $_r1(c)", "if(a){d();return}else return f?b:c"],
];

test("results of async generators", () => {
  for (const [result, expected] of RESULTS) {
    const { program, restore, kept } = adapted("async function* f() { return x; }");
    const [statement] = found(program, hasType("ReturnStatement"));
    statement.argument = JSON.parse(toJson(parse(result).ast.body[0].expression));
    const { ast } = parse(`async function*f(){${expected}}`);
    assert.equal(difference(restore({ program, kept }), ast), null, result);
  }
});
