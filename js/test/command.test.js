"use strict";
const assert = require("node:assert/strict");
const { spawnSync } = require("node:child_process");
const fs = require("node:fs");
const os = require("node:os");
const path = require("node:path");
const test = require("node:test");

const { run: runHere } = require("../src/command/command.js");

const COMMAND = path.join(__dirname, "..", "bin", "minify.js");
const folder = fs.mkdtempSync(path.join(os.tmpdir(), "minify-"));
test.after(() => fs.rmSync(folder, { recursive: true }));

/** Runs the command in the folder. */
function run(args, input = "", env = {}) {
  const ended = spawnSync(process.execPath, ["--expose-internals", COMMAND, ...args], {
    cwd: folder,
    input,
    encoding: "utf8",
    env: { ...process.env, ...env },
  });
  return { status: ended.status, out: ended.stdout, said: ended.stderr };
}

function file(name, text) {
  const whole = path.join(folder, name);
  fs.mkdirSync(path.dirname(whole), { recursive: true });
  fs.writeFileSync(whole, text);
  return name;
}

const textOf = (name) => fs.readFileSync(path.join(folder, name), "utf8");

test("standard input goes to standard output", () => {
  const { status, out, said } = run([], "if (!a) b(); else c();");
  assert.equal(out, "a?c():b()\n");
  assert.match(said, /^1 file, 22 -> 10 bytes \(54\.5 % less\), gzip \d+ -> \d+, 0 refused\n$/);
  assert.equal(status, 0);
});

test("-q says nothing of what was minified", () => {
  assert.deepEqual(run(["-q"], "a ;"), { status: 0, out: "a\n", said: "" });
});

test("a file goes where -o says", () => {
  file("one.js", "a ( ) ;");
  assert.equal(run(["one.js", "-o", "one.min.js"]).status, 0);
  assert.equal(textOf("one.min.js"), "a()\n");
  assert.equal(run(["one.js", "--output", "out/"]).status, 0);
  assert.equal(textOf("out/one.js"), "a()\n");
});

test("several files go to a folder, under the path below the folder that has them all", () => {
  file("src/a.js", "a ( ) ;");
  file("src/deep/b.js", "b ( ) ;");
  const { status, said } = run(["src/a.js", "src/deep/b.js", "-o", "dist"]);
  assert.equal(status, 0);
  assert.match(said, /^2 files, 14 -> 8 bytes/);
  assert.equal(textOf("dist/a.js"), "a()\n");
  assert.equal(textOf("dist/deep/b.js"), "b()\n");
});

test("a refusal names its place and cause, and leaves the file as it is", () => {
  const code = "f();\n  with (o) g();\n";
  const { status, out, said } = run([file("with.js", code)]);
  assert.equal(status, 0);
  assert.equal(out, code);
  assert.equal(
    said.split("\n").slice(0, 3).join("\n"),
    "with.js:2:3: `with` isn't read; left as it is\n  2 |   with (o) g();\n    |   ^",
  );
  assert.match(said, /1 file, 21 -> 21 bytes \(0\.0 % less\), gzip \d+ -> \d+, 1 refused\n$/);
});

test("--strict ends with 1 where something is refused, else with 0", () => {
  assert.equal(run(["--strict"], "with (o) g();").status, 1);
  assert.equal(run(["--strict"], "f(;").status, 1);
  assert.equal(run(["--strict"], "f();").status, 0);
});

// What is refused without the adapter, and how it is said.
const REFUSED = [
  ["x = 0.5", "1:5: the number 0.5 is not whole"],
  ["x = 1e400", "1:5: the number Infinity is past 2^53 - 1"],
  ["x = 9007199254740992", "1:5: the number 9007199254740992 is past 2^53 - 1"],
  ["async () => 1", "1:1: async functions aren't read"],
  ["{ function f() {} }", "1:3: a function is declared in a block of sloppy code"],
  ["let a; {\n  var a; }", "2:7: Identifier 'a' has already been declared"],
  ["break;", "1:1: Unsyntactic break"],
  ["a +", "1:4: Unexpected token"],
  ["x = '\\ud800'", "a text has half of a surrogate pair"],
];

test("each cause has its words", () => {
  for (const [code, text] of REFUSED) {
    const { said } = run(["--no-adapt", "--strict"], code);
    assert.ok(said.startsWith(`standard input:${text.includes(":") ? "" : " "}${text}; left as it is\n`), said);
  }
});

test("code that nests too deep is refused", () => {
  const { said } = run([], "[".repeat(200) + "]".repeat(200));
  assert.match(said, /^standard input: the tree nests too deep: its JSON has \d+ levels; left as it is\n/);
  assert.match(run(["--max-depth=2"], "a(b(c(d)))").said, /^standard input:1:\d+: the code nests too deep/);
});

test("with the adapter fractions and async functions are minified", () => {
  assert.equal(run(["-q"], "x = 0.50; async () => { await a ( ) }").out, "x=.5,async()=>{await a()}\n");
  assert.equal(run(["-q", "--no-adapt"], "x = 0.50;").out, "x = 0.50;");
});

test("the words of the program are handed on", () => {
  assert.equal(run(["-q", "--no-sequences"], "a(); b();").out, "a();b()\n");
  assert.equal(run(["-q"], "a(); b();").out, "a(),b()\n");
  assert.equal(run(["-q", "--no-join-vars"], "var a; var b;").out, "var a;var b\n");
  assert.equal(run(["-q", "--keep-function-names"], "f(function g() {});").out, "f(function g(){})\n");
  assert.equal(run(["-q", "--keep-class-names"], "f(class G {});").out, "f(class G{})\n");
  assert.equal(run(["-q", "--passes=1"], "if (a) { if (b) c(); }").status, 0);
  assert.equal(run(["-q", "--edition=2020"], "a || (a = b);").out, "a||(a=b)\n");
  assert.equal(run(["-q", "--edition=2021"], "a || (a = b);").out, "a||=b\n");
});

test("a module is told by --module, by its name, or because it is no script", () => {
  assert.equal(run(["-q", "--module"], "let a = 1; b();").out, "b()\n");
  assert.equal(run(["-q", file("m.mjs", "let a = 1; b();")]).out, "b()\n");
  assert.equal(run(["-q"], "let a = 1; b();").out, "let a=1;b()\n");
  assert.equal(run(["-q"], "import 'c'; let a = 1; b();").out, 'import"c";b()\n');
});

test("the #! line and the comments of licences stay", () => {
  const code = "#!/usr/bin/env node\n/*! (c) A */\n// @license MIT\n/* b */ a ( ) // c\n/** @preserve\n d */ ; e ( ) /*! (c) A */";
  const { out } = run(["-q"], code);
  assert.equal(out, "#!/usr/bin/env node\n/*! (c) A */\n// @license MIT\n/** @preserve\n d */\na(),e()\n");
});

test("code of CommonJS may return outside functions", () => {
  assert.equal(run(["-q"], "const x = a(); if (!b) return; c(x.d); const y = 1;").out, "const x=a();b&&c(x.d)\n");
  assert.equal(run(["-q"], "'use strict'; if (a) return b(); c();").out, '"use strict";if(a)return b();c()\n');
});

// Calls that are wrong, and what is said.
const WRONG = [
  [["--none"], "Unknown option '--none'"],
  [["a.js", "b.js"], "several files want a folder: -o OUT"],
  [["a.js", "-", "-o", "c"], "standard input goes alone"],
  [["none.js"], "none.js can't be read: ENOENT"],
  [["--passes=x"], "--passes wants a number, and not x"],
  [["--max-depth=01"], "--max-depth wants a number, and not 01"],
  [["--max-depth=0"], "an option is none that the program knows"],
  [["--source-map"], "--source-map wants -o OUT"],
  [["--program", "/none", "-"], "there is no program /none: build it by `rt run` in crates/mini_app, or name it in MINI_APP"],
  [["--printer", "/none", "-"], "there is no program /none: build it by `rt run` in crates/mini_text, or name it in MINI_TEXT"],
];

test("a wrong call ends with 2", () => {
  for (const [args, text] of WRONG) {
    const { status, out, said } = run(args, "a");
    assert.equal(said, `${text}\nminify.js --help says how it is called\n`);
    assert.deepEqual([status, out], [2, ""]);
  }
});

test("so does one where the parser isn't there", () => {
  const options = { cwd: folder, input: "a", encoding: "utf8", env: { ...process.env, NODE_PATH: "" } };
  const isThere = spawnSync(process.execPath, ["-e", "require('acorn')"], { ...options, cwd: __dirname }).status === 0;
  const { status, stderr } = spawnSync(process.execPath, [COMMAND], options);
  assert.equal(status, isThere ? 0 : 2);
  assert.equal(stderr.startsWith("acorn, the parser, isn't here: run `npm install` in js/"), !isThere);
});

test("MINI_APP and MINI_TEXT name the programs", () => {
  for (const name of ["MINI_APP", "MINI_TEXT"]) {
    const { status, said } = run([], "a", { [name]: "/none" });
    assert.equal(status, 2);
    assert.match(said, new RegExp(`^there is no program /none: .*${name}\n`));
  }
});

test("--help and --version", () => {
  const help = run(["--help"]);
  assert.equal(help.status, 0);
  assert.match(help.out, /^usage: minify\.js \[FILE\.\.\] \[-o OUT\] \[options\]\n/);
  for (const word of ["--strict", "--module", "--no-adapt", "--no-sequences", "--passes=N"]) assert.ok(help.out.includes(word));
  assert.deepEqual(run(["-v"]), { status: 0, out: `mini-peephole ${require("../package.json").version}\n`, said: "" });
});

test("of a long line the part round the place is shown", () => {
  const { said } = run([], `${"a();".repeat(100)}with (o) b();${"c();".repeat(100)}`);
  const [, shown, mark] = said.split("\n");
  assert.equal(shown.length, 86);
  assert.equal(shown.slice(mark.indexOf("^")).slice(0, 8), "with (o)");
});

test("a terminal is told how far it is, where there are more than a few files", () => {
  const files = ["a", "b", "c", "d"].map((name) => path.join(folder, file(`many/${name}.js`, "a ;")));
  const said = [];
  const stderr = { isTTY: true, write: (text) => said.push(text) };
  const output = path.join(folder, "few");
  assert.equal(runHere([...files, "-o", output], { stdout: null, stderr }), 0);
  assert.ok(said.includes(`\r\x1b[K[2/4] ${files[1]}`));
  assert.match(said.at(-1), /^4 files, 12 -> 8 bytes/);
  said.length = 0;
  assert.equal(runHere([...files.slice(1), "-o", output], { stdout: null, stderr }), 0);
  assert.equal(said.length, 1);
});
