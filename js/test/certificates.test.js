"use strict";
// Certificates by the program mini_check, which the gate has built before these tests: a pipe that
// makes one and checks it, and one of which an entry is there twice.
const assert = require("node:assert/strict");
const { spawnSync } = require("node:child_process");
const fs = require("node:fs");
const path = require("node:path");
const test = require("node:test");

const FOLDER = path.join(__dirname, "..", "..", "crates", "mini_check");
const PROGRAM = process.env.MINI_CHECK ?? path.join(FOLDER, "out", "mini_check");
const there = { skip: fs.existsSync(PROGRAM) ? false : `${PROGRAM} is not built` };

// The stored run: `x = !(a == b);` with one entry, and its last program.
const stored = (name) => fs.readFileSync(path.join(FOLDER, name), "utf8");

const run = (input, ...words) => {
  const { status, stdout, stderr } = spawnSync(PROGRAM, words, { input, encoding: "utf8" });
  return { status, out: stdout, said: stderr };
};

test("a certificate that is made is accepted", there, () => {
  const { program } = JSON.parse(stored("stdin"));
  const made = run(JSON.stringify(program), "--log");
  assert.deepEqual(made, { status: 0, out: stored("stdin"), said: "" });
  assert.deepEqual(run(made.out), { status: 0, out: stored("stdout"), said: "" });
});

test("the second of two equal entries has no step", there, () => {
  const { log, program } = JSON.parse(stored("stdin"));
  const twice = JSON.stringify({ log: [...log, ...log], program });
  assert.deepEqual(run(twice), { status: 3, out: "", said: "refused: NoStep at /log/1\n" });
});

test("the word stands once at most", there, () => {
  const { program } = JSON.parse(stored("stdin"));
  assert.equal(run(JSON.stringify(program), "--log", "--log").status, 1);
  assert.equal(run(JSON.stringify(program), "--no-sequences", "--log").status, 0);
});
