"use strict";
// The adapter around the program: what programs do before and after, to the turn of the queue of
// jobs.
const assert = require("node:assert/strict");
const test = require("node:test");
const { skip } = require("../built.js");
const { generated } = require("./generated.js");
const numbers = require("./numbers.js");
const { logsOf } = require("./running.js");
const waiting = require("./waiting.js");

const GENERATED = 150;

/** Checks that programs do the same before and after, and that each does something. */
async function check(programs) {
  const logs = await logsOf(programs);
  logs.forEach(({ before, after }, at) => {
    assert.ok(before.length > 0, `does nothing: ${programs[at]}`);
    assert.deepEqual(after, before, programs[at]);
  });
}

test("programs that wait do the same before and after", { skip }, async () => {
  await check(waiting.map(([, code]) => code));
});

test("generated programs that wait do the same before and after", { skip }, async () => {
  await check(Array.from({ length: GENERATED }, (_, at) => generated(at + 1)));
});

test("literals in every place are the same before and after", { skip }, async () => {
  await check(numbers);
});
