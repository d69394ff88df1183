// Runs moment's own tests, which Debian's node-moment has in min/tests.js, on a small QUnit, and
// says how many pass.
//
//     NODE_PATH=/usr/share/nodejs node --expose-internals [-r ./bench/hook.js] bench/moment.js
"use strict";
const { isDeepStrictEqual } = require("util");

process.env.TZ = "UTC";

const counts = { tests: 0, passed: 0, failed: 0 };
const failures = [];

// What a test is given: each call counts.
function assertions(name) {
  const ok = (holds, message) => {
    if (holds) counts.passed += 1;
    else {
      counts.failed += 1;
      failures.push(`${name}: ${message}`);
    }
  };
  const throws = (run, expected, message) => {
    try {
      run();
      ok(false, message);
    } catch {
      ok(true);
    }
  };
  return {
    test: { module: { name } },
    expected: null,
    expect() {},
    async: () => () => {},
    ok,
    notOk: (value, message) => ok(!value, message),
    equal: (one, other, message) => ok(one == other, message),
    notEqual: (one, other, message) => ok(one != other, message),
    strictEqual: (one, other, message) => ok(one === other, message),
    notStrictEqual: (one, other, message) => ok(one !== other, message),
    deepEqual: (one, other, message) => ok(isDeepStrictEqual(one, other), message),
    notDeepEqual: (one, other, message) => ok(!isDeepStrictEqual(one, other), message),
    throws,
    raises: throws,
  };
}

let group = { name: "", hooks: {} };

function runTest(name, body) {
  counts.tests += 1;
  const assert = assertions(`${group.name}, ${name}`);
  const { setup, beforeEach, teardown, afterEach } = group.hooks;
  const self = {};
  try {
    for (const step of [setup ?? beforeEach, body, teardown ?? afterEach]) step?.call(self, assert);
  } catch (error) {
    assert.ok(false, error.message);
  }
}

global.QUnit = {
  module: (name, hooks = {}) => {
    group = { name, hooks };
  },
  test: runTest,
  only: runTest,
  skip() {},
};

const say = console.log;
console.log = () => {};
require("moment/min/tests.js");
say(`${counts.tests} tests, ${counts.passed} assertions pass, ${counts.failed} fail`);
for (const line of failures.slice(0, 10)) say(`  ${line}`);
process.exitCode = counts.failed === 0 ? 0 : 1;
