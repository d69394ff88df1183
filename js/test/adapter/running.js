"use strict";
// Runs JavaScript, and tells what it did and when: each line of the log begins with the number of
// turns that the queue of jobs had taken by then. So two programs with one log wait as often, in
// one order.
const vm = require("node:vm");
const { minify } = require("../../index.js");

const TURNS = 300;

// What the programs may use. It runs inside their context, so that its promises are those of the
// context.
const PRELUDE = `
"use strict";
var turn = 0;
function spin() { turn++; if (turn < ${TURNS}) Promise.resolve().then(spin); }
function show(value) {
  if (typeof value === "bigint") return value + "n";
  if (Object.is(value, -0)) return "-0";
  if (typeof value === "string") return JSON.stringify(value);
  if (typeof value === "symbol" || typeof value === "function") return typeof value;
  if (value instanceof Error) return value.name + " " + value.message;
  if (Array.isArray(value)) return "[" + value.map(show) + "]";
  if (value === null || typeof value !== "object") return String(value);
  return "{" + Object.keys(value).map((key) => JSON.stringify(key) + ":" + show(value[key])) + "}";
}
function log(...values) { lines.push(turn + " " + values.map(show).join(" ")); return values[0]; }
async function later(value, turns = 1) { while (turns-- > 0) await null; return log(value); }
async function failing(value, turns = 1) {
  while (turns-- > 0) await null;
  log("fails", value);
  throw value;
}
function thenable(value) { return { then(done) { log("then", value); done(value); } }; }
function told(promise, name) {
  return promise.then((value) => log(name, "gives", value), (error) => log(name, "rejects", error));
}
function source(name, values, { failAt = -1, failAtEnd = false } = {}) {
  let at = 0;
  return {
    [Symbol.asyncIterator]() { log(name, "begins"); return this; },
    async next() {
      log(name, "next", at);
      if (at === failAt) throw new Error(name + at);
      const done = at >= values.length;
      return { value: done ? undefined : values[at++], done };
    },
    async return(value) {
      log(name, "return");
      if (failAtEnd) throw new Error(name);
      return { value, done: true };
    },
  };
}
async function drained(iterator, name) {
  try {
    for (;;) {
      const { value, done } = await iterator.next();
      log(name, done ? "ends" : "yields", value);
      if (done) return;
    }
  } catch (error) { log(name, "rejects", error); }
}
`;

/**
 * The log of a program.
 * @param {string} code a script
 * @returns {Promise<string[]>}
 */
async function logOf(code) {
  const lines = [];
  const context = vm.createContext({ lines });
  vm.runInContext(PRELUDE, context);
  try {
    vm.runInContext(code, context);
  } catch (error) {
    lines.push(`throws ${error.name} ${error.message}`);
  }
  vm.runInContext("spin()", context);
  await new Promise((done) => setTimeout(done, 0));
  return lines;
}

/** The program minified, which has to be done. */
function minified(code, options) {
  const { code: text, refused } = minify(code, options);
  if (refused) throw new Error(`refused: ${refused.code} ${refused.message}`);
  return text;
}

/** The same of programs that are minified all at once, each in a function of its own. */
async function logsOfSome(programs) {
  const functions = programs.map((code) => `function () { ${code}\n}`);
  const all = `const programs = [${functions.join(",\n")}];\n`;
  const text = minified(all);
  const logs = [];
  for (let at = 0; at < programs.length; at++) {
    const before = await logOf(`${all};programs[${at}]()`);
    logs.push({ before, after: await logOf(`${text};programs[${at}]()`) });
  }
  return logs;
}

const AT_ONCE = 50;

/**
 * The logs of programs before and after.
 * @param {string[]} programs
 * @returns {Promise<{before: string[], after: string[]}[]>}
 */
async function logsOf(programs) {
  const logs = [];
  for (let at = 0; at < programs.length; at += AT_ONCE) {
    logs.push(...(await logsOfSome(programs.slice(at, at + AT_ONCE))));
  }
  return logs;
}

module.exports = { logOf, logsOf, minified };
