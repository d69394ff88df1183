// Runs of the whole program over memory, as lines of the stored run of mini_cases: those that
// odd-input.txt tells, the first example with each call of the source and of the sink failing in
// turn, and programs that nest deep. `bench/cases.js` writes them.
//
// A line is `run LIMIT ROOM READS WRITES NOTES INPUT`: how many bytes a call moves, for how many
// the sink has room, and the numbers of the calls that fail. Its answer is
// `STATUS LEFT WRITTEN TOLD`, the last three in bytes, and what was written or told. A line
// `plain INPUT`, where no call fails and the bytes aren't kept, has the four numbers alone.
"use strict";
const fs = require("fs");
const path = require("path");
const { text, written } = require("./estree.js");
const { estree, outcomeOf, saidOptions } = require("./outcome.js");

const FILE = path.join(__dirname, "odd-input.txt");
const EXAMPLE = path.join(__dirname, "..", "examples", "choice.json");
const ROOM = 1000;
// How many conditionals one rewrite makes of guards at most, and more guards than that.
const [CHAIN, GUARDS] = [500, 599];
// How many `!` stand before a name that is at depth 400.
const NEGATIONS = 397;

const script = (statement) => ({ type: "Program", sourceType: "script", body: [statement] });
// The JSON of what a word and a value say.
const GIVEN = {
  value: (json) => json,
  statement: (json) => text(script(JSON.parse(json))),
  expression: (json) => text(script({ type: "ExpressionStatement", expression: JSON.parse(json) })),
  code: (source) => text(estree(source)),
  bytes: (characters) => characters,
};
const NOT_JSON = " // NotJson";

function answerText(source, after, said = {}) {
  const { kept, symbols, passes, settled, program } = outcomeOf(source, after, said);
  return `{"kept":${kept},"passes":${passes},"program":${program},"settled":${settled},"symbols":${symbols}}\n`;
}

// A run in which the calls of these numbers fail.
function run(title, input, answer, { limit = 100, reads = "-", writes = "-", notes = "-" } = {}) {
  return { title, line: `run ${limit} ${Math.max(ROOM, answer.length)} ${reads} ${writes} ${notes} ${input}`, answer };
}
const doneLine = (answer) => `0 0 ${answer.length} 0 ${answer.trimEnd()}`;
const refusedLine = (note) => `3 0 0 ${note.length} ${note.trimEnd()}`;
const noteOf = (error, pointer) => `refused: ${error} at ${pointer}\n`;

// The run that a line tells.
function runOfLine(title, line) {
  const [, word, rest] = /^(\w+) (.*)$/.exec(line);
  if (rest.endsWith(NOT_JSON)) return run(title, GIVEN[word](rest.slice(0, -NOT_JSON.length)), "2 0 0 0");
  const refusal = /^(.*) \/\/ (\w+) at ?(\S*)$/.exec(rest);
  if (refusal) return run(title, GIVEN[word](refusal[1]), refusedLine(noteOf(refusal[2], refusal[3])));
  const [programs, said = "{}"] = rest.split(/ \/\/ (?={.*}$)/);
  const [source, after] = programs.split(/(?<=}) => /);
  return run(title, GIVEN[word](source), doneLine(answerText(source, after === "stays" ? source : after, saidOptions(said))));
}

function runsOfFile() {
  const runs = [];
  let title = "";
  for (const line of fs.readFileSync(FILE, "utf8").split("\n")) {
    if (line.startsWith("#")) title = line.slice(2);
    else if (line) runs.push(runOfLine(title, line));
  }
  return runs;
}

// The k-th call fails, for each k up to the first that isn't made; `ended` tells how a run ends
// where it fails behind so many bytes.
function eachCall(title, input, calls, answer, failing) {
  return Array.from({ length: calls + 1 }, (_, at) => {
    const { setting, ended } = failing(at);
    return run(`${title}: it makes ${calls}`, input, at < calls ? ended : answer, setting);
  });
}

// Each read of so many bytes, the last of which gives the end, and each write of so many.
function failingReads(title, input, answer, limit) {
  const failing = (at) => ({ setting: { limit, reads: at + 1 }, ended: `4 ${Math.max(0, input.length - limit * at)} 0 0` });
  return eachCall(`each read of ${title} fails`, input, Math.ceil(input.length / limit) + 1, doneLine(answer), failing);
}
function failingWrites(title, input, answer, limit) {
  const failing = (at) => ({ setting: { limit, writes: at + 1 }, ended: `5 0 ${limit * at} 0 ${answer.slice(0, limit * at)}`.trimEnd() });
  return eachCall(`each write of ${title} fails`, input, Math.ceil(answer.length / limit), doneLine(answer), failing);
}
function failingNotes(input, note, limit) {
  const failing = (at) => ({ setting: { limit, notes: at + 1 }, ended: `3 0 0 ${limit * at} ${note.slice(0, limit * at)}`.trimEnd() });
  return eachCall("each call of the notes fails, which changes no status", input, Math.ceil(note.length / limit), refusedLine(note), failing);
}

// The same where no call can fail.
const plainRun = (title, input, answer) => ({ title, line: `plain ${input}`, answer });

// A name below so many `!`, as a value in memory, where nodes may nest so deep.
const deepRun = (title, depth, count, answer) => ({ title, line: `deep ${depth} ${count}`, answer });

function plainRuns(example, answer) {
  return [
    plainRun("the first example, with a source and sinks that never fail", example, `0 0 ${answer.length} 0`),
    plainRun("words that are refused, before anything is read", `-h|${example}`, `1 ${example.length} 0 0`),
    plainRun("no JSON", "", "2 0 0 0"),
    plainRun("no program", "{}", `3 0 0 ${noteOf("BadShape", "").length}`),
  ];
}

function deepRuns() {
  const place = `/body/0/expression${"/argument".repeat(NEGATIONS)}`;
  return [
    deepRun(`a name below ${NEGATIONS} negations is at depth ${NEGATIONS + 3}`, NEGATIONS + 3, NEGATIONS, `2 true ${text(written(estree("!a;")))}`),
    deepRun("which is one too deep", NEGATIONS + 2, NEGATIONS, `TooDeep ${place}`),
  ];
}

// Guards one after another, alternately of q and r, from this one on, and what stands behind the
// last.
const side = (at) => (at % 2 === 0 ? "q" : "r");
const guards = (count) => Array.from({ length: count }, (_, at) => `if (p) return ${side(at)};`).join(" ");
const conditionals = (from) => Array.from({ length: CHAIN }, (_, at) => `p ? ${side(from + at)} : `).join("");

function guardRun() {
  const before = `${guards(GUARDS)} return s;`;
  const after = `${guards(GUARDS - CHAIN)} return ${conditionals(GUARDS - CHAIN)}s;`;
  const [long, short] = [before, after].map((statements) => `function f() { ${statements} }`);
  const title = `${GUARDS} guards become a chain of ${CHAIN} conditionals, which nests deeper than what is read may`;
  return run(title, text(estree(long)), doneLine(answerText(long, short)));
}

function oddRuns() {
  const example = fs.readFileSync(EXAMPLE, "utf8").trimEnd();
  const answer = answerText("if (!a) b(); else c();", "a ? c() : b();");
  return [
    ...runsOfFile(),
    guardRun(),
    ...failingReads("the first example", example, answer, 100),
    ...failingWrites("the first example", example, answer, 10),
    ...failingNotes("{}", noteOf("BadShape", ""), 10),
    ...plainRuns(example, answer),
    ...deepRuns(),
  ];
}

module.exports = { FILE, oddRuns };
