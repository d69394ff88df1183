// Holds the built program mini_check against itself and against the tables of rewrites on real code:
// what it makes with `--log` it has to accept without, and a log that is damaged in one entry it
// accepts, or refuses at an entry behind which the log can't be right. Builds nothing.
//
//     node --expose-internals bench/logs.js [PROGRAM [COUNT [SEED]]]
//
// PROGRAM is crates/mini_check/out/mini_check of this repository unless it is given. COUNT pieces of
// installed code (500) are taken by SEED (1), as pieces.js chooses them; those that aren't read are
// left out. Each log of at least one entry is damaged in four ways: another row, another path, an
// entry twice, two swapped. Where the damaged log is refused at an entry, that is none before the
// damage, and the entries before it are accepted by themselves.
//
// Each entry that is accepted, of whole logs and of damaged ones, is read anew from the tables
// (bench/redex/, and row 66 here): the row has to make the next program of the one before at the
// node that the path leads to, or around it. A refused entry of which the tables read something is
// counted, and is no error: the rows of a log ask for more. Then the seconds of both ways on n and
// 2 n statements, and on the pieces together, each in a function of its own, of n and 2 n bytes.
"use strict";
const { words, run } = require("./built.js");
const { chances, chosenPieces } = require("./pieces.js");
const { children, isOutside, isUnread, parseLeniently, text, written } = require("./estree.js");
const { search } = require("./redex/search.js");

const ROWS = [1, 3, 7, 12, 13, 15, 19, 23, 33, 34, 39, 40, 41, 42, 49, 54, 55, 58, 60, 61, 65, 66, 79, 82];
const LISTED = {
  Program: "body",
  BlockStatement: "body",
  SwitchCase: "consequent",
  StaticBlock: "body",
};
const REFUSED = 3;
const SHOWN = 5;

// What a certificate leads to: the last program, or the entry at which it is refused.
function checked(program, certificate) {
  const { status, output, notes } = run(program, certificate);
  if (status === 0) {
    const { program: last, verdict } = JSON.parse(output);
    if (verdict !== "Yes") throw new Error(`status 0 without Yes: ${output.slice(0, 80)}`);
    return { last };
  }
  const [, entry] = /^refused: NoStep at \/log\/(\d+)\n$/.exec(notes) ?? [];
  if (status !== REFUSED || entry === undefined) throw new Error(`status ${status}: ${notes}`);
  return { refused: Number(entry) };
}

// ---- one step, read anew

const isDirective = (node) => typeof node.directive === "string";
const copy = (tree) => JSON.parse(text(tree));
const same = (left, right) => text(written(left)) === text(written(right));

// The pointer of a part of a node, from that node on.
function partPointer(node, part) {
  for (const [field, value] of Object.entries(node)) {
    if (value === part) return `/${field}`;
    if (Array.isArray(value) && value.includes(part)) return `/${field}/${value.indexOf(part)}`;
  }
  throw new Error(`no part of ${node.type}`);
}

// The pointers of the nodes on a path, the last one's first; null where it leads to none.
function pointersOn(tree, path) {
  const found = [""];
  let node = tree;
  for (const index of path) {
    const part = children(node).filter((each) => !isDirective(each))[index];
    if (part === undefined) return null;
    found.unshift(found[0] + partPointer(node, part));
    node = part;
  }
  return found;
}

// The program in which something stands at a pointer.
function withPart(tree, pointer, part) {
  if (pointer === "") return part;
  const whole = copy(tree);
  const keys = pointer.split("/").slice(1);
  const last = keys.pop();
  keys.reduce((node, key) => node[key], whole)[last] = part;
  return whole;
}

const at = (tree, pointer) => pointer.split("/").slice(1).reduce((node, key) => node[key], tree);

// The program in which a rewrite that was found is made.
function made(tree, { pointer, list, written: other }) {
  if (!list) return withPart(tree, pointer, other);
  const node = at(tree, pointer);
  const field = LISTED[node.type];
  return withPart(tree, pointer, { ...node, [field]: [...node[field].filter(isDirective), ...other] });
}

// 66: an empty statement goes, or an expression statement joins the next one.
function joined(tree, [pointer, above]) {
  const node = at(tree, above);
  const list = node[LISTED[node.type]];
  const index = list?.indexOf(at(tree, pointer)) ?? -1;
  if (index < 0) return [];
  const put = (count, ...others) => {
    const rest = list.toSpliced(index, count, ...others);
    return withPart(tree, above, { ...node, [LISTED[node.type]]: rest });
  };
  if (list[index].type === "EmptyStatement") return [put(1)];
  const pair = list.slice(index, index + 2);
  const isOther = (each) => each.type !== "ExpressionStatement" || isDirective(each);
  if (pair.length < 2 || pair.some(isOther)) return [];
  const partsOfOne = ({ expression }) =>
    expression.type === "SequenceExpression" ? expression.expressions : [expression];
  const expressions = pair.flatMap(partsOfOne);
  return [put(2, { type: "ExpressionStatement", expression: { type: "SequenceExpression", expressions } })];
}

// The programs that a row makes at a path, or of what is around it, by the tables.
function stepsOf(tree, [row, path]) {
  const pointers = pointersOn(tree, path);
  if (pointers === null) return [];
  if (row === 66) return joined(tree, pointers);
  const near = pointers.slice(0, row === 61 || row === 79 ? 3 : 1);
  return search(tree).filter((each) => each.row === row && near.includes(each.pointer)).map((each) => made(tree, each));
}

// ---- damaged logs

const other = (list, one, pick) => list.filter((each) => each !== one)[pick(list.length - 1)];

// The damaged logs, each with the first entry that differs.
function* damaged(log, pick) {
  const place = pick(log.length);
  const [row, path] = log[place];
  const put = (...entries) => [...log.slice(0, place), ...entries, ...log.slice(place + 1)];
  yield { at: place, log: put([other(ROWS, row, pick), path]) };
  yield { at: place, log: put([row, path.length > 0 ? path.slice(0, -1) : [0]]) };
  yield { at: place + 1, log: put(log[place], log[place]) };
  if (place + 1 < log.length) yield { at: place, log: [...log.slice(0, place), log[place + 1], log[place], ...log.slice(place + 2)] };
}

// ---- whole pieces

// The entries of a log from one on, each held against the tables; what is wrong of them.
function* wrongSteps(check, { program, log }, from, told) {
  const after = (count) => checked(check, { program, log: log.slice(0, count) });
  let before = after(from);
  for (let entry = from; entry < log.length; entry += 1) {
    if (before.refused !== undefined) return yield `without entry ${entry} refused at ${before.refused}`;
    const next = after(entry + 1);
    const steps = stepsOf(before.last, log[entry]);
    if (next.refused !== undefined) {
      if (next.refused !== entry) yield `refused at ${next.refused} for ${entry}`;
      told.narrower += steps.length > 0 ? 1 : 0;
      return;
    }
    told.steps += 1;
    if (!steps.some((each) => same(each, next.last))) yield `entry ${entry} is no step of the table: ${text(log[entry])} of ${text(before.last)}`;
    before = next;
  }
}

function* wrongDamage(check, certificate, damage, told) {
  const { refused } = checked(check, { ...certificate, log: damage.log });
  told.refused += refused === undefined ? 0 : 1;
  if (refused !== undefined && refused < damage.at) yield `refused at ${refused}, before the damage at ${damage.at}`;
  yield* wrongSteps(check, { ...certificate, log: damage.log }, damage.at, told);
}

function held(check, count, seed, read) {
  const told = { pieces: 0, entries: 0, damaged: 0, refused: 0, narrower: 0, steps: 0, wrong: 0 };
  const pick = chances(seed);
  const tell = (wrong) => {
    told.wrong += 1;
    if (told.wrong <= SHOWN) console.log(wrong);
  };
  for (const [, tree] of chosenPieces(count, seed)) {
    if (isOutside(tree) || isUnread(tree)) continue;
    const { status, output } = run(check, written(tree), ["--log"]);
    if (status !== 0) continue;
    const certificate = JSON.parse(output);
    read.push(tree);
    told.pieces += 1;
    told.entries += certificate.log.length;
    if (checked(check, certificate).refused !== undefined) tell(`its own log is refused: ${text(certificate.log)}`);
    for (const wrong of wrongSteps(check, certificate, 0, told)) tell(wrong);
    for (const damage of certificate.log.length > 0 ? damaged(certificate.log, pick) : []) {
      told.damaged += 1;
      for (const wrong of wrongDamage(check, certificate, damage, told)) tell(wrong);
    }
  }
  return told;
}

// ---- time

function seconds(program, value, given) {
  const begun = process.hrtime.bigint();
  const { output } = run(program, value, given);
  return { took: Number(process.hrtime.bigint() - begun) / 1e9, output };
}

// A script of the pieces, again and again, each in a function of its own, of so many bytes of JSON.
function together(pieces, bytes) {
  const body = [];
  for (let size = 0, next = 0; size < bytes; next = (next + 1) % pieces.length) {
    const block = { type: "BlockStatement", body: pieces[next].body };
    const expression = { type: "FunctionExpression", id: null, params: [], body: block };
    body.push({ type: "ExpressionStatement", expression });
    size += text(written(body.at(-1))).length;
  }
  return { type: "Program", sourceType: "script", body };
}

function grown(check, name, tree) {
  const made = seconds(check, written(tree), ["--log"]);
  const certificate = JSON.parse(made.output);
  const { took } = seconds(check, certificate);
  console.log(`${name}: ${text(written(tree)).length} bytes, ${certificate.log.length} entries: made in ${made.took.toFixed(2)} s, checked in ${took.toFixed(2)} s`);
}

const { program: check, count, seed } = words(500, "mini_check");
const read = [];
const told = held(check, count, seed, read);
console.log(`${told.pieces} pieces, ${told.entries} entries, ${told.damaged} damaged logs, ${told.refused} refused, ${told.steps} steps, ${told.narrower} narrower, ${told.wrong} wrong`);
for (const statements of [500, 1000, 2000, 4000]) {
  grown(check, `${2 * statements} statements`, parseLeniently("x = !(a == b); if (c) d();".repeat(statements), "script"));
}
const scripts = read.filter(({ sourceType }) => sourceType === "script");
for (const bytes of [1e6, 2e6, 4e6]) grown(check, "real code", together(scripts, bytes));
process.exitCode = told.wrong === 0 ? 0 : 1;
