// Looks for rewrites that no row of the table asks for: parts of a program that one pass changed,
// though no row reads anything in them or around them.
"use strict";
const { text } = require("../estree.js");
const { search } = require("./search.js");

const isNode = (value) => value !== null && typeof value === "object";
const isAlike = (before, after) => text(before) === text(after);

// Whether two values differ in their children alone, so that each child can be told by itself.
function hasSameForm(before, after) {
  if (!isNode(before) || !isNode(after)) return false;
  if (Array.isArray(before) !== Array.isArray(after)) return false;
  const [ours, theirs] = [Object.keys(before), Object.keys(after)];
  return ours.length === theirs.length && ours.every((key) => key in after && (
    isNode(before[key]) && isNode(after[key]) || before[key] === after[key]
  ));
}

// The pointers of the innermost parts in which all that differs stands.
function* changedParts(before, after, pointer = "") {
  if (isAlike(before, after)) return;
  if (!hasSameForm(before, after)) {
    yield pointer;
    return;
  }
  for (const key of Object.keys(before)) {
    yield* changedParts(before[key], after[key], `${pointer}/${key}`);
  }
}

const isWithin = (inner, outer) => inner === outer || inner.startsWith(`${outer}/`);

// What a pointer leads to.
const at = (program, pointer) =>
  pointer.split("/").slice(1).reduce((node, key) => node[key], program);

// The parts of a program that a pass changed and no row reads: each before and after, as the pass
// found them and left them. A row that reads a node around a part, or one inside of it, may be what
// changed it.
function unaskedFor(before, after) {
  const parts = [...changedParts(before, after)];
  if (parts.length === 0) return [];
  const read = search(before).map(({ pointer }) => pointer);
  const isRead = (part) =>
    read.some((pointer) => isWithin(part, pointer) || isWithin(pointer, part));
  return parts.filter((part) => !isRead(part)).map((pointer) => ({
    pointer, before: at(before, pointer), after: at(after, pointer),
  }));
}

module.exports = { unaskedFor };
