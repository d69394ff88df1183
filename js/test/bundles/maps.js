"use strict";
// Reads source maps, on its own, and compares what stands at both ends of each segment.
const assert = require("node:assert/strict");

const DIGITS = "ABCDEFGHIJKLMNOPQRSTUVWXYZabcdefghijklmnopqrstuvwxyz0123456789+/";

/** The numbers of one segment, in VLQ of base 64: five bits a digit, the sign last. */
function numbersOf(text) {
  const numbers = [];
  let bits = [];
  for (const digit of text) {
    const value = DIGITS.indexOf(digit);
    assert.ok(value >= 0, `no digit: ${digit}`);
    bits.push(value % 32);
    if (value >= 32) continue;
    const all = bits.reduceRight((sum, five) => sum * 32 + five, 0);
    numbers.push(all % 2 === 1 ? -Math.floor(all / 2) : all / 2);
    bits = [];
  }
  assert.equal(bits.length, 0, "a number goes on");
  return numbers;
}

/**
 * The segments of a map.
 * @returns {{line: number, column: number, source?: number, sourceLine?: number, sourceColumn?:
 *   number, name?: string}[]}
 */
function segmentsOf(map) {
  assert.equal(map.version, 3);
  const found = [];
  let [source, sourceLine, sourceColumn, name] = [0, 0, 0, 0];
  map.mappings.split(";").forEach((segments, line) => {
    let column = 0;
    for (const text of segments.split(",").filter(Boolean)) {
      const numbers = numbersOf(text);
      assert.ok([1, 4, 5].includes(numbers.length), `a segment of ${numbers.length} numbers`);
      column += numbers[0];
      const segment = { line, column };
      if (numbers.length >= 4) {
        source += numbers[1];
        sourceLine += numbers[2];
        sourceColumn += numbers[3];
        Object.assign(segment, { source, sourceLine, sourceColumn });
      }
      if (numbers.length === 5) segment.name = map.names[(name += numbers[4])];
      found.push(segment);
    }
  });
  return found;
}

const TOKENS = [
  ["name", /#?[\p{ID_Start}$_][\p{ID_Continue}$\u200c\u200d]*/uy],
  ["bigint", /(?:0[xX][\da-fA-F_]+|0[bB][01_]+|0[oO][0-7_]+|[\d_]+)n/y],
  ["number", /0[xX][\da-fA-F_]+|0[bB][01_]+|0[oO][0-7_]+/y],
  ["number", /(?:[\d_]+\.?[\d_]*|\.[\d_]+)(?:[eE][+-]?[\d_]+)?/y],
  ["text", /"(?:\\[^]|[^"\\])*"|'(?:\\[^]|[^'\\])*'/y],
  ["regex", /\/(?:\\.|\[(?:\\.|[^\]\\\n])*\]|[^/\\[\n])+\/\w*/y],
];

/** The token that begins at a place, by kind and value; else the next piece of a template. */
function tokenAt(lines, line, column) {
  const text = lines.slice(line).join("\n").slice(column);
  for (const [kind, form] of TOKENS) {
    form.lastIndex = 0;
    const found = form.exec(text);
    if (!found) continue;
    if (kind === "name" || kind === "regex") return `${kind} ${found[0]}`;
    return `${kind} ${String(new Function(`return ${found[0].replaceAll("_", "")}`)())}`;
  }
  return `piece ${/^(?:\\[^]|\$(?!\{)|[^`\\$])*/.exec(text)[0]}`;
}

const pieceAt = (lines, line, column) =>
  `piece ${/^(?:\\[^]|\$(?!\{)|[^`\\$])*/.exec(lines.slice(line).join("\n").slice(column))[0]}`;

/** Whether the same stands at two places: as a token, or as a piece of a template. */
function isSame(one, other) {
  return tokenAt(...one) === tokenAt(...other) || pieceAt(...one) === pieceAt(...other);
}

const linesOf = (text) => text.split("\n");

/**
 * Checks that each segment leads to a place where the same token begins, or one that was renamed.
 * @returns {number} how many segments lead somewhere
 */
function checkMap(map, code) {
  const [lines, all] = [linesOf(code), map.sourcesContent.map(linesOf)];
  let count = 0;
  for (const { line, column, source, sourceLine, sourceColumn, name } of segmentsOf(map)) {
    if (source === undefined) continue;
    count++;
    const there = [all[source], sourceLine, sourceColumn];
    if (name !== undefined && tokenAt(...there) === `name ${name}`) continue;
    const [here, place] = [`${line + 1}:${column + 1}`, `${sourceLine + 1}:${sourceColumn + 1}`];
    const message = `${here} ${tokenAt(lines, line, column)} leads to ${place} ${tokenAt(...there)}`;
    assert.ok(isSame([lines, line, column], there), message);
  }
  return count;
}

/** Where a token of a text leads: its line and column in the source, from 1. */
function leadsTo(map, code, token) {
  const at = code.indexOf(token);
  const line = code.slice(0, at).split("\n").length - 1;
  const column = at - (code.lastIndexOf("\n", at) + 1);
  const isThere = (segment) => segment.line === line && segment.column === column;
  const found = segmentsOf(map).find(isThere);
  if (found?.source === undefined) return null;
  return `${map.sources[found.source]}:${found.sourceLine + 1}:${found.sourceColumn + 1}`;
}

module.exports = { checkMap, leadsTo, segmentsOf };
