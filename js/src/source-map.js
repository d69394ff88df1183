"use strict";
const { align } = require("./align.js");
const { leaves, walk } = require("./estree.js");
const { decode, encode } = require("./mappings.js");
const { numbered } = require("./numbered.js");

// Names and literals are never renamed, and mostly keep their order. So the leaves of the printed
// tree are laid beside those of the parser's, body by body: an answer tells which body of the input
// each of its own was. A leaf for which that tells nothing has no place in the map.

// ---- which leaf is which

/** What a leaf says. */
function textOf(leaf) {
  if (leaf.type === "Literal") {
    if (leaf.regex) return `/${leaf.regex.pattern}/${leaf.regex.flags}`;
    return leaf.bigint != null ? `${leaf.bigint}n` : `${typeof leaf.value} ${leaf.value}`;
  }
  if (leaf.type === "TemplateElement") return `\`${leaf.value.raw}`;
  return `${leaf.type} ${leaf.name ?? leaf.meta?.name ?? ""}`;
}

/** The leaves that are names of properties: `a` in `b.a` is none in `a`. */
function propertyNames(tree) {
  const names = new Set();
  walk(tree, ({ type, computed, property, key }) => {
    if (type === "MemberExpression" && !computed) names.add(property);
    if (key && !computed) names.add(key);
  });
  return names;
}

/** Whole numbers are made anew in many places, as the 0 of `void 0`. */
const isMade = (leaf) => leaf.type === "Literal" && Number.isSafeInteger(leaf.value);

/** The numbers of the input's bodies in which a tree's leaves are. */
function bodiesOf(tree, numberOf) {
  const bodies = new Map();
  numbered(tree, (node, number) => bodies.set(node, numberOf(number)));
  return bodies;
}

/**
 * For each body the leaves that it has itself.
 * @returns {Map<number, object[]>}
 */
function byBody(found, bodies) {
  const groups = new Map();
  for (const leaf of found) {
    const body = bodies.get(leaf);
    if (!groups.has(body)) groups.set(body, []);
    groups.get(body).push(leaf);
  }
  return groups;
}

/** How often each text stands in a list. */
function counted(texts) {
  const counts = new Map();
  for (const text of texts) counts.set(text, (counts.get(text) ?? 0) + 1);
  return counts;
}

const RUN = 4; // so many equal leaves in a row are told apart from others

/**
 * The pairs that can be told: all, where nothing has gone or come; else those of a leaf that is the
 * only one of its text on both sides, and of those that stand in a row with such a leaf, or in a
 * long row.
 */
function certain(pairs, one, other) {
  if (pairs.length === one.leaves.length && pairs.length === other.leaves.length) return pairs;
  const [mine, yours] = [counted(one.texts), counted(other.texts)];
  const isOnly = ([at]) =>
    mine.get(one.texts[at]) === 1 && yours.get(one.texts[at]) === 1 && !isMade(one.leaves[at]);
  const found = [];
  let run = [];
  const close = () => {
    if (run.length >= RUN || run.some(isOnly)) found.push(...run);
    run = [];
  };
  for (const pair of pairs) {
    const last = run.at(-1);
    if (last && (pair[0] !== last[0] + 1 || pair[1] !== last[1] + 1)) close();
    run.push(pair);
  }
  close();
  return found;
}

const withTexts = (list, names) => ({
  leaves: list,
  texts: list.map((leaf) => (names.has(leaf) ? `.${textOf(leaf)}` : textOf(leaf))),
});

/**
 * The leaf of the input for each leaf of the answer of which that can be told.
 * @param {object} ast the input
 * @param {object} program the answer's tree
 * @param {number[]} kept the numbers that the answer's bodies had in the input
 * @returns {Map<object, object>}
 */
function origins(ast, program, kept) {
  const isTold = numbered(program).length === kept.length;
  const ofInput = bodiesOf(ast, (number) => (isTold ? number : 0));
  const ofOutput = bodiesOf(program, (number) => (isTold ? kept[number] : 0));
  const [inputs, outputs] = [byBody(leaves(ast), ofInput), byBody(leaves(program), ofOutput)];
  const [names, others] = [propertyNames(ast), propertyNames(program)];
  const found = new Map();
  for (const [body, list] of outputs) {
    const [one, other] = [withTexts(inputs.get(body) ?? [], names), withTexts(list, others)];
    for (const [at, place] of certain(align(one.texts, other.texts), one, other)) {
      found.set(other.leaves[place], one.leaves[at]);
    }
  }
  return found;
}

/** The numbers without that of the function that was put around a script with a `return`. */
function withoutWrapper(kept, program) {
  if (numbered(program).length + 1 !== kept.length || kept[1] !== 1) return kept;
  return [0, ...kept.slice(2).map((number) => number - 1)];
}

// ---- the map of the bundler before

/** The last segment of a line that begins at a column or before it. */
function segmentAt(segments, column) {
  let [low, high] = [0, segments.length];
  while (low < high) {
    const middle = (low + high) >> 1;
    if (segments[middle][0] <= column) low = middle + 1;
    else high = middle;
  }
  return segments[low - 1];
}

class InputMap {
  constructor(map, code) {
    this.map = map;
    this.lines = decode(map.mappings);
    this.code = code.split(/\r\n|[\n\r\u2028\u2029]/);
    this.sources = (map.sourcesContent ?? []).map((text) => text?.split(/\r\n|[\n\r\u2028\u2029]/));
  }

  /** Where a leaf was before: a segment begins with it, or the source has the same text further on. */
  trace({ line, column }, length) {
    const segment = segmentAt(this.lines[line - 1] ?? [], column);
    if (segment === undefined || segment.length < 4) return null;
    const [start, source, sourceLine, sourceColumn] = segment;
    const further = column - start;
    if (further === 0) return segment.slice(1);
    const text = this.code[line - 1]?.slice(column, column + length);
    const place = sourceColumn + further;
    const there = this.sources[source]?.[sourceLine]?.slice(place, place + length);
    return text !== "" && text === there ? [source, sourceLine, place] : null;
  }
}

// ---- the segments

/** Line and column of ascending offsets. */
function placesIn(text) {
  let [line, start, next] = [0, 0, text.indexOf("\n")];
  return (offset) => {
    while (next >= 0 && next < offset) {
      [line, start, next] = [line + 1, next + 1, text.indexOf("\n", next + 1)];
    }
    return { line, column: offset - start };
  };
}

/**
 * Where each leaf of a printed tree begins in its text: the parser's tree of that is the same, leaf
 * by leaf, as the guard has seen.
 * @returns {[number, object][]}
 */
function positionsOf(program, tree) {
  const found = leaves(tree);
  return leaves(program).map((leaf, at) => [found[at].start, leaf]);
}

/**
 * The segments of the printed leaves: those with an origin lead to it, the first after them to
 * nowhere.
 * @param {(leaf: object) => number[] | null} origin source, line, column and name
 */
function segmentsOf(text, positions, origin) {
  const placeOf = placesIn(text);
  const lines = text.split("\n").map(() => []);
  for (const [offset, leaf] of positions) {
    const { line, column } = placeOf(offset);
    const there = origin(leaf);
    const last = lines[line].at(-1);
    if (there) lines[line].push([column, ...there]);
    else if (last && last.length > 1) lines[line].push([column]);
  }
  return lines;
}

const first = (leaf) => leaf.loc.start;

/** The map to the input itself. */
function direct({ code, file, lines, head }) {
  const above = head.split("\n").slice(0, -1).map(() => []);
  const name = file ?? "input.js";
  return {
    version: 3,
    file: name,
    sources: [name],
    sourcesContent: [code],
    names: [],
    mappings: encode([...above, ...lines]),
  };
}

const nothing = (code, message) => ({
  map: null,
  warnings: [{ code, message, line: null, column: null }],
});

/** The map that is handed in, if it can be read. */
function readInputMap(inputMap, code) {
  if (!inputMap) return null;
  const { version, mappings, sources } = inputMap;
  if (version !== 3 || typeof mappings !== "string" || !Array.isArray(sources)) {
    throw new RangeError("it is no source map of version 3 with `mappings` in one text");
  }
  return new InputMap(inputMap, code);
}

/**
 * The source map of a minified text.
 * @param {object} parts
 * @param {string} parts.code the text that was minified
 * @param {object} parts.ast its tree, with places
 * @param {object} parts.program the tree that was printed
 * @param {number[]} parts.kept the numbers of the answer
 * @param {string} parts.text what was printed
 * @param {object} parts.tree what the parser makes of that: the same tree, with its places
 * @param {string} parts.head what stands before it: whole lines
 * @param {string} [parts.file] the name of the source
 * @param {object} [parts.inputMap] the map of `code`: then the map leads to where that leads
 * @returns {{map: object | null, warnings: object[]}} a map of version 3; null where none can be
 *   made
 */
function sourceMap({ code, ast, program, kept, text, tree, head = "", file, inputMap }) {
  let before;
  try {
    before = readInputMap(inputMap, code);
  } catch (error) {
    return nothing("InputMap", `the source map of the input can't be read: ${error.message}`);
  }
  const from = origins(ast, program, withoutWrapper(kept, program));
  const origin = (leaf) => {
    const source = from.get(leaf);
    if (source === undefined) return null;
    const { line, column } = first(source);
    if (before === null) return [0, line - 1, column];
    return before.trace({ line, column }, source.end - source.start);
  };
  const lines = segmentsOf(text, positionsOf(program, tree), origin);
  const map = direct({ code, file, lines, head });
  if (!before) return { map, warnings: [] };
  const { sources, sourcesContent, sourceRoot, names = [] } = inputMap;
  const { version, file: name, mappings } = map;
  const roots = { ...(sourceRoot && { sourceRoot }), ...(sourcesContent && { sourcesContent }) };
  return { map: { version, file: name, ...roots, sources, names, mappings }, warnings: [] };
}

module.exports = { origins, sourceMap };
