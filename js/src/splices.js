"use strict";

const isOfWord = (unit) => /[\w$\\]|[^\0-\x7f]/.test(unit);

/** Whether two pieces of text would be read as others where the one stands behind the other. */
function runTogether(one, other) {
  const [last, first] = [one.at(-1), other[0]];
  // Behind a slash may stand the flags of a regular expression.
  if (isOfWord(first)) return isOfWord(last) || last === "/";
  return last === first && /[+\-/]/.test(last);
}

/** Text of whole tokens: a blank stands between two pieces where they would run together. */
class Pieces {
  constructor() {
    this.list = [];
  }

  /** Takes the blanks at the end away: what comes behind them may need none. */
  trim() {
    while (this.list.length > 0) {
      const last = this.list.pop().trimEnd();
      if (last !== "") return this.list.push(last);
    }
    return 0;
  }

  add(text) {
    if (text === "") return;
    const isBehind = this.trim() > 0;
    const piece = isBehind ? text.trimStart() : text;
    if (piece === "") return void this.list.push(text);
    if (isBehind && runTogether(this.list.at(-1), piece)) this.list.push(" ");
    this.list.push(piece);
  }
}

/**
 * Stretches of a compact text, each of whole tokens, with what is to stand in their places.
 * @example
 * const splices = new Splices("f(a+b)");
 * splices.replace(0, 6, ["await(", { start: 2, end: 5 }, ")"]);
 * splices.text(); // "await(a+b)"
 */
class Splices {
  /** @param {string} source the text, in which blanks part tokens that would run together */
  constructor(source) {
    this.source = source;
    this.edits = [];
  }

  /**
   * Puts words and nodes in place of a stretch. What of the stretch stands outside of the nodes
   * goes, parentheses round them as well; the nodes stay as they are.
   * @param {number} start
   * @param {number} end
   * @param {Array<string | {start: number, end: number}>} parts words, of whole tokens each, and
   *   nodes in the order of the text
   */
  replace(start, end, parts) {
    let at = start;
    let words = [];
    for (const part of parts) {
      if (typeof part === "string") words.push(part);
      else {
        this.edits.push({ start: at, end: part.start, words });
        [at, words] = [part.end, []];
      }
    }
    this.edits.push({ start: at, end, words });
  }

  /** The text with the words in their places. */
  text() {
    const { source } = this;
    const pieces = new Pieces();
    let at = 0;
    // What is put in at a place stands before what is put in place of something there.
    const inOrder = this.edits.sort((one, other) => one.start - other.start || one.end - other.end);
    for (const { start, end, words } of inOrder) {
      pieces.add(source.slice(at, start));
      for (const word of words) pieces.add(word);
      at = end;
    }
    pieces.add(source.slice(at));
    return pieces.list.join("");
  }
}

module.exports = { Splices };
