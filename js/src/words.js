"use strict";

// The words of the program, by the options that stand for them.
const NUMBERS = { passes: "passes", maxDepth: "max-depth", edition: "edition" };
const TURNED_OFF = { sequences: "no-sequences", joinVars: "no-join-vars" };
const TURNED_ON = {
  keepFunctionNames: "keep-function-names",
  keepClassNames: "keep-class-names",
  pureCoercion: "pure-coercion",
  knownCalls: "known-calls",
};

const DEFAULTS = { maxDepth: 1000 };

/**
 * The command line of the program.
 * @param {object} options those of `minify`
 * @returns {string[]}
 */
function wordsOf(options) {
  const asked = { ...DEFAULTS, ...options };
  const words = [];
  for (const [option, word] of Object.entries(NUMBERS)) {
    if (asked[option] !== undefined) words.push(`--${word}=${asked[option]}`);
  }
  const flags = (table, value) => {
    const given = Object.keys(table).filter((option) => asked[option] === value);
    words.push(...given.map((option) => `--${table[option]}`));
  };
  flags(TURNED_OFF, false);
  flags(TURNED_ON, true);
  return words;
}

module.exports = { NUMBERS, TURNED_OFF, TURNED_ON, wordsOf };
