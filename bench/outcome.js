// What the minifier, or the program that drops what is dead besides, answers to a program that
// becomes another one, of which only the two programs were worked out by hand.
"use strict";
const { countNumbers, countSymbols, parseLeniently, symbolNames, text, written } = require("./estree.js");

const upTo = (count) => Array.from({ length: count }, (_, at) => at);
const numbers = (said) => `[${(Array.isArray(said) ? said : upTo(said)).join(",")}]`;

// A module is told by what only a module has.
const typeOf = (source) => (/^(import|export)\b|\bimport\.meta/m.test(source) ? "module" : "script");
const estree = (source) => parseLeniently(source, typeOf(source));

// What a line says of an answer: `{ kept: 2, symbols: [0, 2] }`.
const saidOptions = (said) => Function(`return (${said});`)();

// The parts of an answer, as text. `said` tells what is not as usual: `kept` and `symbols` are
// numbers in the input, in order, or how many there are where each stays at its place.
function told(after, said, usual) {
  const { kept, symbols, passes, settled, bound, edition } = { ...usual, ...said };
  return { kept: numbers(kept), symbols: numbers(symbols), passes, settled, program: text(written(after)), bound, edition };
}

function outcomeOf(source, after, said) {
  const [before, program] = [estree(source), estree(after)];
  const stays = text(written(before)) === text(written(program));
  return told(program, said, { kept: countNumbers(before), symbols: countSymbols(before), passes: stays ? 1 : 2, settled: true });
}

// The same where dead items go besides: names that are declared once stay by their name, and one
// pass finds nothing.
function shakenOf(source, after, said) {
  const [before, program] = [estree(source), estree(after)];
  const names = symbolNames(before);
  const symbols = symbolNames(program).map((name) => names.indexOf(name));
  return told(program, said, { kept: countNumbers(before), symbols, passes: 1, settled: true });
}

module.exports = { estree, outcomeOf, saidOptions, shakenOf };
