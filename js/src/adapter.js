"use strict";
const { Marks } = require("./adapter/marks.js");
const { lift } = require("./adapter/lift.js");
const { respelled } = require("./adapter/respell.js");
const { restore } = require("./adapter/restore.js");

const NO_MARKS = { literals: new Map(), calls: new Map(), frameOf: new Map() };

/**
 * Puts something that the program reads in place of what it doesn't: fractional and great numbers,
 * great BigInts and texts with half of a surrogate pair become global names, and async functions,
 * `await` and `for await` become functions, with a directive, and calls. docs/ADAPTER.md says why
 * that may be done.
 * @param {object} ast the parser's tree, which stays as it is
 * @param {string} code its text
 * @param {{adapt?: boolean}} [options] `adapt: false` leaves everything as it is
 * @returns {{ast: object, restore: (answer: object) => object, respell: (text: string, tree:
 *   object) => string, warnings: object[]}} the tree for the program, and the ways back from its
 *   answer and, where `restore` takes that, from the text and the parser's tree of it
 * @throws {Refusal} `Unsupported` for what isn't read even so; `restore` throws one, `Adapter`,
 *   where what was put in comes back in another way
 */
function adapt(ast, code, { adapt: isOn = true } = {}) {
  const warnings = [];
  const respell = (text, tree) => respelled(text, tree, NO_MARKS);
  if (!isOn) return { ast, restore: (answer) => answer.program, respell, warnings };
  const marks = new Marks(ast, code);
  const { program, standsFor } = lift(ast, marks);
  const adapted = { marks, program, standsFor };
  return {
    ast: program,
    restore: (answer) => (marks.isEmpty ? answer.program : restore(answer, adapted)),
    respell: (text, tree) => respelled(text, tree, marks),
    warnings,
  };
}

module.exports = { adapt };
