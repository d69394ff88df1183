"use strict";
const { Refusal } = require("./errors.js");

// What node's loader hands to a module of CommonJS, whose code is the body of a function.
const PARAMETERS = ["exports", "require", "module", "__filename", "__dirname"];

function freshName(code) {
  let name = "commonjs";
  while (code.includes(name)) name += "_";
  return name;
}

const identifier = (name) => ({ type: "Identifier", name });

/**
 * Code with a `return` outside functions as the function that node's loader makes of it.
 * @param {object} ast the tree of a script
 * @param {string} code its text, in which the function's name doesn't stand
 * @returns {object} a script of this one declaration
 */
function wrap(ast, code) {
  const { start, end, loc } = ast;
  const body = { type: "BlockStatement", start, end, loc, body: ast.body };
  const wrapper = {
    type: "FunctionDeclaration",
    start,
    end,
    loc,
    id: identifier(freshName(code)),
    params: PARAMETERS.map(identifier),
    generator: false,
    async: false,
    body,
  };
  return { ...ast, body: [wrapper] };
}

/**
 * What stands in the function that `wrap` made, again as a program and as its text.
 * @param {object} program
 * @param {string} text
 * @param {string} code the text that was wrapped
 */
function unwrap(program, text, code) {
  const head = `function ${freshName(code)}(${PARAMETERS.join(",")}){`;
  if (!text.startsWith(head) || !text.endsWith("}")) {
    throw new Refusal("Guard", "what was printed isn't the function round the code");
  }
  const body = { ...program, body: program.body[0].body.body };
  return { program: body, text: text.slice(head.length, -1), tree: null };
}

module.exports = { wrap, unwrap };
