"use strict";
const { Refusal } = require("../errors.js");
const { walk } = require("../estree.js");

// Half of a surrogate pair: with the flag `u` a whole pair is one character, which is no surrogate.
const HALF = /\p{Surrogate}/u;

/** Whether JSON text can't hold a text. */
const isBroken = (text) => HALF.test(text);

/** The texts that stand in a node, names among them. */
function textsOf(node) {
  if (node.type === "TemplateElement") return [node.value.raw, node.value.cooked];
  if (node.type === "Literal") return [node.value, node.regex?.pattern];
  return [node.name, node.directive];
}

/** A text that stands in no text and no name of a program, however they are written. */
function freshText(ast, code) {
  const texts = [code];
  walk(ast, (node) => texts.push(...textsOf(node).filter((text) => typeof text === "string")));
  let fresh = "$_";
  while (texts.some((text) => text.includes(fresh))) fresh += "_";
  return fresh;
}

/**
 * What stands in the adapted program for what the program doesn't read: global names that nothing
 * else names, and directives. All of them begin with one text that the source doesn't have.
 */
class Marks {
  constructor(ast, code) {
    this.prefix = freshText(ast, code);
    /** The literal for which a name stands. */
    this.literals = new Map();
    /** The name by the kind and the value of the literal: equal literals have one name. */
    this.names = new Map();
    /** The module and the marked functions: the number in their marks is their place. */
    this.frames = [];
    /** What a call of a name stands for: `wait`, `iterate` or `give`. */
    this.calls = new Map();
    /** The frame of each directive that marks a function. */
    this.frameOf = new Map();
  }

  /** The name of a literal. */
  nameOf(kind, value, literal) {
    const key = `${kind}${value}`;
    if (!this.names.has(key)) {
      const name = `${this.prefix}${kind}${this.names.size}`;
      this.names.set(key, name);
      this.literals.set(name, literal);
    }
    return this.names.get(key);
  }

  /** A function that waits, or the module. */
  newFrame(node) {
    const at = this.frames.length;
    const frame = {
      node,
      isModule: node.type === "Program",
      isGenerator: node.generator === true,
      directive: `${this.prefix}a${at}`,
      wait: `${this.prefix}w${at}`,
      iterate: `${this.prefix}f${at}`,
      give: `${this.prefix}r${at}`,
      waits: 0,
    };
    this.frames.push(frame);
    this.frameOf.set(frame.directive, frame);
    for (const kind of ["wait", "iterate", "give"]) this.calls.set(frame[kind], kind);
    return frame;
  }

  /** Whether a name or directive is one of the marks, or looks like one. */
  has(text) {
    return typeof text === "string" && text.includes(this.prefix);
  }

  /** Whether nothing was put in place of anything. */
  get isEmpty() {
    const isIdle = (frame) => frame.isModule && frame.waits === 0;
    return this.names.size === 0 && this.frames.every(isIdle);
  }
}

const identifier = (name, node) => ({
  type: "Identifier",
  name,
  start: node.start,
  end: node.end,
  loc: node.loc,
});

const call = (name, argument, node) => ({
  type: "CallExpression",
  start: node.start,
  end: node.end,
  loc: node.loc,
  callee: identifier(name, node),
  arguments: [argument],
  optional: false,
});

const unread = (message, node) => new Refusal("Unsupported", message, { node });
const changed = (message, node) => new Refusal("Adapter", message, { node });

module.exports = { Marks, call, changed, identifier, isBroken, unread };
