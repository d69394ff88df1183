"use strict";
const { NODES } = require("./estree.js");

// What the program is given is lean: no positions, no `raw`, no field that says only `false` or
// `null`.

const text = JSON.stringify;

function literal(node) {
  const { regex, bigint } = node;
  if (regex) return `{"type":"Literal","regex":${text(regex)}}`;
  // JSON has no BigInts: their digits stand beside the value.
  if (bigint != null) return `{"type":"Literal","value":null,"bigint":"${BigInt(bigint)}"}`;
  // Nor has it what is past the greatest number: the program refuses such a literal for its `raw`.
  if (node.value === Infinity) return '{"type":"Literal","value":null,"raw":"Infinity"}';
  return `{"type":"Literal","value":${text(node.value)}}`;
}

function templateElement(node) {
  const { raw, cooked = null } = node.value;
  return `{"type":"TemplateElement","tail":${node.tail},"value":${text({ raw, cooked })}}`;
}

function list(items) {
  let json = "[";
  for (let at = 0; at < items.length; at++) {
    if (at > 0) json += ",";
    json += items[at] === null ? "null" : toJson(items[at]);
  }
  return `${json}]`;
}

/** A type that the table doesn't have goes as it is, so that the program names it. */
function unknown(node) {
  const kept = (key, value) => (/^(start|end|loc|range|raw)$/.test(key) ? undefined : value);
  return text(node, (key, value) => (typeof value === "bigint" ? null : kept(key, value)));
}

/**
 * The JSON of a tree, as the program reads it.
 * @param {object} node a node of ESTree
 * @returns {string}
 */
function toJson(node) {
  const { type } = node;
  if (type === "Literal") return literal(node);
  if (type === "TemplateElement") return templateElement(node);
  const fields = NODES[type];
  if (fields === undefined) return unknown(node);
  let json = `{"type":"${type}"`;
  for (const field of fields.plain) {
    const value = node[field];
    if (value === true) json += `,"${field}":true`;
    else if (typeof value === "string") json += `,"${field}":${text(value)}`;
  }
  for (const field of fields.children) {
    const value = node[field];
    if (value == null) continue;
    json += `,"${field}":${Array.isArray(value) ? list(value) : toJson(value)}`;
  }
  return `${json}}`;
}

/** How deep the JSON of a value nests. */
function nesting(value) {
  if (value === null || typeof value !== "object") return 0;
  let deepest = 0;
  for (const [key, part] of Object.entries(value)) {
    if (key !== "loc") deepest = Math.max(deepest, nesting(part));
  }
  return 1 + deepest;
}

module.exports = { toJson, nesting };
