// Text for nodes and lists of statements, of which the printer takes most.
"use strict";
const { children } = require("../estree.js");
const { print, whole } = require("../print.js");

const attempts = [
  (node) => print(node.type === "Program" ? node : { body: [node].flat() }),
  (node) => whole(node),
  (node) =>
    (node.type === "Property"
      ? whole({ type: "ObjectExpression", properties: [node] })
      : undefined),
  (node) => `${node.type} ${children(node).map(shown).join(" ")}`,
];

// A node, or a list of statements, as JavaScript where that can be.
function shown(node) {
  for (const attempt of attempts) {
    try {
      const text = attempt(node);
      if (text) return text.replace(/\s+/g, " ");
    } catch {
      // the next one
    }
  }
  return node.type ?? "nothing";
}

module.exports = { shown };
