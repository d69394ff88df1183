// Installed files that are read as modules, those with imports or exports first. Nothing is copied
// into the repository.
"use strict";
const { each, isOutside, isUnread, parse } = require("./estree.js");
const { chosenFiles } = require("./pieces.js");

const LEAST = 40;
const MOST = 60_000;

// The module that a text is, where it is one that is read, and that a function can stand for.
function moduleOf(text) {
  try {
    const tree = parse(text, "module");
    let stands = !isOutside(tree) && !isUnread(tree);
    each(tree, ({ type }) => (stands = stands && type !== "MetaProperty"));
    return stands ? tree : null;
  } catch {
    return null;
  }
}

// So many, in an order that a seed chooses.
function* chosenModules(count, seed) {
  const texts = chosenFiles(LEAST, MOST, seed).map(([, text]) => text);
  const isModule = (text) => /^(im|ex)port\b/m.test(text);
  let left = count;
  for (const text of [...texts.filter(isModule), ...texts.filter((other) => !isModule(other))]) {
    if (left === 0) return;
    const tree = moduleOf(text);
    if (tree === null) continue;
    left -= 1;
    yield tree;
  }
}

module.exports = { chosenModules };
