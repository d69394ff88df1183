// Pieces of the JavaScript that Debian packages and node itself have installed here, each as a
// program of its own: statements from the top of files, and functions from anywhere in them.
// Nothing is copied into the repository.
"use strict";
const fs = require("fs");
const path = require("path");
const { FUNCTIONS, parse, each, isOf } = require("./estree.js");

const FOLDERS = ["/usr/share/javascript", "/usr/share/nodejs", "/usr/share/doc/nodejs", "/usr/share/gitweb", "/usr/lib/node_modules"];
const PIECE = { least: 40, most: 60_000 };

function* filesBelow(folder) {
  if (!fs.existsSync(folder)) return;
  for (const entry of fs.readdirSync(folder, { withFileTypes: true })) {
    const name = path.join(folder, entry.name);
    if (entry.isDirectory()) yield* filesBelow(name);
    else if (entry.isFile() && /\.[cm]?js$/.test(name)) yield name;
  }
}

// What a file belongs to: the folder that its package has.
function packageOf(file) {
  const parts = file.split("/node_modules/");
  return parts.length > 1 ? parts.at(-1).split("/")[0] : file.split("/")[3] + "/" + file.split("/")[4];
}

// The texts of all files, each with the name of its package.
function* sources() {
  for (const folder of FOLDERS) for (const file of filesBelow(folder)) yield [packageOf(file), fs.readFileSync(file, "utf8")];
  for (const [name, text] of Object.entries(process.binding("natives"))) if (!name.startsWith("internal/deps")) yield ["node", text];
}

function parsed(text) {
  for (const type of ["script", "module"]) {
    try {
      return parse(text, type);
    } catch {
      // the other type, or no code at all
    }
  }
  return null;
}

const isDirective = (statement) => typeof statement.directive === "string";

// A program of one statement, with the directives of the file that it is cut from.
function piece(file, statement) {
  return { type: "Program", sourceType: file.sourceType, body: [...file.body.filter(isDirective), statement] };
}

const asStatement = (node) => (node.type === "FunctionDeclaration" ? node : { type: "ExpressionStatement", expression: node });

function* piecesOf(file) {
  const fits = (node) => node.end - node.start >= PIECE.least && node.end - node.start <= PIECE.most;
  for (const statement of file.body) if (!isDirective(statement) && fits(statement)) yield piece(file, statement);
  const functions = [];
  each(file, (node) => isOf(FUNCTIONS, node) && node.id !== null && fits(node) && functions.push(node));
  for (const node of functions) if (!file.body.includes(node)) yield piece(file, asStatement(node));
}

function allPieces() {
  const seen = new Set();
  const found = [];
  for (const [from, text] of sources()) {
    const file = seen.has(text) ? null : parsed(text);
    seen.add(text);
    if (file) for (const input of piecesOf(file)) found.push([from, input]);
  }
  return found;
}

// A number at a time from a seed (xorshift).
function chances(seed) {
  let state = seed >>> 0 || 1;
  return (below) => {
    state ^= state << 13;
    state ^= state >>> 17;
    state ^= state << 5;
    return (state >>> 0) % below;
  };
}

// So many of a list, chosen by a seed.
function chosen(list, count, seed) {
  const chance = chances(seed);
  for (let at = list.length - 1; at > 0; at--) {
    const other = chance(at + 1);
    [list[at], list[other]] = [list[other], list[at]];
  }
  return list.slice(0, count);
}

// So many of the pieces, each with the name of its package.
const chosenPieces = (count, seed) => chosen(allPieces(), count, seed);

// The texts of whole files of at least and at most so many units, in an order that a seed chooses,
// each with the name of its package.
function chosenFiles(least, most, seed) {
  const found = new Map();
  for (const [from, text] of sources()) if (text?.length >= least && text.length <= most) found.set(text, from);
  return chosen([...found].map(([text, from]) => [from, text]), found.size, seed);
}

module.exports = { chances, chosenFiles, chosenPieces, filesBelow };
