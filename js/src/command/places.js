"use strict";
const fs = require("node:fs");
const path = require("node:path");

const isFolder = (name) => fs.statSync(name, { throwIfNoEntry: false })?.isDirectory() ?? false;

/** The nearest folder that has all files. */
function commonFolder(files) {
  const [first, ...others] = files.map((file) => path.dirname(path.resolve(file)).split(path.sep));
  let length = first.length;
  for (const other of others) {
    const at = first.findIndex((part, index) => part !== other[index]);
    if (at >= 0) length = Math.min(length, at);
  }
  return first.slice(0, length).join(path.sep) || path.sep;
}

/**
 * Where the code of each file goes: into the folder, under its path below the folder that has them
 * all, or to the one file that is named.
 * @param {string[]} files
 * @param {string | undefined} output
 * @returns {Array<string | null>} null stands for standard output
 */
function placesOf(files, output) {
  if (output === undefined) return files.map(() => null);
  const isOne = files.length === 1 && !/[/\\]$/.test(output) && !isFolder(output);
  if (isOne) return [output];
  const folder = commonFolder(files);
  const below = (file) => (file === "-" ? "stdin.js" : path.relative(folder, path.resolve(file)));
  return files.map((file) => path.join(output, below(file)));
}

module.exports = { placesOf };
