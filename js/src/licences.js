"use strict";

const isKept = ({ value }) => value.startsWith("!") || /@(licen[cs]e|preserve)\b/.test(value);

const textOf = ({ type, value }) => (type === "Block" ? `/*${value}*/` : `//${value}`);

/**
 * The comments that name a licence or ask to be kept, each once and on lines of its own: those that
 * begin with `!`, and those that say `@license` or `@preserve`.
 * @param {object[]} comments as acorn gives them
 * @returns {string}
 */
function licences(comments) {
  const kept = new Set(comments.filter(isKept).map(textOf));
  return [...kept].map((text) => `${text}\n`).join("");
}

module.exports = { licences };
