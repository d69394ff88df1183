"use strict";
const { minify } = require("./index.js");

const NAME = "mini-peephole";

/** Where something is said of, as compilers write it. */
const placeOf = (file, { line, column }) => (line === null ? file : `${file}:${line}:${column}`);

/** A warning as rollup takes it; its columns count from 0. */
function warningOf(file, { code, message, line, column }, kind) {
  const loc = line === null ? {} : { loc: { file, line, column: column - 1 } };
  const place = placeOf(file, { line, column });
  return { message: `${place}: ${kind}${message}`, pluginCode: code, ...loc };
}

/**
 * A plugin of rollup that minifies each chunk. A chunk that is refused stays as it is, with a
 * warning that tells the cause and its place in the chunk.
 * @param {object} [options] those of `minify`
 * @returns {object} the plugin
 */
function minified(options = {}) {
  return {
    name: NAME,
    renderChunk(code, chunk, output) {
      const hasMap = Boolean(output.sourcemap);
      const file = chunk.fileName;
      const isModule = output.format === "es";
      const result = minify(code, { ...options, module: isModule, sourceMap: hasMap, file });
      for (const warning of result.warnings) this.warn(warningOf(file, warning, ""));
      if (result.refused) {
        this.warn(warningOf(file, result.refused, "left as it is: "));
        return null;
      }
      // An absent map would stand for one that changes no place; an empty one says that none is
      // known.
      const none = hasMap ? { mappings: "" } : null;
      return { code: result.code, map: result.map ?? none };
    },
  };
}

module.exports = minified;
