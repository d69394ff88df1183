"use strict";
const fs = require("node:fs");
const path = require("node:path");
const { minify } = require("./index.js");

const NAME = "mini-peephole";
const COMMENT = /\n?\/\/# sourceMappingURL=(\S+)\s*$/;
const DATA = /^data:application\/json(?:;charset=[\w-]+)?;base64,/;

const encoder = new TextEncoder();
const isScript = (file) => /\.[cm]?js$/.test(file.path);

/** Whether what esbuild writes is a module, as far as its options say. */
function isModule({ format }, file) {
  if (/\.mjs$/.test(file)) return true;
  return format === undefined ? undefined : format === "esm";
}

const asData = (json) =>
  `data:application/json;base64,${Buffer.from(json).toString("base64")}`;

/** An output without the comment that names its map, that name, and the map. */
function opened(file, outputs) {
  const [comment, url] = COMMENT.exec(file.text) ?? ["", null];
  const code = file.text.slice(0, file.text.length - comment.length);
  const mapFile = outputs.find((other) => other.path === `${file.path}.map`) ?? null;
  const isInline = url !== null && DATA.test(url);
  const inline = isInline ? Buffer.from(url.replace(DATA, ""), "base64").toString() : null;
  return { code, url, isInline, mapFile, json: mapFile?.text ?? inline };
}

const EMPTY = { version: 3, sources: [], names: [], mappings: "" };

/** Puts a text, and its map where there was one, in the place of an output. */
function replace(file, { url, isInline, mapFile, json }, { code, map }) {
  const written = json === null ? null : JSON.stringify(map ?? EMPTY);
  if (mapFile) mapFile.contents = encoder.encode(written);
  const name = isInline ? asData(written) : url;
  const comment = name === null ? "" : `//# sourceMappingURL=${name}\n`;
  file.contents = encoder.encode(`${code}${code.endsWith("\n") ? "" : "\n"}${comment}`);
}

/** A message as esbuild takes it; its columns count from 0. */
function messageOf(file, code, { message, line, column }, kind) {
  const text = `${kind}${message}`;
  if (line === null) return { text: `${file}: ${text}` };
  const lineText = code.split(/\r\n|[\n\r\u2028\u2029]/)[line - 1] ?? "";
  return { text, location: { file, line, column: column - 1, lineText: lineText.slice(0, 200) } };
}

/** Minifies an output where it stands, and gives what is to be said of it. */
function minifyOutput(file, outputs, options, initial) {
  const parts = opened(file, outputs);
  const name = path.relative(process.cwd(), file.path);
  const result = minify(parts.code, {
    ...options,
    module: isModule(initial, file.path),
    sourceMap: parts.json !== null,
    inputMap: parts.json === null ? null : JSON.parse(parts.json),
    file: path.basename(file.path),
  });
  const said = result.warnings.map((warning) => messageOf(name, parts.code, warning, ""));
  if (result.refused) {
    return [...said, messageOf(name, parts.code, result.refused, "left as it is: ")];
  }
  replace(file, parts, result);
  return said;
}

function write(file) {
  fs.mkdirSync(path.dirname(file.path), { recursive: true });
  fs.writeFileSync(file.path, file.contents);
}

/** The sizes that esbuild tells of its outputs. */
function measure({ metafile, outputFiles }) {
  for (const file of outputFiles) {
    const name = path.relative(process.cwd(), file.path).split(path.sep).join("/");
    const entry = metafile?.outputs[name];
    if (entry) entry.bytes = file.contents.length;
  }
}

/**
 * A plugin of esbuild that minifies each script that it puts out. One that is refused stays as it
 * is, with a warning that tells the cause and its place in the output. esbuild hands outputs on
 * only where it doesn't write them, so where it is to write, the plugin does.
 * @param {object} [options] those of `minify`
 * @returns {object} the plugin
 */
function minified(options = {}) {
  return {
    name: NAME,
    setup(build) {
      const initial = build.initialOptions;
      const isWritten = initial.write ?? true;
      initial.write = false;
      build.onEnd((result) => {
        const outputs = result.outputFiles ?? [];
        const scripts = outputs.filter(isScript);
        const warnings = scripts.flatMap((file) => minifyOutput(file, outputs, options, initial));
        measure({ metafile: result.metafile, outputFiles: outputs });
        if (isWritten) outputs.forEach(write);
        return { warnings };
      });
    },
  };
}

module.exports = minified;
