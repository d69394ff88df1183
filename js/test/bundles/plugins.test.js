"use strict";
// The plugins on a project of three modules, if the bundlers are there.
const assert = require("node:assert/strict");
const fs = require("node:fs");
const os = require("node:os");
const path = require("node:path");
const test = require("node:test");
const { pathToFileURL } = require("node:url");
const esbuildPlugin = require("../../esbuild.js");
const rollupPlugin = require("../../rollup.js");
const { skip } = require("../built.js");
const { checkMap, leadsTo } = require("./maps.js");

const PROJECT = path.join(__dirname, "project");
const MAIN = path.join(PROJECT, "main.js");
const REFUSED = path.join(PROJECT, "refused.js");

/** A package, if it can be loaded. */
function loaded(name) {
  try {
    return require(name);
  } catch {
    return null;
  }
}

const [rollup, esbuild] = [loaded("rollup"), loaded("esbuild")];
const skipped = (bundler, name) =>
  skip || (bundler ? false : `${name} isn't here: NODE_PATH can name the folder that has it`);

const ofRollup = { skip: skipped(rollup, "rollup") };
const ofEsbuild = { skip: skipped(esbuild, "esbuild") };

const folder = fs.mkdtempSync(path.join(os.tmpdir(), "bundles-"));
test.after(() => fs.rmSync(folder, { recursive: true }));

const SHAPES = [
  { kind: "circle", r: 2 },
  null,
  { w: 2, h: 3 },
  { kind: 0.25 },
  {
    get kind() {
      throw new Error("e");
    },
  },
];

/** What the bundle of the project does. */
async function ran(code, name) {
  const file = path.join(folder, `${name}.mjs`);
  fs.writeFileSync(file, code);
  return JSON.stringify(await (await import(pathToFileURL(file))).main(SHAPES));
}

const EXPECTED = '[6.28,3,500000000000000000000,"failed: e"]';

// ---- rollup

async function rolled(input, plugins, output) {
  const warnings = [];
  const onwarn = (warning) => warnings.push(warning);
  const bundle = await rollup.rollup({ input, plugins, onwarn });
  const { output: chunks } = await bundle.generate({ format: "es", ...output });
  return { chunk: chunks[0], warnings };
}

test("rollup: a bundle is minified, and does the same", ofRollup, async () => {
  const { chunk, warnings } = await rolled(MAIN, [rollupPlugin()], {});
  const plain = await rolled(MAIN, [], {});
  assert.deepEqual(warnings, []);
  assert.ok(chunk.code.length < 0.8 * plain.chunk.code.length, chunk.code);
  assert.equal(await ran(plain.chunk.code, "rollup-plain"), EXPECTED);
  assert.equal(await ran(chunk.code, "rollup"), EXPECTED);
  assert.match(chunk.code, /^\/\*! The project/);
});

test("rollup: its map leads to the modules", ofRollup, async () => {
  const { chunk } = await rolled(MAIN, [rollupPlugin()], { sourcemap: true });
  assert.ok(checkMap(chunk.map, chunk.code) > 50);
  assert.match(leadsTo(chunk.map, chunk.code, "TypeError"), /queue\.js:6:17$/);
  assert.match(leadsTo(chunk.map, chunk.code, "3.14"), /shapes\.js:4:/);
});

test("rollup: other formats", ofRollup, async () => {
  const output = { format: "cjs", exports: "named" };
  const { chunk, warnings } = await rolled(MAIN, [rollupPlugin()], output);
  assert.deepEqual(warnings, []);
  const module = { exports: {} };
  new Function("module", "exports", chunk.code)(module, module.exports);
  assert.equal(JSON.stringify(await module.exports.main(SHAPES)), EXPECTED);
});

test("rollup: a chunk that is refused stays as it is", ofRollup, async () => {
  const plain = await rolled(REFUSED, [], { sourcemap: true });
  const { chunk, warnings } = await rolled(REFUSED, [rollupPlugin()], { sourcemap: true });
  assert.equal(chunk.code, plain.chunk.code);
  assert.deepEqual(chunk.map.mappings, plain.chunk.map.mappings);
  assert.equal(warnings.length, 1);
  assert.match(warnings[0].message, /refused\.js:4:14: left as it is: half of a surrogate pair/);
  assert.deepEqual({ ...warnings[0].loc, file: null }, { file: null, line: 4, column: 13 });
});

// ---- esbuild

const built = (entry, options) =>
  esbuild.build({
    entryPoints: [entry],
    bundle: true,
    format: "esm",
    outdir: folder,
    write: false,
    logLevel: "silent",
    ...options,
  });

const outputOf = ({ outputFiles }, end) =>
  outputFiles.find(({ path: name }) => name.endsWith(end)).text;

test("esbuild: a bundle is minified, and does the same", ofEsbuild, async () => {
  const plain = outputOf(await built(MAIN, {}), "main.js");
  const result = await built(MAIN, { plugins: [esbuildPlugin()], metafile: true });
  const code = outputOf(result, "main.js");
  assert.ok(code.length < 0.8 * plain.length, code);
  assert.equal(await ran(plain, "esbuild-plain"), EXPECTED);
  assert.equal(await ran(code, "esbuild"), EXPECTED);
  assert.equal(Object.values(result.metafile.outputs)[0].bytes, Buffer.byteLength(code));
});

test("esbuild: names can be mangled before", ofEsbuild, async () => {
  const options = { minify: true, sourcemap: "external" };
  const result = await built(MAIN, { plugins: [esbuildPlugin()], ...options });
  const [code, map] = [outputOf(result, "main.js"), JSON.parse(outputOf(result, ".map"))];
  assert.equal(await ran(code, "esbuild-mangled"), EXPECTED);
  assert.match(leadsTo(map, code, "TypeError"), /queue\.js:6:17$/);
  assert.match(leadsTo(map, code, "add("), /(queue|main)\.js:(4|12):/);
});

test("esbuild: its maps lead to the modules", ofEsbuild, async () => {
  const result = await built(MAIN, { plugins: [esbuildPlugin()], sourcemap: "linked" });
  const [code, map] = [outputOf(result, "main.js"), JSON.parse(outputOf(result, ".map"))];
  assert.match(code, /\n\/\/# sourceMappingURL=main\.js\.map\n$/);
  assert.ok(checkMap(map, code) > 50);
  assert.match(leadsTo(map, code, "TypeError"), /queue\.js:6:17$/);
  const again = await built(MAIN, { plugins: [esbuildPlugin()], sourcemap: "inline" });
  const inline = outputOf(again, "main.js");
  const [, data] = /sourceMappingURL=data:application\/json;base64,(\S+)\n$/.exec(inline);
  assert.equal(JSON.parse(Buffer.from(data, "base64")).mappings, map.mappings);
});

test("esbuild: what it writes is minified", ofEsbuild, async () => {
  const outdir = path.join(folder, "written");
  await built(MAIN, { plugins: [esbuildPlugin()], outdir, write: true, sourcemap: true });
  const code = fs.readFileSync(path.join(outdir, "main.js"), "utf8");
  assert.equal(await ran(code, "esbuild-written"), EXPECTED);
  assert.ok(fs.existsSync(path.join(outdir, "main.js.map")));
});

test("esbuild: an output that is refused stays as it is", ofEsbuild, async () => {
  const plain = outputOf(await built(REFUSED, {}), "refused.js");
  const said = [];
  const listen = {
    name: "listen",
    setup: (build) => build.onEnd((result) => void said.push(...result.warnings)),
  };
  const result = await built(REFUSED, { plugins: [esbuildPlugin(), listen] });
  assert.equal(outputOf(result, "refused.js"), plain);
  const warnings = [...said, ...result.warnings];
  assert.match(warnings[0].text, /left as it is: half of a surrogate pair/);
  assert.equal(warnings[0].location.lineText, plain.split("\n")[warnings[0].location.line - 1]);
});
