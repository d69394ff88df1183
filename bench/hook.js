// Minifies what is loaded: with `node --expose-internals -r ./bench/hook.js`, each file below the
// folders of Debian's packages goes through the package js/ when it is required.
//
// MINIFY says how: `ours`, or `ours+names`, where esbuild shortens names afterwards. MINIFY_BELOW
// has other folders, separated by colons. What was minified lies in the folder MINIFY_CACHE, if
// that is given, for the next run. At the end a line on standard error says how many files were
// minified, and which were left as they are, and why.
"use strict";
const { execFileSync } = require("child_process");
const crypto = require("crypto");
const fs = require("fs");
const Module = require("module");
const path = require("path");
const { minify } = require("../js");
const { parser } = require("../js/src/parser.js");

const { MINIFY = "ours", MINIFY_BELOW = "/usr/share/nodejs:/usr/share/javascript", MINIFY_CACHE } = process.env;
const FOLDERS = MINIFY_BELOW.split(":");

const counts = { files: 0, before: 0, after: 0 };
const left = [];

const SHORTER = ["--minify-identifiers", "--minify-whitespace", "--log-level=error", "--charset=utf8"];
const shorterNames = (code) => execFileSync("esbuild", SHORTER, { input: code, maxBuffer: 1 << 28 }).toString();

// What a step makes of a text, or that text where it makes nothing: from the folder of an earlier
// run, if it is there.
function cached(step, text, make) {
  if (MINIFY_CACHE === undefined) return make(text) ?? text;
  const place = path.join(MINIFY_CACHE, crypto.createHash("sha1").update(`${step}\0${text}`).digest("hex"));
  if (fs.existsSync(place)) return fs.readFileSync(place, "utf8");
  const made = make(text);
  if (made === null) return text;
  fs.mkdirSync(MINIFY_CACHE, { recursive: true });
  fs.writeFileSync(place, made);
  return made;
}

// The code of a file, or null where it is refused.
function minified(code, file) {
  const { code: text, refused } = minify(code);
  if (refused) left.push(`${file}: ${refused.code}: ${refused.message}`);
  return refused ? null : text;
}

function loaded(code, file) {
  const lighter = cached("ours", code, () => minified(code, file));
  const text = MINIFY === "ours+names" ? cached("names", lighter, shorterNames) : lighter;
  counts.files += 1;
  counts.before += Buffer.byteLength(code);
  counts.after += Buffer.byteLength(text);
  return text;
}

const isBelow = (file) => FOLDERS.some((folder) => fs.realpathSync(file).startsWith(folder));

// The package has its parser from here on; whoever asks for that one later gets a minified one.
parser();
for (const file of Object.keys(require.cache)) if (isBelow(file)) delete require.cache[file];

const load = Module._extensions[".js"];
for (const extension of [".js", ".cjs"]) {
  Module._extensions[extension] = (module, file) => {
    if (!isBelow(file)) return load(module, file);
    return module._compile(loaded(fs.readFileSync(file, "utf8"), file), file);
  };
}

process.on("exit", () => {
  console.error(`${MINIFY}: ${counts.files} files, ${counts.before} -> ${counts.after} bytes; ${left.length} left`);
  for (const line of left) console.error(`  ${line}`);
});
