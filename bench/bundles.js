// Whole libraries and a bundle: their bytes and the processor seconds, by this program, esbuild and
// terser, with and without short names.
//
//     node bench/bundles.js [FILE..]
//
// Without FILE they are lodash, jquery and chart.js as Debian packages them, and lodash-es bundled
// by esbuild. esbuild and terser are the commands of Debian's packages. The table is written in
// Markdown. A time is that of the whole command, the start of node and of the program included.
// Each text is parsed again before it counts.
"use strict";
const { spawnSync } = require("child_process");
const fs = require("fs");
const os = require("os");
const path = require("path");
const zlib = require("zlib");

const SHARE = "/usr/share/nodejs";
const MINIFY = path.join(__dirname, "..", "js", "bin", "minify.js");
const LIBRARIES = ["lodash/lodash.js", "jquery/dist/jquery.js", "chart.js/dist/chart.js"].map((name) => path.join(SHARE, name));

const folder = fs.mkdtempSync(path.join(os.tmpdir(), "bundles-"));

const node = [process.execPath, "--expose-internals", MINIFY, "-q", "--strict"];
const esbuild = (...flags) => ["esbuild", "--log-level=error", "--charset=utf8", ...flags];
const SHORT = esbuild("--minify-identifiers", "--minify-whitespace");

// Each way: its name, whether it shortens names, and its commands, of which each reads what the one
// before wrote.
const WAYS = [
  ["this program", false, [node]],
  ["esbuild", false, [esbuild("--minify-syntax", "--minify-whitespace")]],
  ["terser", false, [["terser", "-c"]]],
  ["this program, then esbuild's names", true, [node, SHORT]],
  ["esbuild", true, [esbuild("--minify")]],
  ["terser", true, [["terser", "-c", "-m"]]],
  ["this program, then terser -c -m", true, [node, ["terser", "-c", "-m"]]],
];

// What a command makes of a text, and the processor seconds that it takes.
function timed([command, ...args], text) {
  const script = 'TIMEFORMAT="%U %S"; time "$@"';
  const options = { input: text, encoding: "utf8", maxBuffer: 1 << 28, env: { NODE_PATH: SHARE, ...process.env } };
  const ended = spawnSync("bash", ["-c", script, "bash", command, ...args], options);
  if (ended.status !== 0) throw new Error(`${command}: ${ended.stderr}`);
  const [user, system] = ended.stderr.trim().split("\n").at(-1).split(" ").map(Number);
  return { text: ended.stdout, seconds: user + system };
}

function through(commands, source) {
  let [text, seconds] = [source, 0];
  for (const command of commands) {
    const ran = timed(command, text);
    text = ran.text;
    seconds += ran.seconds;
  }
  return { text, seconds };
}

// esbuild reads each text again.
const check = (text) => timed(esbuild(), text);

function row(source, [name, isShort, commands]) {
  const { text, seconds } = through(commands, source);
  check(text);
  const cells = [name, isShort ? "short" : "as they are", Buffer.byteLength(text.trimEnd()), zlib.gzipSync(text, { level: 9 }).length, seconds.toFixed(2)];
  return `| ${cells.join(" | ")} |`;
}

function table(title, source) {
  console.log(`\n${title}: ${Buffer.byteLength(source)} bytes, ${zlib.gzipSync(source, { level: 9 }).length} by gzip\n`);
  console.log("| Tool | Names | Bytes | By gzip | Processor seconds |\n|---|---|---|---|---|");
  for (const way of WAYS) console.log(row(source, way));
}

// lodash-es and an application of one line, in one file.
function bundle() {
  const entry = path.join(folder, "entry.mjs");
  fs.writeFileSync(entry, `import * as _ from "${SHARE}/lodash-es/lodash.js";\nexport const names = (list) => Object.keys(_.groupBy(list, _.identity));\nexport default _;\n`);
  return timed(esbuild("--bundle", "--format=iife", "--global-name=app", entry), "").text;
}

const [, , ...files] = process.argv;
for (const file of files.length > 0 ? files : LIBRARIES) table(path.basename(file), fs.readFileSync(file, "utf8"));
if (files.length === 0) table("a bundle of lodash-es", bundle());
fs.rmSync(folder, { recursive: true });
