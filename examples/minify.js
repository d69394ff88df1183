// Minifies a file by the package js/, whose command is js/bin/minify.js: node --expose-internals examples/minify.js FILE
"use strict";
const fs = require("node:fs");
const { minify } = require("../js");

const { code, refused } = minify(fs.readFileSync(process.argv[2], "utf8"));
if (refused) console.error(`${refused.line}:${refused.column}: ${refused.message}`);
process.stdout.write(code);
