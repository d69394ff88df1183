#!/usr/bin/env node
// Writes the JSON of a file's ESTree, as the proved programs read it: estree.js FILE
"use strict";
const fs = require("node:fs");
const { toJson } = require("../src/json.js");
const { parse } = require("../src/parser.js");

process.stdout.write(toJson(parse(fs.readFileSync(process.argv[2], "utf8")).ast));
