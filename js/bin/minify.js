#!/usr/bin/env node
"use strict";
const { run } = require("../src/command/command.js");

process.exitCode = run(process.argv.slice(2), process);
