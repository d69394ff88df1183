"use strict";
const fs = require("node:fs");
const { printerPath, programPath } = require("../src/program.js");

const missing = [programPath(), printerPath()].filter((path) => !fs.existsSync(path));

/** Why tests that want the programs are left out; false where the programs are there. */
const skip =
  missing.length > 0 &&
  `not built: ${missing.join(", ")}; MINI_APP and MINI_TEXT can name programs`;

module.exports = { skip };
