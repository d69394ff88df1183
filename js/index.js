"use strict";
const { Refusal } = require("./src/errors.js");
const { minify } = require("./src/minify.js");
const { version } = require("./package.json");

module.exports = { minify, Refusal, version };
