// Makes real calls of the libraries that Debian packages, and prints a digest of what each gives:
// run before and after the files are minified, the lines have to be equal.
//
//     NODE_PATH=/usr/share/nodejs node --expose-internals [-r ./bench/hook.js] bench/digests.js [NAME..]
//
// A library that isn't installed is left out.
"use strict";
const crypto = require("crypto");
const fs = require("fs");
const path = require("path");
const { inspect } = require("util");

const SHARE = "/usr/share/nodejs";
const sourceOf = (file) => fs.readFileSync(path.join(SHARE, file), "utf8");
const SOURCES = ["lodash/lodash.js", "jquery/dist/jquery.js", "chart.js/dist/chart.js"];
const README = fs.readFileSync(path.join(__dirname, "..", "README.md"), "utf8");

const SHOWN = { depth: 8, maxArrayLength: 1e4, maxStringLength: 1e6, breakLength: 200 };
const textOf = (value) => (typeof value === "string" ? value : inspect(value, SHOWN));
const digest = (value) => crypto.createHash("sha1").update(textOf(value)).digest("hex").slice(0, 12);
const jsonOf = (value) => JSON.stringify(value, (key, part) => (typeof part === "bigint" ? String(part) : part));

// Each library, and what it gives.
const CALLS = {
  acorn: (acorn) => SOURCES.map((file) => digest(jsonOf(acorn.parse(sourceOf(file), { ecmaVersion: 2022, locations: true })))),
  esprima: (esprima) => [esprima.parse(sourceOf(SOURCES[0])), esprima.tokenize(sourceOf(SOURCES[0]))].map((it) => digest(jsonOf(it))),
  escodegen: (escodegen) => SOURCES.slice(0, 2).map((file) => escodegen.generate(require("acorn").parse(sourceOf(file), { ecmaVersion: 2020 }))),
  "@babel/parser": (babel) => SOURCES.map((file) => digest(jsonOf(babel.parse(sourceOf(file), { sourceType: "script", errorRecovery: true }).program))),
  "@babel/core": (babel) => babel.transformSync(sourceOf("semver/classes/range.js"), { presets: [["@babel/preset-env", { targets: "ie 11" }]], configFile: false, babelrc: false }).code,
  "uglify-js": (uglify) => uglify.minify(sourceOf(SOURCES[1]), { compress: true, mangle: true }).code,
  terser: (terser) => typeof terser.minify,
  rollup: (rollup) => typeof rollup.rollup,
  marked: (marked) => (marked.parse ?? marked.marked ?? marked)(README),
  handlebars(Handlebars) {
    Handlebars.registerHelper("up", (text) => String(text).toUpperCase());
    const template = "{{#each a}}{{@index}}:{{up this.b}} {{#if c}}<{{c}}>{{else}}-{{/if}}{{#unless d}}n{{/unless}}\n{{/each}}{{{raw}}} {{> p x=1}}";
    const data = { a: [{ b: "x", c: 1 }, { b: "y&", d: 1 }], raw: "<b>" };
    const text = Handlebars.compile(template)(data, { partials: { p: Handlebars.compile("[{{x}}]") } });
    return text + Handlebars.precompile("{{#with a}}{{b.c}}{{/with}}");
  },
  semver: semverDigest,
  lodash: lodashDigest,
  underscore: (_) => [_.zip([1, 2], [3, 4]), _.template("<%= a %>")({ a: 3 }), _.invert({ a: 1 }), _.flatten([1, [2, [3]]]), _.sortBy([3, 1, 2])],
  immutable: (I) => [
    I.fromJS({ a: [1, { b: 2 }] }).setIn(["a", 1, "b"], 3).toJS(),
    I.Range(0, 100).filter((x) => x % 3).map((x) => x * 2).take(10).toJS(),
    I.List([3, 1, 2]).sort().toString(),
    I.OrderedMap([[1, 2], [3, 4]]).merge({ a: 1 }).toString(),
  ],
  "d3-format": (d3) => [1234.5678, -0.5, 1e21, 0].flatMap((x) => [".2f", "s", ",.1%", "$,.2f", "+e", "#x", ".3r", "~g", "^20", "(.1f"].map((f) => d3.format(f)(x))),
  "d3-scale": (d3) => [d3.scaleLinear().domain([0, 10]).range([0, 1]).ticks(5), d3.scaleLog().ticks(), d3.scalePow().exponent(0.5)(2), d3.scaleQuantize().range([1, 2, 3])(0.7)],
  "d3-array": (d3) => [d3.bisect([1, 2, 3], 2), d3.histogram()([1, 2, 2.5, 3, 9]), d3.quantile([1, 2, 3, 4], 0.3), d3.ticks(0, 1, 7), d3.variance([1, 2, 4])],
  "d3-shape": (d3) => [d3.line().curve(d3.curveCardinal)([[0, 0], [1, 2], [3, 1], [4, 4]]), d3.pie()([1, 2, 3]), d3.arc()({ innerRadius: 0, outerRadius: 10, startAngle: 0, endAngle: 2 })],
  "d3-geo": (d3) => [d3.geoPath(d3.geoMercator())(d3.geoGraticule10()), d3.geoArea({ type: "Sphere" }), d3.geoDistance([0, 0], [10, 10])],
  "d3-hierarchy"(d3) {
    const root = d3.hierarchy({ children: [{ v: 1 }, { v: 2, children: [{ v: 3 }, { v: 4 }] }] }).sum((node) => node.v);
    return [d3.treemap().size([100, 50])(root).leaves().map((n) => [n.x0, n.y0, n.x1, n.y1]), d3.pack().size([9, 9])(root.copy()).leaves().map((n) => [n.x, n.y, n.r])];
  },
  "d3-interpolate": (d3) => [d3.interpolate("red", "blue")(0.3), d3.interpolateHcl("red", "blue")(0.3), d3.interpolateString("10px 3em", "20px 5em")(0.5), d3.interpolateZoom([0, 0, 1], [9, 9, 2])(0.5)],
  "js-yaml": (yaml) => [yaml.load("a: [1, 2.5, ~]\nb: &x\n  c: |\n    hi\n    yo\nd: *x\n"), yaml.dump({ a: [1, 0.5, null, { b: "x: y" }], d: new Date(0) })],
  json5: (json5) => [json5.parse("{a:.5,b:+1,'c':0x1F,d:[1,],/*x*/e:Infinity,f:'\\\n'}"), json5.stringify({ a: 1, "b-c": [NaN] }, null, 2)],
  qs: (qs) => [qs.parse("a[b][c]=1&d[]=2&d[]=3&e.f=4", { allowDots: true }), qs.stringify({ a: { b: [1, 2, { c: 3 }] } })],
  "iconv-lite": (iconv) => ["win1251", "shift_jis", "gbk", "utf16", "utf7", "big5", "euc-kr"].map((code) => iconv.encode("Привет 日本語 abc", code).toString("hex")),
  argparse({ ArgumentParser }) {
    const parser = new ArgumentParser({ prog: "x", add_help: true });
    parser.add_argument("-f", { type: "int", default: 3 });
    parser.add_argument("bar", { nargs: "*" });
    return [Object.entries(parser.parse_args(["-f", "5", "a", "b"])), parser.format_help()];
  },
  commander({ Command }) {
    const command = new Command("x").exitOverride().option("-p, --port <n>", "port", parseInt, 3).argument("<f>").action(() => {});
    command.parse(["node", "x", "-p", "9", "q"]);
    return [command.opts(), command.args, command.helpInformation()];
  },
  yargs: (yargs) => JSON.stringify(yargs(["--a.b", "1", "-xyz", "--no-q", "r"]).option("s", { default: 0.5 }).argv),
  "source-map"({ SourceMapGenerator }) {
    const map = new SourceMapGenerator({ file: "a" });
    for (let at = 1; at < 200; at++) map.addMapping({ generated: { line: at, column: at % 7 }, original: { line: at * 2, column: at % 5 }, source: `b${at % 3}`, name: `n${at % 4}` });
    return map.toString();
  },
  "chart.js"(chart) {
    const { helpers = {} } = chart;
    const { color, easingEffects = {}, niceNum } = helpers;
    return [Object.keys(helpers).sort().join(), color && color("red").alpha(0.5).rgbString(), Object.keys(easingEffects).map((name) => easingEffects[name](0.3)), niceNum && niceNum(37.2), Object.keys(chart).sort().join()];
  },
  levn: (levn) => [levn.parse("{a: Number, b: [String]}", "{a: 2, b: [x,y]}"), levn.parse("Number", "2.5")],
  optionator(optionator) {
    const options = optionator({ prepend: "x", options: [{ option: "help", alias: "h", type: "Boolean", description: "d" }, { option: "n", type: "Int", description: "e", default: "3" }] });
    return [options.parse(["node", "x", "--n", "4"]), options.generateHelp()];
  },
  "deep-equal": (equal) => [equal({ a: [1, 2, new Set([1, "2"])] }, { a: [1, 2, new Set([1, 2])] }), equal(new Map([[1, { b: 2 }]]), new Map([["1", { b: "2" }]])), equal([1, NaN], [1, NaN], { strict: true })],
  express(express) {
    const app = express();
    app.get("/x/:id", () => {});
    app.use("/y", express.Router().all("/z", () => {}));
    return app._router.stack.map((layer) => [String(layer.regexp), layer.keys]);
  },
  browserslist: (browserslist) => browserslist("ie 11, chrome 90, firefox 80").join(),
  bluebird: (bluebird) => Object.keys(bluebird).join(),
  moment: (moment) => [moment.utc("2020-02-30T1:2", "YYYY-MM-DDTH:m").format(), moment.utc(0).add(1.5, "months").toString(), moment.duration(1e9).humanize(), moment.utc(1e12).format("dddd, MMMM Do YYYY, h:mm:ss a"), moment.utc("2013W06").week()],
  "neo-async"(async) {
    const seen = [];
    async.series([(done) => done(null, 1), (done) => done(null, 2)], (error, results) => seen.push(...results));
    async.eachLimit([1, 2, 3], 2, (item, done) => done(seen.push(item) && null), () => seen.push("end"));
    return seen;
  },
  ws: (ws) => Object.keys(ws).join(),
  glob: (glob) => glob.sync(`${SHARE}/semver/**/*.js`, {}).join(),
};

function semverDigest(semver) {
  const versions = ["1.2.3", "1.2.3-alpha.1", "2.0.0", "0.0.1", "1.10.0", "v3.4.5+b"];
  const ranges = ["^1.2", "~1.2.3", "1.x || >=2.5.0", ">1 <3", "*", "1.2 - 2.3.4", "^0.0.1", ">=1.2.3-alpha <2"];
  const ofVersion = (version) => [
    ranges.map((range) => [semver.satisfies(version, range), semver.gtr(version, range), semver.outside(version, range, "<")]),
    versions.map((other) => [semver.compare(version, other), semver.diff(version, other)]),
    ["major", "minor", "patch", "prerelease", "prepatch"].map((kind) => semver.inc(version, kind)),
  ];
  const ofRange = (range) => [semver.validRange(range), String(semver.minVersion(range)), ranges.map((other) => [semver.intersects(range, other), semver.subset(range, other)])];
  return [versions.map(ofVersion), ranges.map(ofRange)];
}

function lodashDigest(_) {
  return [
    _.chunk([1, 2, 3, 4, 5], 2),
    _.merge({ a: { b: 1 } }, { a: { c: [1] } }),
    _.camelCase("foo bar-baz"),
    _.template("<% _.each(a,x=>{%><%-x%>,<%})%>")({ a: [1, "<"] }),
    _.sortBy([{ a: 2 }, { a: 1 }], "a"),
    _.range(0, 1, 0.2),
    _.cloneDeep({ a: new Map([[1, { b: 2 }]]) }),
    _.groupBy([1.2, 1.5, 2], Math.floor),
    _.words("fred, barney, & pebbles"),
    _.truncate("hi-diddly-ho there", { length: 12 }),
    _.partition([1, 2, 3], (n) => n % 2),
    _.isEqual({ a: [1, { b: 2 }] }, { a: [1, { b: 2 }] }),
    _.deburr("déjà"),
    _([3, 1, 2]).map((x) => x * 2).sort().value(),
    _.curry((a, b, c) => a + b + c)(1)(2)(3),
  ];
}

function isThere(name) {
  try {
    require.resolve(name);
    return true;
  } catch {
    return false;
  }
}

function lineOf(name) {
  try {
    return `${name.padEnd(16)} ${digest(CALLS[name](require(name)))}`;
  } catch (error) {
    return `${name.padEnd(16)} throws ${error.message.split("\n")[0].slice(0, 100)}`;
  }
}

const asked = process.argv.slice(2);
for (const name of asked.length > 0 ? asked : Object.keys(CALLS)) if (isThere(name)) console.log(lineOf(name));
