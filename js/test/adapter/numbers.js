"use strict";
// Programs with literals that the program doesn't read, in each place where one can stand.

const NUMBERS = [
  "0.5",
  ".1",
  "1.",
  "0.1e1",
  "3.25",
  "1e308",
  "1.7976931348623157e308",
  "1e999",
  "5e-324",
  "1e-7",
  "1e21",
  "123456789012345680000",
  "9007199254740991",
  "9007199254740992",
  "9007199254740993",
  "0x20000000000000",
  "(0b1).toString().length + .5",
  "1_0.5",
  "0.1 + 0.2",
  "2 ** 53",
  "2 ** 0.5",
];

const BIGINTS = [
  "340282366920938463463374607431768211455n",
  "340282366920938463463374607431768211456n",
  "0xffffffffffffffffffffffffffffffffffn",
  "1_000_000_000_000_000_000_000_000_000_000_000_000_000_000n",
];

const TEXTS = ["'\\ud800'", "'\\udfff'", "'a\\ud83d'", "'\\ude00b'", "'\\ud83d\\ude00'", "`\\ud800`", "'\\x41\\udc00'"];

/** The forms that any literal may stand in. */
const EVERYWHERE = [
  (n) => `log(${n}, [${n}, , ${n}], { a: ${n} })`,
  (n) => `log(typeof ${n}, void ${n}, !${n}, !!${n})`,
  (n) => `log(${n} ? 1 : 2, ${n} || 1, ${n} && 1, ${n} ?? 1, null ?? ${n})`,
  (n) => `log(${n} == ${n}, ${n} === ${n}, ${n} != 1, ${n} !== "a", ${n} == null)`,
  (n) => `log(x ? ${n} : ${n}, x ? 1 : ${n}, (x, ${n}))`,
  (n) => `log(\`a\${${n}}b\`, \`\${${n}}\${x}\`, "a" + ${n}, ${n} + "a", "a" + ${n} + ${n})`,
  (n) => `log({ [${n}]: 1 }, { 1: 2 }[${n}], [1][${n}], ({ [${n}]: x } = { [${n}]: 3 }), x)`,
  (n) => `log(delete ${n}, delete { 1: 2 }[${n}], delete (x, ${n}), ${n} in { 1: 2 })`,
  (n) => `log(${n}.constructor === x.constructor, ${n}?.constructor.name, (${n}).toString(), ${n}?.[0])`,
  (n) => `let y = ${n}; y = y || ${n}; log(y); const z = ${n}; log(z, y === z);`,
  (n) => `function f(a = ${n}, { b = ${n} } = {}, [c = ${n}] = []) { return [a, b, c]; } log(f());`,
  (n) => `const f = () => ${n}; function g() { return ${n}; } function* h() { yield ${n}; return ${n}; } log(f(), g(), [...h()]);`,
  (n) => `switch (x) { case ${n}: log("no"); break; default: log("yes"); } switch (${n}) { case ${n}: log("same"); }`,
  (n) => `try { throw ${n}; } catch (e) { log(e); } try { ${n}(); } catch (e) { log(e.name); } try { new (${n})(); } catch (e) { log(e.name); }`,
  (n) => `try { ${n}\`a\`; } catch (e) { log(e.name); } try { log([...${n}]); } catch (e) { log(e.name); }`,
  (n) => `class A { a = ${n}; static [${n}] = ${n}; static b() { return ${n}; } } log(new A(), Object.keys(A), A.b());`,
  (n) => `if (${n}) log("if"); else log("else"); while (${n}) { log("while"); break; } ${n}; log(${n}, ${n});`,
  (n) => `(async () => { log(await ${n}); for await (const y of [${n}]) log(y); return ${n}; })().then(log);`,
  (n) => `((s, ...v) => log(s.length, v))\`a\${${n}}b\`; log(((a) => a)(${n}), [${n}].map((a) => a));`,
];

const OF_NUMBERS = [
  (n) => `log(-${n}, +${n}, - -${n}, ~${n}, -(-${n}), +-${n})`,
  (n) => `log(${n} + 1, 1 + ${n}, ${n} - 1, 1 - ${n}, ${n} * 2, ${n} / 2, ${n} % 2, 2 / -${n})`,
  (n) => `log((${n}) ** 2, (-${n}) ** 2, 2 ** -${n}, x - -${n}, x + +${n}, x - ${n})`,
  (n) => `log(${n} | 0, ${n} << 1, ${n} >>> 0, ${n} & 1, ${n} ^ ${n})`,
  (n) => `log(${n} < 1, ${n} > 1, ${n} <= ${n}, 1 >= ${n}, x < ${n})`,
  (n) => `let y = 1; y += ${n}; y = y - ${n}; y = y * ${n}; log(y); x.k = ${n}; log((${n}).toFixed(2))`,
  (n) => `for (let y = 0, z = 0; y < ${n} && z < 3; y += ${n}, z++) log(y);`,
];

const OF_BIGINTS = [
  (n) => `log(-${n}, ${n} + 1n, ${n} * ${n}, ${n} > 1n, ${n} == 1, BigInt.asIntN(64, ${n}))`,
  (n) => `try { log(+${n}); } catch (e) { log(e.name); } log(${n} - 1n, 2n ** (${n} % 10n))`,
];

// Keys without brackets.
const KEYS = ["0.5", ".25", "1e21", "1e999", "9007199254740993", "1e-7", "10n", "0xffn", "340282366920938463463374607431768211456n", "'\\ud800'", "'a\\udfff'"];
const OF_KEYS = [
  (k) => `log({ ${k}: 1 }, Object.keys({ a: 0, ${k}: 1, b: 2 }), { ${k}: 1 }[${k}])`,
  (k) => `log({ ${k}() { return 1; } }[${k}](), { get ${k}() { return 2; } }[${k}], { async ${k}() {} }[${k}].name)`,
  (k) => `class A { ${k} = 1; static ${k} = 2; } class B { ${k}() { return 3; } static get ${k}() { return 4; } } log(new A(), A[${k}], new B()[${k}](), B[${k}])`,
];
const PATTERN_KEYS = KEYS.filter((key) => !key.includes("\\u"));
const OF_PATTERNS = [
  (k) => `const { ${k}: a, ...b } = { [${k}]: 1, c: 2 }; log(a, b); ({ ${k}: x } = { [${k}]: 3 }); log(x);`,
  (k) => `((({ ${k}: a = 4 }) => log(a))({})); for (const { ${k}: a } of [{ [${k}]: 5 }]) log(a);`,
];

const TEMPLATES = [
  "log(`\\ud800`, `a\\ud800b`, `\\ud800${x}`, `${x}\\udfff`, `${x}\\ud83d${x}\\ude00${x}`, `\\ud83d` + `\\ude00`)",
  "log(`a${0.5}b${'\\ud800'}c`, `\\ud83d\\ude00${'\\ud83d'}\\ude00`)",
  "('\\ud800'); log((() => { ('\\ud800'); return 1; })(), (() => { '\\ud800'; return 2; })())",
];

function* combined(literals, forms) {
  for (const literal of literals) for (const form of forms) yield `var x = 1; ${form(literal)}`;
}

const inBrackets = (text) => (/ /.test(text) ? `(${text})` : text);
/** A number before a dot. */
const operand = (text) => `(${inBrackets(text)})`;

module.exports = [
  ...combined(NUMBERS.map(operand), [...EVERYWHERE, ...OF_NUMBERS]),
  ...combined(BIGINTS, [...EVERYWHERE, ...OF_BIGINTS]),
  ...combined(TEXTS, EVERYWHERE),
  ...combined(KEYS, OF_KEYS),
  ...combined(PATTERN_KEYS, OF_PATTERNS),
  ...TEMPLATES.map((code) => `var x = 1; ${code}`),
];
