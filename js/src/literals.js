"use strict";
/** The text of the literals that the proved program doesn't read: the shortest there is. */

const ESCAPES = {
  "\\": "\\\\",
  "\n": "\\n",
  "\r": "\\r",
  "\u2028": "\\u2028",
  "\u2029": "\\u2029",
  "\ufeff": "\\ufeff",
};

const isDigit = (unit) => unit >= "0" && unit <= "9";

function count(text, unit) {
  let found = 0;
  for (let at = text.indexOf(unit); at >= 0; at = text.indexOf(unit, at + 1)) found++;
  return found;
}

function escaped(unit, next) {
  if (unit === "\0") return next !== undefined && isDigit(next) ? "\\x00" : "\\0";
  return ESCAPES[unit] ?? `\\u${unit.charCodeAt(0).toString(16)}`;
}

// With the flag `u` a surrogate is met only where it is half of no pair.
const ESCAPED = /[\\\n\r\u2028\u2029\ufeff\0]|[\ud800-\udfff]/gu;

/**
 * A text as a literal, in the quotes that need fewer escapes. `</script` is escaped, so that the
 * code may stand in a page.
 */
function quoted(text) {
  const quote = count(text, "'") < count(text, '"') ? "'" : '"';
  let body = text.replace(ESCAPED, (unit, at) => escaped(unit, text[at + 1]));
  if (body.includes(quote)) body = body.replaceAll(quote, `\\${quote}`);
  if (body.includes("</")) body = body.replace(/<\/(?=script)/gi, "<\\/");
  return quote + body + quote;
}

function shortest(texts) {
  return texts.reduce((best, text) => (text.length < best.length ? text : best));
}

// No number whose point is further off is shortest without an exponent.
const LONG = 25;

/** The forms of a number with these digits and this exponent of ten. */
function decimalForms(digits, exponent) {
  const scientific = `${digits}e${exponent}`;
  const point = digits.length + exponent;
  if (Math.abs(point) > LONG) return [scientific];
  if (exponent >= 0) return [digits + "0".repeat(exponent), scientific];
  if (point > 0) return [`${digits.slice(0, point)}.${digits.slice(point)}`, scientific];
  return [`.${"0".repeat(-point)}${digits}`, scientific];
}

/** A number that is not NaN, as a literal. */
function number(value) {
  if (value < 0 || Object.is(value, -0)) return `-${number(-value)}`;
  if (value === Infinity) return "1e999";
  if (Number.isInteger(value) && value < 1000) return String(value);
  const parts = /^(\d)(?:\.(\d+))?e([+-]\d+)$/.exec(value.toExponential());
  const [, whole, fraction = "", power] = parts;
  const forms = decimalForms(whole + fraction, Number(power) - fraction.length);
  if (Number.isInteger(value)) forms.push(`0x${value.toString(16)}`);
  return shortest(forms);
}

/** The digits of a BigInt. */
const bigInt = (value) => shortest([value.toString(), `0x${value.toString(16)}`]);

/**
 * A number, a BigInt or a text, as a literal.
 * @param {{value: unknown, bigint?: string}} node a node of ESTree
 */
function literal(node) {
  if (node.bigint != null) return `${bigInt(BigInt(node.bigint))}n`;
  return typeof node.value === "number" ? number(node.value) : quoted(node.value);
}

module.exports = { literal, quoted };
