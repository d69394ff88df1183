// Operators over constant values: undefined, null, booleans, whole safe numbers other than minus
// zero, and texts. `{ value }` tells a result, `null` that there is none of these kinds.
"use strict";

const told = (value) => ({ value });
const isWhole = (n) => Number.isSafeInteger(n) && !Object.is(n, -0);
const whole = (n) => (isWhole(n) ? told(n) : null);

// The number that a text spells: decimal digits with a sign, or `0x`, `0o`, `0b` and digits.
function numberOfText(text) {
  const trimmed = text.trim();
  const isSpelled = /^([+-]?\d+|0[xX][\da-fA-F]+|0[oO][0-7]+|0[bB][01]+)?$/.test(trimmed);
  return isSpelled ? whole(Number(trimmed)) : null;
}

function toNumber(value) {
  if (typeof value === "string") return numberOfText(value);
  return value === undefined ? null : whole(Number(value));
}

const toText = (value) => String(value);

function power(base, exponent) {
  if (exponent < 0) return base === 1 ? 1 : base === -1 ? (exponent % 2 === 0 ? 1 : -1) : NaN;
  if (Math.abs(base) <= 1) return base === -1 && exponent % 2 !== 0 ? -1 : base ** exponent;
  return exponent > 64 ? NaN : Number(BigInt(base) ** BigInt(exponent));
}

const quotient = (left, right) => (right !== 0 && left % right === 0 ? left / right : NaN);

const NUMERIC = {
  "-": (a, b) => a - b,
  "*": (a, b) => a * b,
  "/": quotient,
  "%": (a, b) => a % b,
  "**": power,
  "&": (a, b) => a & b,
  "|": (a, b) => a | b,
  "^": (a, b) => a ^ b,
  "<<": (a, b) => a << b,
  ">>": (a, b) => a >> b,
  ">>>": (a, b) => a >>> b,
};

// An operator over the numbers that both sides are.
function numeric(operate, left, right) {
  const [a, b] = [toNumber(left), toNumber(right)];
  return a && b ? operate(a.value, b.value) : null;
}

function sum(left, right) {
  const isJoined = typeof left === "string" || typeof right === "string";
  return isJoined
    ? told(toText(left) + toText(right))
    : numeric((a, b) => whole(a + b), left, right);
}

const isNullish = (value) => value === undefined || value === null;

// Whether two values are loosely equal.
function loose(left, right) {
  if (isNullish(left) || isNullish(right)) return told(isNullish(left) && isNullish(right));
  if (typeof left === typeof right) return told(left === right);
  return numeric((a, b) => told(a === b), left, right);
}

const RELATIONS = {
  "<": (a, b) => a < b,
  ">": (a, b) => a > b,
  "<=": (a, b) => a <= b,
  ">=": (a, b) => a >= b,
};

function related(compare, left, right) {
  if (typeof left === "string" && typeof right === "string") return told(compare(left, right));
  return numeric((a, b) => told(compare(a, b)), left, right);
}

const turned = (answer) => answer && told(!answer.value);

// A binary operator over two values.
function operate(operator, left, right) {
  if (operator === "+") return sum(left, right);
  if (operator === "===") return told(left === right);
  if (operator === "!==") return told(left !== right);
  if (operator === "==") return loose(left, right);
  if (operator === "!=") return turned(loose(left, right));
  if (RELATIONS[operator]) return related(RELATIONS[operator], left, right);
  const compute = NUMERIC[operator];
  return compute ? numeric((a, b) => whole(compute(a, b)), left, right) : null;
}

const minus = (value) => numeric((a) => whole(-a), value, 0);
const typeName = (value) => (value === null ? "object" : typeof value);

// A unary operator over a value.
function operateUnary(operator, value) {
  if (operator === "!") return told(!value);
  if (operator === "-") return minus(value);
  if (operator === "+") return toNumber(value);
  if (operator === "~") return numeric((a) => whole(~a), value, 0);
  return operator === "typeof" ? told(typeName(value)) : null;
}

// ---- texts of templates

// A text as the raw text of a template.
const escaped = (text) => text.replace(/[\\`$]/g, "\\$&").replace(/\r/g, "\\r");

// Whether the backslash before the last `size` units of a text is itself one that counts.
const endsUnescaped = (text, end) => {
  if (!text.endsWith(end)) return false;
  const before = /\\*$/.exec(text.slice(0, text.length - end.length))[0].length;
  return before % 2 === 0;
};

// Raw texts one after the other, so that each means what it meant alone.
function joinedRaw(first, second) {
  if (endsUnescaped(first, "$") && second.startsWith("{")) {
    return `${first.slice(0, -1)}$\\${second}`;
  }
  if (endsUnescaped(first, "\\0") && /^\d/.test(second)) {
    return `${first.slice(0, -2)}\\x00${second}`;
  }
  return first + second;
}

module.exports = { escaped, joinedRaw, operate, operateUnary, toText };
