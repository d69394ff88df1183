"use strict";
// The field `mappings` of a source map, version 3: for each line its segments, each with one, four
// or five numbers: column, source, line and column there, name. All but the columns count from the
// segment before.

const DIGITS = "ABCDEFGHIJKLMNOPQRSTUVWXYZabcdefghijklmnopqrstuvwxyz0123456789+/";

/** A number in digits of base 64, the sign in its last bit. */
function encodedNumber(number) {
  let rest = number < 0 ? (-number << 1) | 1 : number << 1;
  let digits = "";
  do {
    const five = rest & 31;
    rest >>>= 5;
    digits += DIGITS[rest > 0 ? five | 32 : five];
  } while (rest > 0);
  return digits;
}

/**
 * @param {number[][][]} lines the segments of each line, columns in order
 * @returns {string}
 */
function encode(lines) {
  const last = [0, 0, 0, 0, 0];
  const segment = (numbers) =>
    numbers
      .map((number, at) => {
        const difference = number - last[at];
        last[at] = number;
        return encodedNumber(difference);
      })
      .join("");
  const line = (segments) => {
    last[0] = 0;
    return segments.map(segment).join(",");
  };
  return lines.map(line).join(";");
}

/** The numbers of a segment, as differences. */
function decodedSegment(text) {
  const numbers = [];
  let number = 0;
  let shift = 0;
  for (const digit of text) {
    const value = DIGITS.indexOf(digit);
    if (value < 0) throw new RangeError(`${digit} is no digit of base 64`);
    number |= (value & 31) << shift;
    shift += 5;
    if (value & 32) continue;
    numbers.push(number & 1 ? -(number >>> 1) : number >>> 1);
    number = 0;
    shift = 0;
  }
  return numbers;
}

/**
 * @param {string} mappings
 * @returns {number[][][]} the segments of each line
 * @throws {RangeError} where it is no such text
 */
function decode(mappings) {
  const last = [0, 0, 0, 0, 0];
  const segment = (text) => decodedSegment(text).map((difference, at) => (last[at] += difference));
  return mappings.split(";").map((line) => {
    last[0] = 0;
    return line === "" ? [] : line.split(",").map(segment);
  });
}

module.exports = { decode, encode };
