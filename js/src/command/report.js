"use strict";

const WIDTH = 80;

/** A part of a line round a column, which counts from 0, and where the column is in it. */
function excerpt(line, column) {
  if (line.length <= WIDTH) return { text: line, at: column };
  const from = Math.max(0, Math.min(column - WIDTH / 2, line.length - WIDTH));
  return { text: line.slice(from, from + WIDTH), at: column - from };
}

/** The line of a text that a place is in, with a mark under it. */
function sourceLine(code, line, column) {
  const { text, at } = excerpt(code.split(/\r\n|[\n\r\u2028\u2029]/)[line - 1] ?? "", column - 1);
  const shown = text.replace(/\t/g, " ");
  const margin = String(line);
  return `  ${margin} | ${shown}\n  ${" ".repeat(margin.length)} | ${" ".repeat(at)}^\n`;
}

/**
 * What is said of a refusal or a warning: its place, its cause, and the line in which it stands.
 * @param {string} file
 * @param {string} code the text of the file
 * @param {{message: string, line: number | null, column: number | null}} note
 */
function noteText(file, code, { message, line, column }) {
  if (line === null) return `${file}: ${message}\n`;
  return `${file}:${line}:${column}: ${message}\n${sourceLine(code, line, column)}`;
}

const grouped = (number) => number.toLocaleString("en-US");
const share = (before, after) => ((100 * (before - after)) / Math.max(before, 1)).toFixed(1);

/**
 * The line that sums up a run.
 * @param {{files: number, refused: number, before: number, after: number, gzipBefore: number,
 *   gzipAfter: number}} totals
 */
function summaryText({ files, refused, before, after, gzipBefore, gzipAfter }) {
  const count = `${files} ${files === 1 ? "file" : "files"}`;
  const bytes = `${grouped(before)} -> ${grouped(after)} bytes (${share(before, after)} % less)`;
  const gzip = `gzip ${grouped(gzipBefore)} -> ${grouped(gzipAfter)}`;
  return `${count}, ${bytes}, ${gzip}, ${refused} refused\n`;
}

module.exports = { noteText, summaryText };
