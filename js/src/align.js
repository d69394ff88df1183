"use strict";
// Which leaves of an answer are which of the input: two lists of texts are laid side by side, in
// order.

const MOST_EDITS = 600; // past so many differences a stretch is left without pairs

/** The positions of the items of a stretch that stand there once. */
function onceIn(items, from, to) {
  const places = new Map();
  for (let at = from; at < to; at++) places.set(items[at], places.has(items[at]) ? -1 : at);
  return places;
}

/** The longest list of pairs of which both sides ascend; the first sides do already. */
function ascending(pairs) {
  const ends = []; // for each length the place of the pair with the least second side
  const before = [];
  pairs.forEach(([, second], at) => {
    let low = 0;
    let high = ends.length;
    while (low < high) {
      const middle = (low + high) >> 1;
      if (pairs[ends[middle]][1] < second) low = middle + 1;
      else high = middle;
    }
    before[at] = low > 0 ? ends[low - 1] : -1;
    ends[low] = at;
  });
  const found = [];
  for (let at = ends.length > 0 ? ends.at(-1) : -1; at >= 0; at = before[at]) found.push(pairs[at]);
  return found.reverse();
}

/** The pairs of items that stand once in both stretches. */
function anchors(one, other, stretch) {
  const mine = onceIn(one, stretch.from, stretch.to);
  const yours = onceIn(other, stretch.otherFrom, stretch.otherTo);
  const pairs = [];
  for (const [item, at] of mine) {
    const place = yours.get(item) ?? -1;
    if (at >= 0 && place >= 0) pairs.push([at, place]);
  }
  return ascending(pairs.sort((a, b) => a[0] - b[0]));
}

/** The furthest place on a diagonal after one more difference (Myers 1986). */
function furthest(reached, diagonal, edits) {
  const down = reached.get(diagonal + 1) ?? -1;
  const right = reached.get(diagonal - 1) ?? -1;
  return diagonal === -edits || (diagonal !== edits && right < down) ? down : right + 1;
}

/** For each number of differences what was reached before it, up to the end of both stretches. */
function traced(one, other, { from, to, otherFrom, otherTo }) {
  const trace = [];
  const reached = new Map([[1, 0]]);
  for (let edits = 0; edits <= MOST_EDITS; edits++) {
    trace.push(new Map(reached));
    for (let diagonal = -edits; diagonal <= edits; diagonal += 2) {
      let x = furthest(reached, diagonal, edits);
      while (
        from + x < to &&
        otherFrom + x - diagonal < otherTo &&
        one[from + x] === other[otherFrom + x - diagonal]
      ) {
        x++;
      }
      reached.set(diagonal, x);
      if (from + x >= to && otherFrom + x - diagonal >= otherTo) return trace;
    }
  }
  return null;
}

/** The pairs of two stretches with the fewest differences. */
function fewestEdits(one, other, stretch) {
  const trace = traced(one, other, stretch);
  if (trace === null) return [];
  const pairs = [];
  let x = stretch.to - stretch.from;
  let y = stretch.otherTo - stretch.otherFrom;
  for (let edits = trace.length - 1; edits >= 0; edits--) {
    const diagonal = x - y;
    const start = furthest(trace[edits], diagonal, edits);
    const isDown = start === (trace[edits].get(diagonal + 1) ?? -1);
    while (x > start) pairs.push([stretch.from + --x, stretch.otherFrom + --y]);
    x = Math.max(isDown ? start : start - 1, 0);
    y = Math.max(isDown ? start - diagonal - 1 : start - diagonal, 0);
  }
  return pairs.reverse();
}

/** A stretch without the equal items at its ends, and the pairs of these. */
function trimmed(one, other, stretch) {
  let { from, to, otherFrom, otherTo } = stretch;
  const first = [];
  const last = [];
  const isLeft = () => from < to && otherFrom < otherTo;
  while (isLeft() && one[from] === other[otherFrom]) first.push([from++, otherFrom++]);
  while (isLeft() && one[to - 1] === other[otherTo - 1]) last.push([--to, --otherTo]);
  return { first, last: last.reverse(), rest: { from, to, otherFrom, otherTo } };
}

/** The stretches between pairs. */
function* between(pairs, { from, to, otherFrom, otherTo }) {
  let [start, otherStart] = [from, otherFrom];
  for (const [at, place] of [...pairs, [to, otherTo]]) {
    yield { from: start, to: at, otherFrom: otherStart, otherTo: place };
    [start, otherStart] = [at + 1, place + 1];
  }
}

function alignStretch(one, other, stretch) {
  const { first, last, rest } = trimmed(one, other, stretch);
  if (rest.from === rest.to || rest.otherFrom === rest.otherTo) return [...first, ...last];
  const fixed = anchors(one, other, rest);
  if (fixed.length === 0) return [...first, ...fewestEdits(one, other, rest), ...last];
  const pairs = [];
  let at = 0;
  for (const part of between(fixed, rest)) {
    for (const pair of alignStretch(one, other, part)) pairs.push(pair);
    if (at < fixed.length) pairs.push(fixed[at++]);
  }
  return [...first, ...pairs, ...last];
}

/**
 * Lays two lists side by side: first what stands once in both, then what is between.
 * @param {string[]} one
 * @param {string[]} other
 * @returns {[number, number][]} pairs of places with equal texts, both sides in order
 */
function align(one, other) {
  return alignStretch(one, other, { from: 0, to: one.length, otherFrom: 0, otherTo: other.length });
}

module.exports = { align };
