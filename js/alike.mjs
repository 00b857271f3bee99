// A hint at a name that may have been meant: the measure of Python's difflib, so that the same name is hinted at.

import { spelled } from './text.mjs';

const NEAR = 0.6;
const MOST_ALIKE = 10_000;

/** The longest run that stands in both parts, the first of equals: where it starts in each, and its length. */
function longestRun(one, other, [a, aEnd, b, bEnd]) {
  let best = [a, b, 0], lengths = new Map();
  for (let i = a; i < aEnd; i++) {
    const next = new Map();
    for (let j = b; j < bEnd; j++) {
      if (one[i] !== other[j]) continue;
      const length = (lengths.get(j - 1) ?? 0) + 1;
      next.set(j, length);
      if (length > best[2]) best = [i - length + 1, j - length + 1, length];
    }
    lengths = next;
  }
  return best;
}

/** How many characters stand in runs that both have, in the same order. */
function common(one, other, part = [0, one.length, 0, other.length]) {
  const [i, j, length] = longestRun(one, other, part);
  if (!length) return 0;
  const [a, aEnd, b, bEnd] = part;
  return common(one, other, [a, i, b, j]) + length + common(one, other, [i + length, aEnd, j + length, bEnd]);
}

function likeness(one, other) {
  const total = one.length + other.length;
  if ((2 * Math.min(one.length, other.length)) / total < NEAR) return 0;
  return (2 * common(one, other)) / total;
}

/** Whether a text comes after another by its characters. */
function isLater(one, other) {
  const at = one.findIndex((c, place) => c !== other[place]);
  return at >= 0 && (at >= other.length || one[at].codePointAt(0) > other[at].codePointAt(0));
}

/** The names that are about as long, and begin or end alike. */
function near(wanted, names) {
  const found = [];
  for (const name of names) {
    const characters = [...name];
    const isNear = Math.abs(characters.length - wanted.length) <= 2;
    if (isNear && (characters[0] === wanted[0] || characters.at(-1) === wanted.at(-1))) found.push(characters);
    if (found.length === MOST_ALIKE) break;
  }
  return found;
}

/** '; did you mean ..?', or nothing. */
export function alike(name, names) {
  const wanted = [...name];
  let best = null, most = NEAR;
  for (const characters of near(wanted, names)) {
    const score = likeness(characters, wanted);
    if (score < most || (score === most && best && !isLater(characters, best))) continue;
    [best, most] = [characters, score];
  }
  return best ? `; did you mean ${spelled(best.join(''))}?` : '';
}
