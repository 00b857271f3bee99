// Lines that .feed and .pat have in common, and the mistakes in them.

import { Wrong, WrongText, WrongTexts, firstWord, grouped, lineOf, numberOf } from './text.mjs';

const MOST_MISTAKES = 1_000;

/** The mistakes of one text, which are told at once and in line order. */
export class Mistakes {
  constructor(file) {
    Object.assign(this, { file, found: [] });
  }

  add(line, reason) {
    this.found.push(new WrongText(this.file, line, reason));
    if (this.found.length === MOST_MISTAKES) this.tell();
  }

  /** A mistake of the whole text, at its last line, where no line has one of its own. */
  addIfNone(lines, reason) {
    const last = Math.max(1, ...[...lines.values()].map((part) => part.at(-1)?.[0] ?? 1));
    if (!this.found.length) this.add(last, reason);
  }

  /** Throws what was found. */
  tell() {
    if (this.found.length) throw new WrongTexts(this.found.sort((one, other) => one.line - other.line));
  }
}

/** The reason of what is wrong with a text, a graph or a name; any other error goes on. */
function reasonOf(error) {
  if (error instanceof WrongText) return error.reason;
  if (error instanceof Wrong) return error.message;
  throw error;
}

/** The lines that say something, numbered, by their kinds, which are their first words: as many at most of each as
 * that which the text is of can have. */
export function sortedLines(text, most, what, mistakes, of) {
  const found = new Map(Object.keys(most).map((kind) => [kind, []]));
  for (const [place, line] of text.split('\n').entries()) {
    const word = firstWord(line);
    if (word === undefined || word.startsWith('#')) continue;
    const kind = found.has(word) ? word : chosenKind(line, place + 1, [...found.keys()], what, mistakes);
    if (kind === null) continue;
    found.get(kind).push([place + 1, line]);
    if (found.get(kind).length <= most[kind]) continue;
    mistakes.add(place + 1, `${of} has at most ${grouped(most[kind])} ${kind}s`);
    mistakes.tell();
  }
  return found;
}

/** The kind of a line whose first word is not divided from the next by a blank; null where it has none. */
function chosenKind(line, number, kinds, what, mistakes) {
  try {
    return lineOf(line, mistakes.file, number).choose(kinds, what);
  } catch (error) {
    mistakes.add(number, reasonOf(error));
    return null;
  }
}

/** Takes each line into the target. What is wrong is a mistake of its line; the name that it would have given stands
 * all the same, so that the lines which use it are not wrong too. */
export function takeLines(lines, take, target, mistakes, standIn = () => {}) {
  for (const [number, text] of lines) {
    let name = '';
    try {
      const line = lineOf(text, mistakes.file, number);
      line.take('its kind');
      name = line.nextText();
      take(line, target);
    } catch (error) {
      mistakes.add(number, reasonOf(error));
      stand(standIn, name, target);
    }
  }
}

function stand(standIn, name, target) {
  try {
    standIn(name, target);
  } catch (error) {
    reasonOf(error);
  }
}

/** A name; a bare number is a number. */
export const meant = (token) => numberOf(token) ?? token.text;

/** The name that a label line gives. */
export function takeLabelName(line) {
  const token = line.take('the name of a label');
  if (numberOf(token) !== null)
    throw line.error(`expected the name of a label, found ${token.text}; quote a name of digits: "${token.text}"`);
  return token.text;
}

/** The name of the node at this place; its own id leaves it without a name. */
export function takeNodeName(line, place) {
  const token = line.take('the name of a node'), number = numberOf(token);
  if (number === null) return token.text;
  if (number !== place)
    throw line.error(
      `expected a name, or ${place}, the id of this node, found ${token.text}; quote a name of digits: "${token.text}"`,
    );
  return null;
}

/** Both ends of an edge line. */
export function takeEdge(line) {
  const start = meant(line.take('the node that the edge starts at'));
  line.want('->');
  const end = meant(line.take('the node that the edge ends at'));
  line.end();
  return [start, end];
}
