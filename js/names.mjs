// Names of labels and nodes, which are not in a store's bytes, and the .names text that keeps them.

import { alike } from './alike.mjs';
import { MAX_LABEL, MAX_NODES } from './records.mjs';
import { sha256 } from './sha256.mjs';
import { Wrong, WrongText, grouped, isName, lengthOf, lineOf, shortened, spelled } from './text.mjs';

const MAX_NAME = 1_000;
const MOST_LINES = 2 * (MAX_LABEL + MAX_NODES);

/** Names of numbered things, each once; where there is no name, the number stands for it. */
export class Naming {
  constructor(what) {
    this.what = what;
    this.names = new Map();
    this.numbers = new Map();
  }

  add(number, name) {
    if (!isName(name)) throw new Wrong('a name has at least one character, all of them Unicode');
    if (lengthOf(name) > MAX_NAME)
      throw new Wrong(`a name has at most ${grouped(MAX_NAME)} characters, and this has ${grouped(lengthOf(name))}`);
    if (this.numbers.has(name))
      throw new Wrong(`${this.what} ${spelled(name)} is there already, with number ${this.numbers.get(name)}`);
    if (this.names.has(number)) throw new Wrong(`${this.what} ${number} has the name ${this.spelled(number)} already`);
    this.names.set(number, name);
    this.numbers.set(name, number);
  }

  has(name) {
    return this.numbers.has(name);
  }

  /** The name as it is shown. */
  name(number) {
    return this.names.get(number) ?? String(number);
  }

  /** As the text forms spell it. */
  spelled(number) {
    return this.names.has(number) ? spelled(this.names.get(number)) : String(number);
  }

  /** The number of what is given by its name, or by its number already. */
  number(named) {
    if (typeof named !== 'string') return named;
    if (!this.numbers.has(named))
      throw new Wrong(`no ${this.what} is named ${shortened(spelled(named))}${alike(named, this.numbers.keys())}`);
    return this.numbers.get(named);
  }

  /** Numbers and names, numbers ascending. */
  items() {
    return [...this.names].sort(([a], [b]) => a - b);
  }
}

/** The names of labels by their numbers and of nodes by their ids. */
export class Names {
  constructor() {
    this.labels = new Naming('label');
    this.nodes = new Naming('node');
  }

  /** A constraint as the text form has it, without its first word. */
  constraint({ keyLabels, label, most }) {
    const key = keyLabels.map((one) => this.labels.spelled(one)).join(', ');
    return `${key} -> ${this.labels.spelled(label)} at most ${most}`.trimStart();
  }
}

/** The names of a store, from a .names text; an error where the text is of another store. */
export function namesOfText(text, file, store) {
  const names = new Names(), lines = text.split('\n');
  if (lines.length - 1 > MOST_LINES) throw new Wrong(`${file}: a file of names has at most ${grouped(MOST_LINES)} lines`);
  let said = false;
  for (const [place, content] of lines.entries()) {
    const line = lineOf(content, file, place + 1);
    if (!line.peek()) continue;
    const kind = line.choose(['store', 'label', 'node'], 'store, label or node');
    if (kind === 'store') {
      checkSum(line, store);
      said = true;
    } else if (kind === 'label') takeName(line, names.labels, 1, MAX_LABEL);
    else takeName(line, names.nodes, 0, MAX_NODES - 1);
    line.end();
  }
  if (!said) throw new WrongText(file, 1, "expected a line 'store sha256 ..', which says whose names these are");
  return names;
}

function checkSum(line, store) {
  line.want('sha256');
  if (line.take('the sum of a store').text !== sha256(store))
    throw line.error('these are the names of another store: build the store again, or open it without names');
}

function takeName(line, naming, low, high) {
  const name = line.take(`the name of a ${naming.what}`).text;
  const number = line.wholeNumber(`the number of ${naming.what} ${spelled(name)}`, low, high);
  try {
    naming.add(number, name);
  } catch (error) {
    throw error instanceof Wrong ? line.error(error.message) : error;
  }
}
