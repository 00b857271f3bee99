// A pattern: made in code, or read from a .pat text. docs/FORMATS.md specifies the text.

import { Mistakes, sortedLines, takeEdge, takeLabelName, takeLines, takeNodeName } from './lines.mjs';
import { Naming } from './names.mjs';
import { MAX_CONDITIONS, MAX_LABEL, MAX_PATTERN_EDGES, MAX_PATTERN_NODES } from './records.mjs';
import { MAX_VALUE, MIN_VALUE, OPERATORS, byEnds, patternBytes } from './records.mjs';
import { Wrong, aligned, numberOf, spelled, within } from './text.mjs';

/** Refuses a condition that no pattern can hold. */
function checkCondition({ operator, constant }) {
  if (!OPERATORS.includes(operator))
    throw new Wrong(`a condition has one of the signs ${OPERATORS.join(' ')}, and not '${operator}'`);
  within('a constant', constant, MIN_VALUE, MAX_VALUE);
}

/** Nodes and edges that are looked for. Labels by name get their numbers from a store's names. */
export class Pattern {
  constructor() {
    this.labels = new Naming('label'); // what the pattern itself says about label numbers
    this.names = new Naming('pattern node');
    this.nodes = [];
    this.edges = [];
    this.file = null; // where a text says what a label is, and what a node is
    this.lines = new Map();
  }

  /** Adds a node with its label, by name or number, and conditions {operator, constant}; null leaves it without a name. */
  addNode(name, label, conditions = []) {
    if (typeof label !== 'string') within('the number of a label', label, 1, MAX_LABEL);
    conditions.forEach(checkCondition);
    if (conditions.length > MAX_CONDITIONS) throw new Wrong(`a pattern node has at most ${MAX_CONDITIONS} conditions`);
    if (this.nodes.length === MAX_PATTERN_NODES) throw new Wrong(`a pattern has at most ${MAX_PATTERN_NODES} nodes`);
    if (name !== null) this.names.add(this.nodes.length, name);
    this.nodes.push({ label, conditions });
  }

  node(node) {
    const number = this.names.number(node);
    if (number < 0 || number >= this.nodes.length) throw new Wrong(`no pattern node has the number ${number}`);
    return number;
  }

  addEdge(start, end) {
    const edge = [this.node(start), this.node(end)];
    const shown = edge.map((node) => this.names.spelled(node)).join(' -> ');
    if (edge[0] === edge[1]) throw new Wrong(`an edge joins two different nodes, and ${shown} does not`);
    if (this.edges.some(([a, b]) => a === edge[0] && b === edge[1])) throw new Wrong(`the edge ${shown} is there already`);
    this.edges.push(edge);
  }

  /** The edges in pattern order. */
  edgeList() {
    return [...this.edges].sort(byEnds);
  }

  /** The names of the nodes, in pattern order. */
  nodeNames() {
    return this.nodes.map((_, node) => this.names.spelled(node));
  }

  /** The bytes of the pattern; names give the numbers of labels that the pattern names. */
  encode(names = null) {
    const mistakes = new Mistakes(this.file);
    const nodes = this.nodes.map(({ label, conditions }, place) => {
      try {
        return { label: this.labelNumber(label, names), conditions };
      } catch (error) {
        if (this.file === null) throw error;
        mistakes.add(this.lines.get(label) ?? this.lines.get(place), error.message);
        return null;
      }
    });
    mistakes.tell();
    return patternBytes(nodes, this.edges);
  }

  labelNumber(label, names) {
    const known = names?.labels ?? new Naming('label');
    if (typeof label !== 'string') return label;
    if (!this.labels.has(label)) return known.number(label);
    const own = this.labels.number(label);
    if (known.has(label) && known.number(label) !== own)
      throw new Wrong(`label ${spelled(label)} is ${own} in the pattern and ${known.number(label)} in the graph`);
    return own;
  }

  /** The .pat text. */
  text() {
    const parts = [
      aligned(this.labels.items().map(([number, name]) => [`label ${spelled(name)}`, String(number)])),
      aligned(this.nodes.map((node, place) => this.nodeWords(node, place))),
      this.edgeList().map((edge) => `edge ${edge.map((node) => this.names.spelled(node)).join(' -> ')}`),
    ];
    return parts.filter((part) => part.length).map((part) => part.join('\n')).join('\n\n') + '\n';
  }

  nodeWords({ label, conditions }, place) {
    const words = [`node ${this.names.spelled(place)}`, typeof label === 'string' ? spelled(label) : String(label)];
    return conditions.length ? [...words, conditionsText(conditions)] : words;
  }
}

/** Conditions as the text form has them. */
export function conditionsText(conditions) {
  return conditions.map(({ operator, constant }) => `value ${operator} ${constant}`).join(' and ');
}

function patLabelLine(line, pattern) {
  const name = takeLabelName(line);
  pattern.labels.add(line.wholeNumber(`the number of label ${spelled(name)}`, 1, MAX_LABEL), name);
  line.end();
  pattern.lines.set(name, line.line);
}

function patNodeLine(line, pattern) {
  const name = takeNodeName(line, pattern.nodes.length);
  const label = numberOf(line.peek()) === null ? line.take('a label').text : line.wholeNumber('a label', 1, MAX_LABEL);
  const conditions = line.peek() ? [takeCondition(line)] : [];
  while (line.skip('and')) conditions.push(takeCondition(line));
  line.end();
  pattern.addNode(name, label, conditions);
  pattern.lines.set(pattern.nodes.length - 1, line.line);
}

function takeCondition(line) {
  line.want('value');
  const operator = line.choose(OPERATORS, 'one of = < > <= >=');
  return { operator, constant: line.wholeNumber('a constant', MIN_VALUE, MAX_VALUE) };
}

function standInPatLabel(name, { labels }) {
  if (!labels.has(name)) labels.add(-labels.names.size, name);
}

function standInPatNode(name, pattern) {
  pattern.addNode(name === '' || pattern.names.has(name) ? null : name, 1);
}

const MOST_PAT_LINES = { label: MAX_LABEL, node: MAX_PATTERN_NODES, edge: MAX_PATTERN_EDGES };

/** The pattern of a .pat text. */
export function patternOfText(text, file = 'text') {
  const pattern = new Pattern(), mistakes = new Mistakes(file);
  pattern.file = file;
  const lines = sortedLines(text, MOST_PAT_LINES, 'label, node or edge', mistakes, 'a pattern');
  takeLines(lines.get('label'), patLabelLine, pattern, mistakes, standInPatLabel);
  takeLines(lines.get('node'), patNodeLine, pattern, mistakes, standInPatNode);
  takeLines(lines.get('edge'), (line) => pattern.addEdge(...takeEdge(line)), pattern, mistakes);
  if (!lines.get('node').length) mistakes.addIfNone(lines, 'expected a node line: a pattern has at least one node');
  mistakes.tell();
  return pattern;
}
