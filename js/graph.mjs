// A graph with its constraints: made in code, or read from a .feed text.

import { Mistakes, meant, sortedLines, takeEdge, takeLabelName, takeLines, takeNodeName } from './lines.mjs';
import { Names } from './names.mjs';
import {
  MAX_CONSTRAINTS,
  MAX_EDGES,
  MAX_KEY_LABELS,
  MAX_LABEL,
  MAX_N,
  MAX_NODES,
  MAX_VALUE,
  MIN_VALUE,
  draftBytes,
  groupsOf,
} from './records.mjs';
import { Wrong, grouped, spelled, within } from './text.mjs';

const sameLabels = (one, other) => one.label === other.label && String(one.keyLabels) === String(other.keyLabels);

/** Nodes, edges and constraints, with names. Labels and nodes may be given by name or by number. */
export class Graph {
  constructor() {
    this.names = new Names();
    this.nodes = [];
    this.edges = [];
    this.constraints = [];
    this.lastLabel = 0;
    this.joined = new Set(); // the edges, each as one number
  }

  /** Names a label; without a number it takes the one after the label added before. */
  addLabel(name, number = null) {
    const wanted = within('the number of a label', number ?? this.lastLabel + 1, 1, MAX_LABEL);
    this.names.labels.add(wanted, name);
    this.lastLabel = wanted;
  }

  label(label) {
    return within('the number of a label', this.names.labels.number(label), 1, MAX_LABEL);
  }

  node(node) {
    const number = this.names.nodes.number(node);
    if (number < 0 || number >= this.nodes.length)
      throw new Wrong(`no node has the id ${number}: there are ${this.nodes.length} nodes, from id 0`);
    return number;
  }

  /** Adds a node; null leaves it without a name. */
  addNode(name, label, value = 0) {
    const node = { label: this.label(label), value: within('a value', value, MIN_VALUE, MAX_VALUE) };
    if (this.nodes.length === MAX_NODES) throw new Wrong(`a store has at most ${grouped(MAX_NODES)} nodes`);
    if (name !== null) this.names.nodes.add(this.nodes.length, name);
    this.nodes.push(node);
  }

  addEdge(start, end) {
    const edge = [this.node(start), this.node(end)], code = edge[0] * (MAX_NODES + 1) + edge[1];
    const shown = () => edge.map((node) => this.names.nodes.spelled(node)).join(' -> ');
    if (edge[0] === edge[1]) throw new Wrong(`an edge joins two different nodes, and ${shown()} does not`);
    if (this.joined.has(code)) throw new Wrong(`the edge ${shown()} is there already`);
    if (this.edges.length === MAX_EDGES) throw new Wrong(`a store has at most ${grouped(MAX_EDGES)} edges`);
    this.joined.add(code);
    this.edges.push(edge);
  }

  /** S → (l, N): for one node of each key label, at most so many nodes of the label. */
  addConstraint(key, label, most) {
    const keyLabels = key.map((one) => this.label(one)).sort((a, b) => a - b);
    if (keyLabels.length > MAX_KEY_LABELS || new Set(keyLabels).size < keyLabels.length)
      throw new Wrong(`a constraint has at most ${MAX_KEY_LABELS} labels before ->, each once`);
    const one = { keyLabels, label: this.label(label), most: within('N', most, 1, MAX_N) };
    if (this.constraints.some((had) => sameLabels(had, one)))
      throw new Wrong('a constraint between the same labels is there already');
    if (this.constraints.length === MAX_CONSTRAINTS)
      throw new Wrong(`a store has at most ${MAX_CONSTRAINTS} constraints`);
    this.constraints.push(one);
  }

  /** The bytes of the draft: a store without its index. */
  draft() {
    return draftBytes(this.nodes, this.edges, this.constraints);
  }

  /** The store, built by the library; a refusal with 4 has the lists that are too long as its detail. */
  build(library) {
    const built = library.build(this.draft());
    return built.answer === 4 ? { ...built, detail: this.tooLong(library) } : built;
  }

  /** Which lists exceed their N: the longest lists of a build in which every N is the largest. */
  tooLong(library) {
    const widest = this.constraints.map((one) => ({ ...one, most: MAX_N }));
    const built = library.build(draftBytes(this.nodes, this.edges, widest));
    if (built.answer) return []; // with 11: the lists cannot be built at all
    const longest = longestLists(built.store, widest.length);
    return this.constraints.flatMap((one, place) => {
      const { count, key } = longest[place];
      const nodes = key.map((node) => this.names.nodes.spelled(node)).join(', ') || 'the empty key';
      return count > one.most ? [`${this.names.constraint(one)}: the list of ${nodes} has ${count}`] : [];
    });
  }
}

/** For each constraint the first key with its longest list. */
function longestLists(store, constraints) {
  const longest = Array.from({ length: constraints }, () => ({ count: 0, key: [] }));
  for (const group of groupsOf(store)) if (group.count > longest[group.constraint].count) longest[group.constraint] = group;
  return longest;
}

function feedLabelLine(line, graph) {
  const name = takeLabelName(line);
  const number = line.peek() ? line.wholeNumber(`the number of label ${spelled(name)}`, 1, MAX_LABEL) : null;
  line.end();
  graph.addLabel(name, number);
}

function feedNodeLine(line, graph) {
  const name = takeNodeName(line, graph.nodes.length);
  const label = meant(line.take('a label'));
  let value = 0;
  if (line.peek()) {
    line.want('value', '=');
    value = line.wholeNumber('a value', MIN_VALUE, MAX_VALUE);
  }
  line.end();
  graph.addNode(name, label, value);
}

function noNodesLine(line, graph) {
  line.want('nodes');
  line.end();
  if (graph.nodes.length) throw line.error("expected no node line beside 'no nodes'");
}

function feedConstraintLine(line, graph) {
  const key = [];
  if (!line.skip('->')) {
    key.push(meant(line.take('a label or ->')));
    while (line.skip(',')) key.push(meant(line.take('a label')));
    line.want('->');
  }
  const label = meant(line.take('a label'));
  line.want('at', 'most');
  const most = line.wholeNumber('N', 1, MAX_N);
  line.end();
  graph.addConstraint(key, label, most);
}

/** A label of this name and a number that nothing has. */
function standInLabel(name, { names: { labels } }) {
  if (name === '' || labels.has(name)) return;
  let number = MAX_LABEL;
  while (labels.names.has(number)) number -= 1;
  labels.add(number, name);
}

function standInNode(name, graph) {
  graph.addNode(name === '' || graph.names.nodes.has(name) ? null : name, 1);
}

const MOST_FEED_LINES = { label: MAX_LABEL, node: MAX_NODES, no: MAX_NODES, edge: MAX_EDGES, constraint: MAX_CONSTRAINTS };

/** The graph of a .feed text; labels, nodes, edges and constraints may stand in any order. */
export function graphOfText(text, file = 'text') {
  const graph = new Graph(), mistakes = new Mistakes(file);
  const lines = sortedLines(text, MOST_FEED_LINES, 'label, node, edge or constraint', mistakes, 'a store');
  takeLines(lines.get('label'), feedLabelLine, graph, mistakes, standInLabel);
  takeLines(lines.get('node'), feedNodeLine, graph, mistakes, standInNode);
  takeLines(lines.get('no'), noNodesLine, graph, mistakes);
  takeLines(lines.get('edge'), (line) => graph.addEdge(...takeEdge(line)), graph, mistakes);
  takeLines(lines.get('constraint'), feedConstraintLine, graph, mistakes);
  if (!lines.get('node').length && !lines.get('no').length)
    mistakes.addIfNone(lines, "expected a node line: a graph without nodes says so, by the line 'no nodes'");
  mistakes.tell();
  return graph;
}
