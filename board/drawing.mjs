// A pattern as it is drawn: nodes with places, edges, and every state before this one.

import { Pattern, patternOfText } from '../js/bahrufaz.mjs';
import { placesFor } from './layout.mjs';

export const MOST_NODES = 8;
const PLACES = /^# drawn at ((?:\d+,\d+ ?)+)$/m;
const copy = (state) => structuredClone(state);

export class Drawing {
  /** state: question, nodes {name, label, conditions, x, y}, edges [from, to]. */
  constructor(title, state = { question: '', nodes: [], edges: [] }) {
    Object.assign(this, { title, state, past: [], future: [], own: false, done: false });
    this.forgetList();
    this.placed = true; // whether somebody has drawn it: if not, places follow the shape of the board
  }

  /** A list belongs to the drawing as it was: listed is the library's answer, listing what is shown of it. */
  forgetList() {
    Object.assign(this, { listed: null, listing: null });
  }

  /** Makes a change that can be undone; changes of one tag in a row are one. */
  change(edit, tag = null) {
    const next = copy(this.state);
    edit(next);
    if (!tag || tag !== this.tag) this.past.push(this.state);
    Object.assign(this, { state: next, future: [], tag, own: true });
    this.forgetList();
  }

  undo() {
    this.step(this.past, this.future);
  }

  redo() {
    this.step(this.future, this.past);
  }

  /** Goes to the last state of one pile, and lays this one on the other. */
  step(from, to) {
    if (!from.length) return;
    to.push(this.state);
    Object.assign(this, { state: from.pop(), tag: null });
    this.forgetList();
  }

  /** A name that no node has yet, from the name of a label. */
  freshName(base) {
    const names = new Set(this.state.nodes.map(({ name }) => name));
    for (let number = 1; ; number++) {
      const name = number === 1 ? base : `${base}${number}`;
      if (!names.has(name)) return name;
    }
  }

  addNode(label, base, place) {
    const name = this.freshName(base);
    this.change(({ nodes }) => nodes.push({ name, label, conditions: [], ...place }));
    return this.state.nodes.length - 1;
  }

  removeNode(number) {
    this.change((state) => {
      const moved = (node) => (node > number ? node - 1 : node);
      state.nodes.splice(number, 1);
      state.edges = state.edges.filter((edge) => !edge.includes(number)).map((edge) => edge.map(moved));
    });
  }

  hasEdge(from, to) {
    return this.state.edges.some(([a, b]) => a === from && b === to);
  }

  addEdge(from, to) {
    if (from === to || this.hasEdge(from, to)) return false;
    this.change(({ edges }) => edges.push([from, to]));
    return true;
  }

  removeEdge(number) {
    this.change(({ edges }) => edges.splice(number, 1));
  }

  turnEdge(number) {
    const [from, to] = this.state.edges[number];
    if (this.hasEdge(to, from)) return;
    this.change(({ edges }) => (edges[number] = [to, from]));
  }

  move(number, place, tag = null) {
    this.placed = true;
    this.change(({ nodes }) => Object.assign(nodes[number], place), tag);
  }

  /** Lays the nodes out afresh; nothing but places changes, so this is no step to be undone where nobody drew. */
  arrange(frame) {
    const places = placesFor(this.state.nodes.length, this.state.edges, frame);
    const put = ({ nodes }) => nodes.forEach((node, number) => Object.assign(node, places[number]));
    if (this.placed) this.change(put);
    else put(this.state);
  }

  pattern() {
    const pattern = new Pattern();
    for (const { name, label, conditions } of this.state.nodes) pattern.addNode(name, label, conditions);
    for (const edge of this.state.edges) pattern.addEdge(...edge);
    return pattern;
  }

  /** The place among the edges in pattern order of each edge as drawn. */
  edgeOrder() {
    const sorted = this.pattern().edgeList();
    return this.state.edges.map(([a, b]) => sorted.findIndex(([c, d]) => a === c && b === d));
  }

  /** The .pat text, with the question and the places as comments. */
  text() {
    const question = this.state.question.split('\n').filter(Boolean).map((line) => `# ${line}\n`).join('');
    const places = this.state.nodes.map(({ x, y }) => `${Math.round(1000 * x)},${Math.round(1000 * y)}`).join(' ');
    return `${question}${question && '\n'}${this.pattern().text()}\n# drawn at ${places}\n`;
  }

  /** The drawing of a .pat text. */
  static ofText(text, title, file) {
    const pattern = patternOfText(text, file);
    const drawing = new Drawing(title, {
      question: questionOf(text),
      nodes: pattern.nodes.map(({ label, conditions }, number) => ({
        name: pattern.names.name(number),
        label: ownLabel(pattern, label),
        conditions,
        x: 0.5,
        y: 0.5,
      })),
      edges: pattern.edgeList(),
    });
    drawing.takePlaces(text);
    return drawing;
  }

  takePlaces(text) {
    const places = PLACES.exec(text)?.[1].trim().split(' ').map((place) => place.split(',').map((part) => Math.min(1, part / 1000)));
    this.placed = places?.length === this.state.nodes.length;
    if (this.placed) this.state.nodes.forEach((node, number) => ([node.x, node.y] = places[number]));
  }
}

/** A label that the pattern itself gives a number is that number. */
function ownLabel(pattern, label) {
  return typeof label === 'string' && pattern.labels.has(label) ? pattern.labels.number(label) : label;
}

/** The comment lines before the first line that says something. */
function questionOf(text) {
  const lines = text.split(/\r?\n/);
  const first = lines.findIndex((line) => line.trim() && !line.trim().startsWith('#'));
  const head = lines.slice(0, Math.max(0, first)).map((line) => line.trim().replace(/^#\s*/, ''));
  return head.filter((line) => line && !line.startsWith('drawn at ')).join('\n');
}
