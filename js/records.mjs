// Stores, drafts and patterns as bytes: records and their places, as the exact rules have them.

export const MAX_NODES = 65_535;
export const MAX_EDGES = 262_144;
export const MAX_CONSTRAINTS = 32;
export const MAX_LABEL = 65_535;
export const MAX_N = 65_535;
export const MIN_VALUE = -(2 ** 31);
export const MAX_VALUE = 2 ** 31 - 1;
export const MAX_KEY_LABELS = 3;
export const MAX_PATTERN_NODES = 8;
export const MAX_PATTERN_EDGES = 56;
export const MAX_CONDITIONS = 2;
export const OPERATORS = ['=', '<', '>', '<=', '>=']; // codes 1 to 5; 0 is none
const NO_NODE = 0xffff_ffff; // an unused id of a group
const HEADER_BYTES = 48;
const RECORD_BYTES = [8, 8, 12, 24, 8]; // node, edge, constraint, group, entry
const PATTERN_HEADER_BYTES = 24;
const PATTERN_NODE_BYTES = 16;

/** Bytes written one little-endian number after another. */
class Writer {
  constructor(length) {
    this.bytes = new Uint8Array(length);
    this.view = new DataView(this.bytes.buffer);
    this.at = 0;
  }

  put(size, numbers) {
    for (const number of numbers) {
      if (size === 1) this.view.setUint8(this.at, number);
      else if (size === 2) this.view.setUint16(this.at, number, true);
      else this.view.setUint32(this.at, number, true); // a negative number is written as the word it is
      this.at += size;
    }
  }
}

/** The header words that these counts of records force. */
function headerOf(counts) {
  const ends = [HEADER_BYTES];
  counts.forEach((count, section) => ends.push(ends[section] + count * RECORD_BYTES[section]));
  return [1, ...counts, ...ends];
}

export const byEnds = ([a, b], [c, d]) => a - c || b - d;

/** The draft of nodes {label, value}, edges [from, to] in any order, and constraints {keyLabels, label, most}. */
export function draftBytes(nodes, edges, constraints) {
  const header = headerOf([nodes.length, edges.length, constraints.length, 0, 0]);
  const writer = new Writer(header.at(-1));
  writer.put(4, header);
  for (const { label, value } of nodes) {
    writer.put(2, [label, 0]);
    writer.put(4, [value]);
  }
  for (const edge of [...edges].sort(byEnds)) writer.put(4, edge);
  for (const { keyLabels, label, most } of constraints) {
    writer.put(2, [...keyLabels, 0, 0, 0].slice(0, MAX_KEY_LABELS));
    writer.put(2, [label]);
    writer.put(4, [most]);
  }
  return writer.bytes;
}

const viewOf = (bytes) => new DataView(bytes.buffer, bytes.byteOffset, bytes.byteLength);

/** The counts of a store whose header is right. */
export function countsOf(store) {
  const view = viewOf(store);
  const [nodes, edges, constraints, groups, entries] = [1, 2, 3, 4, 5].map((word) => view.getUint32(4 * word, true));
  return { nodes, edges, constraints, groups, entries };
}

/** The records of one section (0 nodes to 4 entries) of a store whose header is right, each made by a function of view and place. */
function sectionOf(store, section, make) {
  const view = viewOf(store);
  const count = view.getUint32(4 * (1 + section), true), start = view.getUint32(4 * (6 + section), true);
  return Array.from({ length: count }, (_, place) => make(view, start + place * RECORD_BYTES[section]));
}

export function nodesOf(store) {
  return sectionOf(store, 0, (view, at) => ({ label: view.getUint16(at, true), value: view.getInt32(at + 4, true) }));
}

export function edgesOf(store) {
  return sectionOf(store, 1, (view, at) => [view.getUint32(at, true), view.getUint32(at + 4, true)]);
}

export function constraintsOf(store) {
  return sectionOf(store, 2, (view, at) => ({
    keyLabels: [0, 2, 4].map((place) => view.getUint16(at + place, true)).filter((label) => label),
    label: view.getUint16(at + 6, true),
    most: view.getUint32(at + 8, true),
  }));
}

/** Keys with their lists: constraint, key, and how long the list is. */
export function groupsOf(store) {
  return sectionOf(store, 3, (view, at) => ({
    constraint: view.getUint32(at, true),
    key: [4, 8, 12].map((place) => view.getUint32(at + place, true)).filter((id) => id !== NO_NODE),
    count: view.getUint32(at + 20, true),
  }));
}

/** A pattern of nodes {label, conditions} and edges in any order. */
export function patternBytes(nodes, edges) {
  const atEdges = PATTERN_HEADER_BYTES + PATTERN_NODE_BYTES * nodes.length;
  const writer = new Writer(atEdges + 2 * edges.length);
  writer.put(4, [1, nodes.length, edges.length, PATTERN_HEADER_BYTES, atEdges, atEdges + 2 * edges.length]);
  for (const { label, conditions } of nodes) {
    writer.put(2, [label]);
    writer.put(1, [0, 1].map((place) => OPERATORS.indexOf(conditions[place]?.operator) + 1));
    writer.put(4, [0, 1].map((place) => conditions[place]?.constant ?? 0));
    writer.put(4, [0]);
  }
  for (const edge of [...edges].sort(byEnds)) writer.put(1, edge);
  return writer.bytes;
}
