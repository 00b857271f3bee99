/** A call gave back a number other than 0. */
export interface Refusal {
  answer: 1 | 2 | 3 | 4 | 5 | 6 | 7 | 8 | 9 | 10 | 11;
  call: 'build' | 'admit' | 'plan' | 'list';
  sentence: string;
  advice: string;
  /** Building with 4: the lists that exceed their N, in words. */
  detail?: string[];
}

export interface Built {
  answer: 0;
  store: Uint8Array;
}

export interface Admitted {
  answer: 0;
}

/** A row of a plan; nodes are pattern nodes, by number. */
export interface PlanRow {
  kind: 'node' | 'edge';
  number: number;
  fetched: number;
  constraint: number;
  chosen: number[];
  figure: number;
}

export interface Planned {
  answer: 0;
  /** T: listing reads at most so many entries. */
  bound: number;
  rows: PlanRow[];
}

export interface Listed {
  answer: 0;
  matches: number;
  nodeEntries: number;
  edgeEntries: number;
  bound: number;
  /** How many words each match has: a node id for each pattern node. */
  width: number;
  words: Uint32Array;
}

/** What a call on rooms of the caller's own gives back: the number and the 8 results. */
export interface Told {
  answer: number;
  results: Uint32Array;
}

export declare class Library {
  /** Loads bahrufaz.wasm: its bytes, a Response that has them, or a compiled module. */
  static load(source: BufferSource | Response | WebAssembly.Module): Promise<Library>;
  build(draft: Uint8Array): Built | Refusal;
  admit(store: Uint8Array): Admitted | Refusal;
  plan(store: Uint8Array, pattern: Uint8Array): Planned | Refusal;
  /** The room for matches grows up to mostWords, 2^25 where nothing is said. */
  list(store: Uint8Array, pattern: Uint8Array, options?: { mostWords?: number }): Listed | Refusal;
  buildInto(draft: Uint8Array, room: Uint8Array): Told;
  planInto(store: Uint8Array, pattern: Uint8Array, room: Uint32Array): Told;
  listInto(store: Uint8Array, pattern: Uint8Array, work: Uint32Array, room: Uint32Array): Told;
}

/** The matches of a listing, each as node ids in pattern order. */
export declare function matchesOf(listed: Listed): Generator<Uint32Array>;
export declare function refusal(call: Refusal['call'], answer: number): Refusal;

/** What is wrong before any call. */
export declare class Wrong extends Error {}
/** A text that breaks its form. */
export declare class WrongText extends Wrong {
  file: string;
  line: number;
  reason: string;
  /** All that is wrong with the text, in line order; line and reason are those of the first. */
  mistakes: WrongText[];
}

/** Names of numbered things. */
export declare class Naming {
  constructor(what: string);
  add(number: number, name: string): void;
  has(name: string): boolean;
  name(number: number): string;
  spelled(number: number): string;
  number(named: string | number): number;
  items(): [number, string][];
}

export declare class Names {
  labels: Naming;
  nodes: Naming;
  constraint(one: Constraint): string;
}

/** The names of a store, from a .names text. */
export declare function namesOfText(text: string, file: string, store: Uint8Array): Names;

export interface Node {
  label: number;
  value: number;
}

/** S → (l, N). */
export interface Constraint {
  keyLabels: number[];
  label: number;
  most: number;
}

export interface Condition {
  operator: '=' | '<' | '>' | '<=' | '>=';
  constant: number;
}

export type Edge = [number, number];

export declare class Graph {
  names: Names;
  nodes: Node[];
  edges: Edge[];
  constraints: Constraint[];
  addLabel(name: string, number?: number | null): void;
  addNode(name: string | null, label: string | number, value?: number): void;
  addEdge(start: string | number, end: string | number): void;
  addConstraint(key: (string | number)[], label: string | number, most: number): void;
  draft(): Uint8Array;
  build(library: Library): Built | Refusal;
}

/** The graph of a .feed text; throws WrongText. */
export declare function graphOfText(text: string, file?: string): Graph;

export declare class Pattern {
  labels: Naming;
  names: Naming;
  nodes: { label: string | number; conditions: Condition[] }[];
  edges: Edge[];
  addNode(name: string | null, label: string | number, conditions?: Condition[]): void;
  addEdge(start: string | number, end: string | number): void;
  edgeList(): Edge[];
  nodeNames(): string[];
  /** The bytes; names give the numbers of labels that the pattern names. */
  encode(names?: Names | null): Uint8Array;
  text(): string;
}

/** The pattern of a .pat text; throws WrongText. */
export declare function patternOfText(text: string, file?: string): Pattern;
export declare function conditionsText(conditions: Condition[]): string;
/** The text of a file's bytes; throws WrongText where they are no UTF-8. */
export declare function textOfBytes(bytes: Uint8Array, file: string): string;

export declare const MIN_VALUE: number;
export declare const MAX_VALUE: number;

/** A whole number with commas between its thousands. */
export declare function grouped(number: number | bigint): string;

export declare function countsOf(store: Uint8Array): {
  nodes: number;
  edges: number;
  constraints: number;
  groups: number;
  entries: number;
};
export declare function nodesOf(store: Uint8Array): Node[];
export declare function edgesOf(store: Uint8Array): Edge[];
export declare function constraintsOf(store: Uint8Array): Constraint[];
export declare function draftBytes(nodes: Node[], edges: Edge[], constraints: Constraint[]): Uint8Array;
export declare function patternBytes(nodes: { label: number; conditions: Condition[] }[], edges: Edge[]): Uint8Array;
