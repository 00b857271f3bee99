// What is known of a drawing before anything is read: the library's plan, or why there is none.

import { Wrong, draftBytes } from '../js/bahrufaz.mjs';
import { NOT_IN_KEY, OTHER_UNCOVERED, coverOf, explain, multiplying } from '../js/unproved.mjs';

/** A store of the constraints alone: the plan comes from them and the pattern, whatever the graph. */
export const constraintsAlone = (constraints) => draftBytes([], [], constraints);

/** kind: 'empty', 'wrong', 'planned', 'uncovered', 'above' or 'refused', each with what it has to show. */
export function judge(library, world, drawing) {
  if (!drawing.state.nodes.length) return { kind: 'empty' };
  let pattern, bytes;
  try {
    pattern = drawing.pattern();
    bytes = pattern.encode(world.names);
  } catch (error) {
    if (!(error instanceof Wrong)) throw error;
    return { kind: 'wrong', reason: error.message };
  }
  const planned = library.plan(world.constraintsAlone, bytes);
  const numbered = {
    nodes: pattern.nodes.map(({ label }) => ({ label: pattern.labelNumber(label, world.names) })),
    edges: pattern.edgeList(),
  };
  return { ...judged(planned, numbered, world), pattern, bytes };
}

function judged(planned, numbered, world) {
  if (planned.answer === 0) return { kind: 'planned', bound: planned.bound, rows: planned.rows };
  if (planned.answer !== 7 && planned.answer !== 8) return { kind: 'refused', refused: planned };
  const cover = coverOf(numbered, world.constraints);
  if (planned.answer === 8) return { kind: 'above', refused: planned, ...cover, multiplying: multiplying(cover, world.constraints) };
  return { kind: 'uncovered', refused: planned, ...cover, reasons: explain(numbered, world.constraints) };
}

/** What is not covered, each with what would cover it, as sentences. */
export function remedies(judgement, world) {
  const { pattern, reasons } = judgement;
  const things = new Map();
  for (const row of reasons) {
    const key = `${row.kind} ${row.number}`;
    if (!things.has(key)) things.set(key, { kind: row.kind, number: row.number, sentences: [] });
    things.get(key).sentences.push(sentenceOf(row, judgement, world));
  }
  for (const thing of things.values()) {
    thing.title = titleOf(pattern, thing);
    thing.sentences = [...new Set(thing.sentences)];
  }
  return [...things.values()];
}

export function titleOf(pattern, { kind, number }) {
  if (kind === 'node') return `node ${pattern.names.spelled(number)}`;
  return `edge ${pattern.edgeList()[number].map((node) => pattern.names.spelled(node)).join(' → ')}`;
}

function sentenceOf(row, judgement, world) {
  const { pattern } = judgement;
  const label = (node) => world.names.labels.spelled(pattern.labelNumber(pattern.nodes[node].label, world.names));
  if (row.constraint === null)
    return `No constraint fetches ${label(row.end)}. One such as “${wanted(row, judgement, label)}” would.`;
  const constraint = `“${world.names.constraint(world.constraints[row.constraint])}”`;
  if (row.kind === 'node')
    return `${constraint} would, from a covered ${world.names.labels.spelled(row.missing)} that it is joined with.`;
  return edgeSentence(row, judgement, label, constraint, world);
}

/** A constraint that would do: from a covered neighbour where there is one, else from nothing. */
function wanted({ kind, number, end }, { pattern, uncoveredNodes }, label) {
  const edges = pattern.edgeList();
  const near = kind === 'edge' ? edges[number] : edges.filter((edge) => edge.includes(end)).flat();
  const from = near.find((node) => node !== end && (kind === 'edge' || !uncoveredNodes.includes(node)));
  return `${from === undefined ? '' : `${label(from)} `}-> ${label(end)} at most N`;
}

function edgeSentence({ number, end, reason, missing }, { pattern }, label, constraint, world) {
  const other = pattern.edgeList()[number].find((node) => node !== end);
  if (reason === NOT_IN_KEY)
    return `${constraint} does not start from ${label(other)}. One from ${label(other)} to ${label(end)} would cover it.`;
  if (reason === OTHER_UNCOVERED) return `${constraint} would, once ${pattern.names.spelled(other)} is covered.`;
  const joined = `that ${pattern.names.spelled(end)} is joined with`;
  return `${constraint} would, from a covered ${world.names.labels.spelled(missing)} ${joined}.`;
}
