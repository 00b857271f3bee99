// The explanations that no proof is given for: compared with the library's plan wherever it has one.

import assert from 'node:assert/strict';
import fs from 'node:fs';
import test from 'node:test';
import { Library, draftBytes, patternBytes } from '../bahrufaz.mjs';
import { NOT_IN_KEY, OTHER_LABEL, OTHER_UNCOVERED, coverOf, explain, multiplying } from '../unproved.mjs';

const library = await Library.load(fs.readFileSync(new URL('../../target/wasm/bahrufaz.wasm', import.meta.url)));
const rule = (keyLabels, label, most = 1) => ({ keyLabels, label, most });
const nodes = (...labels) => labels.map((label) => ({ label, conditions: [] }));

/** Numbers below a limit, the same in every run. */
function* drawn(seed) {
  for (let state = seed * 2 + 1; ; ) {
    state = (Math.imul(state, 1_664_525) + 1_013_904_223) >>> 0;
    yield state >>> 8;
  }
}

function randomCase(seed) {
  const numbers = drawn(seed), below = (limit) => numbers.next().value % limit;
  const pattern = { nodes: nodes(...Array.from({ length: 1 + below(5) }, () => 1 + below(3))), edges: [] };
  pattern.nodes.forEach((_, from) => {
    for (let to = 0; to < pattern.nodes.length; to++) if (from !== to && below(3) === 0) pattern.edges.push([from, to]);
  });
  const constraints = [];
  for (const key of [[], [1], [2], [3], [1, 2], [2, 3], [1, 2, 3]])
    for (const label of [1, 2, 3]) if (below(3) === 0) constraints.push(rule(key, label, 1 + below(below(8) ? 5 : 60_000)));
  return { pattern, constraints };
}

test('the cover is the plan wherever the library has one, and refused where it is', () => {
  const told = [0, 0, 0];
  for (let seed = 0; seed < 3_000; seed++) {
    const { pattern, constraints } = randomCase(seed);
    const planned = library.plan(draftBytes([], [], constraints), patternBytes(pattern.nodes, pattern.edges));
    const cover = coverOf(pattern, constraints);
    const uncovered = cover.uncoveredNodes.length + cover.uncoveredEdges.length;
    assert.equal(planned.answer, uncovered ? 7 : cover.bound > 65_536n ? 8 : 0, `seed ${seed}`);
    told[planned.answer && planned.answer - 6] += 1;
    if (planned.answer === 0) {
      assert.equal(BigInt(planned.bound), cover.bound);
      assert.deepEqual(planned.rows.map((row) => ({ ...row, figure: BigInt(row.figure) })), cover.rows);
    }
    assert.equal(explain(pattern, constraints).length > 0, planned.answer === 7);
  }
  assert.ok(told.every((count) => count > 50), String(told));
});

test('an uncovered node has a reason for each constraint of its label', () => {
  const pattern = { nodes: nodes(1, 2), edges: [[0, 1]] };
  assert.deepEqual(explain(pattern, [rule([], 1), rule([1, 3], 2), rule([3], 2)]), [
    { kind: 'node', number: 1, end: 1, constraint: 1, missing: 3 },
    { kind: 'node', number: 1, end: 1, constraint: 2, missing: 3 },
    { kind: 'edge', number: 0, end: 0, constraint: 0, reason: NOT_IN_KEY },
    { kind: 'edge', number: 0, end: 1, constraint: 1, reason: OTHER_LABEL, missing: 3 },
    { kind: 'edge', number: 0, end: 1, constraint: 2, reason: NOT_IN_KEY },
  ]);
  const none = explain(pattern, [rule([2], 1)]);
  assert.deepEqual(none[1], { kind: 'node', number: 1, end: 1, constraint: null });
  assert.deepEqual(none[2], { kind: 'edge', number: 0, end: 0, constraint: 0, reason: OTHER_UNCOVERED });
});

test('the step that multiplies is that of the largest N in the largest figure', () => {
  const constraints = [rule([], 1, 4), rule([1], 2, 900), rule([2], 3, 50)];
  const cover = coverOf({ nodes: nodes(1, 2, 3), edges: [[0, 1], [1, 2]] }, constraints);
  const { largest, steps, widest } = multiplying(cover, constraints);
  assert.deepEqual([largest.number, largest.figure], [2, 180_000n]);
  assert.deepEqual(steps.map(({ number }) => number), [0, 1, 2]);
  assert.equal(widest.number, 1);
});
