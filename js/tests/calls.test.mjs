// The calls: the small world, refusals, rooms of the caller's own.

import assert from 'node:assert/strict';
import fs from 'node:fs';
import test from 'node:test';
import { Library, constraintsOf, countsOf, draftBytes, matchesOf, patternBytes } from '../bahrufaz.mjs';
import { graphOfText, namesOfText, patternOfText } from '../bahrufaz.mjs';
import { sha256 } from '../sha256.mjs';

const read = (path) => fs.readFileSync(new URL(`../../${path}`, import.meta.url));
const library = await Library.load(read('target/wasm/bahrufaz.wasm'));
const graph = graphOfText(read('examples/small/world.feed').toString());
const { store } = graph.build(library);
const a = patternOfText(read('examples/small/a.pat').toString()).encode(graph.names);
const locale = (conditions = []) => patternBytes([{ label: 1, conditions }], []);
const pairs = (n, m) => draftBytes([], [], [{ keyLabels: [], label: 1, most: n }, { keyLabels: [], label: 2, most: m }]);
const unjoined = patternBytes([{ label: 1, conditions: [] }, { label: 2, conditions: [] }], []);

test('the small world is built as the rules say, and admitted', () => {
  assert.equal(graph.draft().length, 200);
  assert.equal(store.length, 432);
  assert.deepEqual(countsOf(store), { nodes: 7, edges: 6, constraints: 4, groups: 7, entries: 8 });
  assert.deepEqual([...new Uint32Array(store.slice(24, 48).buffer)], [48, 104, 152, 200, 368, 432]);
  assert.deepEqual(library.admit(store), { answer: 0 });
});

test('pattern A is planned and listed', () => {
  const planned = library.plan(store, a);
  assert.equal(planned.bound, 38);
  assert.deepEqual(planned.rows.map(({ figure }) => figure), [2, 2, 8, 8, 2, 8, 8]);
  assert.deepEqual(planned.rows[1], { kind: 'node', number: 1, fetched: 1, constraint: 1, chosen: [0], figure: 2 });
  const listed = library.list(store, a);
  const { matches, nodeEntries, edgeEntries, bound } = listed;
  assert.deepEqual([matches, nodeEntries, edgeEntries, bound], [1, 5, 3, 38]);
  assert.deepEqual([...matchesOf(listed)].map((row) => [...row]), [[1, 3, 5, 4]]);
});

test('one locale node has two rows, and none where its conditions clash', () => {
  assert.deepEqual([...library.list(store, locale()).words], [0, 1]);
  const clash = [{ operator: '>', constant: 1 }, { operator: '<', constant: 2 }];
  const { matches, nodeEntries, edgeEntries, bound } = library.list(store, locale(clash));
  assert.deepEqual([matches, nodeEntries, edgeEntries, bound], [0, 2, 0, 2]);
});

test('refusals have number, sentence and advice', () => {
  const changed = (at, byte) => Uint8Array.from(store, (had, place) => (place === at ? byte : had));
  for (const [told, answer, sentence] of [
    [library.build(store), 1, 'header, count limit, offset or length wrong; also g or e not 0'],
    [library.admit(new Uint8Array(0)), 1, 'header, count limit, offset or length wrong'],
    [library.admit(changed(48, 0)), 2, 'a node or edge record breaks its rule'],
    [library.plan(changed(160, 0), a), 3, 'a constraint breaks its rule'],
    [library.admit(changed(431, 1)), 5, 'index differs from the one built, or building would answer 11'],
    [library.list(changed(372, 9), a), 5, 'a list read is unfit'],
    [library.plan(store, new Uint8Array(3)), 6, 'pattern breaks its rules'],
    [library.list(store, unjoined), 7, 'a pattern node or edge is not covered'],
    [library.plan(pairs(32_768, 32_769), unjoined), 8, 'T above 65,536'],
    [library.list(store, a, { mostWords: 3 }), 10, 'room for result too short'],
  ]) {
    assert.deepEqual([told.answer, told.sentence], [answer, sentence]);
    assert.notEqual(told.advice, '');
  }
  assert.equal(library.plan(pairs(32_768, 32_768), unjoined).bound, 65_536);
});

test('a list that is too long is named', () => {
  const more = graphOfText(`${read('examples/small/world.feed')}\nedge english -> comma\n`);
  const { answer, detail } = more.build(library);
  assert.equal(answer, 4);
  assert.deepEqual(detail, ['locale -> format at most 1: the list of english has 2']);
});

test('rooms of the caller are left as the rules say', () => {
  const work = new Uint32Array(80).fill(7), room = new Uint32Array(6).fill(9);
  const { answer, results } = library.listInto(store, a, work, room);
  assert.equal(answer, 0);
  assert.deepEqual([...results], [1, 5, 3, 38, 0, 0, 0, 0]);
  assert.deepEqual([...work], [...Array(76).fill(0), 7, 7, 7, 7]);
  assert.deepEqual([...room], [1, 3, 5, 4, 9, 9]);
  assert.equal(library.listInto(store, a, new Uint32Array(75), room).answer, 9);
  assert.equal(library.listInto(store, a, work, new Uint32Array(3)).answer, 10);
  const short = new Uint8Array(431).fill(5);
  assert.deepEqual([library.buildInto(graph.draft(), short).answer, new Set(short).size], [10, 1]);
});

test('a room for matches grows as it must', () => {
  const nodes = Array.from({ length: 300 }, (_, n) => `node n${n} x\n`).join('');
  const big = graphOfText(`label x\n${nodes}constraint -> x at most 300\n`);
  const two = patternBytes([{ label: 1, conditions: [] }, { label: 1, conditions: [] }], []);
  const listed = library.list(big.build(library).store, two);
  assert.equal(listed.matches, 300 * 299);
  assert.equal(listed.words.length, 2 * 300 * 299);
  assert.deepEqual([...listed.words.subarray(0, 4)], [0, 1, 0, 2]);
});

test('names belong to one store', () => {
  const text = `store sha256 ${sha256(store)}\nlabel locale 1\nnode german 1\n`;
  assert.equal(namesOfText(text, 'w.names', store).nodes.name(1), 'german');
  assert.throws(() => namesOfText(text, 'w.names', graph.draft()), /w.names:1: these are the names of another store/);
});

test('constraints are read back from a store', () => {
  assert.deepEqual(constraintsOf(store), graph.constraints);
});
