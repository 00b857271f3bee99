// The cases of tests/formats, which the command's reader is run on too.

import assert from 'node:assert/strict';
import fs from 'node:fs';
import test from 'node:test';
import { WrongText, graphOfText, namesOfText, patternOfText, textOfBytes } from '../bahrufaz.mjs';

const EMPTY_STORE = new Uint8Array(new Uint32Array([1, 0, 0, 0, 0, 0, 48, 48, 48, 48, 48, 48]).buffer);
const hex = (bytes) => Buffer.from(bytes).toString('hex');

function readFeed(text) {
  const graph = graphOfText(text, 't.feed');
  return { draft: hex(graph.draft()), labels: graph.names.labels.items(), nodes: graph.names.nodes.items() };
}

function readPat(text, { graph }) {
  const pattern = patternOfText(text, 't.pat');
  return { pattern: hex(pattern.encode(graph ? graphOfText(graph).names : null)), columns: pattern.nodeNames() };
}

function readNames(text) {
  const names = namesOfText(text, 't.names', EMPTY_STORE);
  return { labels: names.labels.items(), nodes: names.nodes.items() };
}

/** What a case comes to: what is read, or the mistakes with their lines. */
function outcome(read, one) {
  const bytes = one.bytes === undefined ? Buffer.from(one.text) : Buffer.from(one.bytes, 'hex');
  try {
    return read(textOfBytes(new Uint8Array(bytes), 't'), one);
  } catch (error) {
    if (!(error instanceof WrongText)) throw error;
    return { mistakes: error.mistakes.map(({ line, reason }) => [line, reason]) };
  }
}

/** A mistake that ends in '...' is compared up to there. */
function cut(told, wanted) {
  for (const [place, [, reason]] of (wanted.mistakes ?? []).entries()) {
    const one = told.mistakes?.[place];
    if (one && reason.endsWith('...')) one[1] = one[1].slice(0, reason.length - 3) + '...';
  }
  return told;
}

for (const [form, read] of Object.entries({ feed: readFeed, pat: readPat, names: readNames })) {
  const cases = JSON.parse(fs.readFileSync(new URL(`../../tests/formats/${form}.json`, import.meta.url)));
  test(`${form}: ${cases.length} cases`, () => {
    for (const { name, text, bytes, graph, ...wanted } of cases)
      assert.deepEqual(cut(outcome(read, { text, bytes, graph }), wanted), wanted, name);
  });
}

test('a pattern written as text is read as the same pattern', () => {
  const cases = JSON.parse(fs.readFileSync(new URL('../../tests/formats/pat.json', import.meta.url)));
  for (const { text, graph, pattern } of cases.filter((one) => one.pattern)) {
    const again = patternOfText(patternOfText(text).text());
    assert.equal(hex(again.encode(graph ? graphOfText(graph).names : null)), pattern, text);
  }
});
