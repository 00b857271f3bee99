// Opens a world from its files: what a worker does, off the page's own thread.

import { Names, constraintsOf, countsOf, graphOfText, namesOfText, nodesOf, textOfBytes } from '../js/bahrufaz.mjs';

const STEPS = 3;
const suffixed = (files, suffix) => files.find(({ name }) => name.endsWith(suffix));

/** The world of a .feed text: built, then admitted like any other store. */
function openFeed(library, { name, bytes }, tell) {
  tell({ step: 'reading the text', done: 0, of: STEPS });
  const graph = graphOfText(textOfBytes(bytes, name), name);
  tell({ step: 'building the store', done: 1, of: STEPS });
  const built = graph.build(library);
  return built.answer ? { refused: built } : admitted(library, built.store, () => graph.names, tell);
}

/** The world of a store's bytes, with names if they were opened with it. */
function openStore(library, { bytes }, beside, tell) {
  const names = () => (beside ? namesOfText(textOfBytes(beside.bytes, beside.name), beside.name, bytes) : new Names());
  return admitted(library, bytes, names, tell);
}

/** Admits a store; only then are its records and names looked at. */
function admitted(library, store, names, tell) {
  tell({ step: 'admitting the store', done: 2, of: STEPS });
  const told = library.admit(store);
  if (told.answer) return { refused: told };
  const known = names();
  return {
    store,
    counts: countsOf(store),
    constraints: constraintsOf(store),
    names: { labels: known.labels.items(), nodes: known.nodes.items() },
    labelCounts: [...labelCounts(store)],
  };
}

/** How many nodes bear each label. */
function labelCounts(store) {
  const counts = new Map();
  for (const { label } of nodesOf(store)) counts.set(label, (counts.get(label) ?? 0) + 1);
  return counts;
}

/** The world of these files: a .feed, or a .store with its .names where they are given. */
export function openWorld(library, files, tell) {
  const feed = suffixed(files, '.feed'), names = suffixed(files, '.names');
  const store = files.find((file) => file !== feed && file !== names);
  if (feed) return openFeed(library, feed, tell);
  if (store) return openStore(library, store, names, tell);
  throw new Error('names alone are no world: open the .store file with them');
}
