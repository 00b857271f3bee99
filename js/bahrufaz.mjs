// Bahrufaz: matches of a pattern in a graph store, from the part of the store that its plan names.
//
//   const library = await Library.load(bytesOfTheWasmFile);
//   const graph = graphOfText(feed), built = graph.build(library);
//   const pattern = patternOfText(pat).encode(graph.names);
//   const planned = library.plan(built.store, pattern);   // { answer: 0, bound: 38, rows: [..] }
//   for (const row of matchesOf(library.list(built.store, pattern))) ..
//
// Every answer is an object; answer is the number, 0 where it is answered. A refusal has sentence and advice.

export { Library, matchesOf } from './library.mjs';
export { refusal } from './numbers.mjs';
export { Graph, graphOfText } from './graph.mjs';
export { Pattern, conditionsText, patternOfText } from './pattern.mjs';
export { Names, Naming, namesOfText } from './names.mjs';
export { Wrong, WrongText, grouped, textOfBytes } from './text.mjs';
export { MAX_VALUE, MIN_VALUE, constraintsOf, countsOf, draftBytes, edgesOf, nodesOf, patternBytes } from './records.mjs';
