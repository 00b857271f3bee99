// The numbers given back, each with its sentence and with what to do about it.

export const ANSWERED = 0;

const SENTENCES = {
  1: 'header, count limit, offset or length wrong',
  2: 'a node or edge record breaks its rule',
  3: 'a constraint breaks its rule',
  4: 'a list of the graph exceeds its N',
  5: 'a list read is unfit',
  6: 'pattern breaks its rules',
  7: 'a pattern node or edge is not covered',
  8: 'T above 65,536',
  9: 'working room below 2T words',
  10: 'room for result too short',
  11: 'built index needs too many groups or entries',
};

// where a number says something else for one call
const OF_CALL = {
  'build 1': 'header, count limit, offset or length wrong; also g or e not 0',
  'admit 5': 'index differs from the one built, or building would answer 11',
};

const ADVICE = {
  1: 'these bytes are no store: build one from its .feed file',
  2: 'the node or edge section is damaged: build the store again from its .feed file',
  3: 'the constraint section is damaged: build the store again from its .feed file',
  4: 'raise that N, or find out why the graph has more than was promised',
  5: 'the index does not belong to the graph: build the store again from its .feed file',
  6: 'write the pattern as a .pat file: its errors name the line',
  7: 'give the graph a constraint that reaches it from covered nodes',
  8: 'figures multiply along the plan: give a smaller N, or a smaller pattern',
  9: "lend the working room that the plan's bound asks for",
  10: 'lend a larger room, or narrow the pattern by conditions',
  11: 'an index has at most 262,144 groups and 1,048,576 entries: leave out a constraint with many keys',
};

/** A refusal as an object: its number, what it says when this call gives it, and what to do. */
export function refusal(call, answer) {
  const sentence = OF_CALL[`${call} ${answer}`] ?? SENTENCES[answer] ?? 'no such number is known';
  return { answer, call, sentence, advice: ADVICE[answer] ?? '' };
}
