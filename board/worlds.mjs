// The worlds that are built in.

const PANEL = 'examples/panel/world.feed';
const CHECKLIST = [
  '1-comma-fields',
  '2-german-weights',
  '3-year-first',
  '4-long-captions',
  '5-long-own-captions',
  '6-two-percentages',
  '7-behind-a-screen',
  '8-all-captions',
].map((name) => `examples/panel/checklist/${name}.pat`);

export const WORLDS = [
  { id: 'small', title: 'The small world', feed: 'examples/small/world.feed', patterns: ['examples/small/a.pat'] },
  { id: 'panel', title: 'A feed panel', feed: PANEL, patterns: CHECKLIST },
  {
    id: 'weight',
    title: 'The weight field',
    feed: PANEL,
    patterns: ['examples/weight/old-list.pat', CHECKLIST[0], CHECKLIST[6]],
    story: {
      told:
        'A farmer typed two and a half as one does in Germany: 2,5. The panel recorded 25 kg: the weight field was not on ' +
        'the list of the comma rule. That list was made by walking the menu. Its pattern is answered, and the answer is ' +
        'complete for what is asked; but it asks for fields behind the menu, and the weighing screen does not open from ' +
        'there. The bound vouches for the pattern asked and for nothing else. So ask both, and look at the difference.',
      older: 0,
      newer: 1,
      column: 'field',
    },
  },
];

/** Every file that a built-in world needs, once. */
export const WORLD_FILES = [...new Set(WORLDS.flatMap(({ feed, patterns }) => [feed, ...patterns]))];
