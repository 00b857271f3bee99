// The story of a list that was too short, told over its two patterns.

import { counted } from './words.mjs';
import { find, h, replace } from './dom.mjs';

/** The names in one column of a list. */
function columnOf({ columns, rows }, name) {
  return new Set(rows.map((row) => row[columns.indexOf(name)]));
}

export function showStory(board) {
  const { story } = board.builtIn ?? {}, element = find('story');
  element.hidden = !story;
  if (!story) return;
  const [older, newer] = [story.older, story.newer].map((place) => board.drawings[place]);
  const compare = async () => {
    for (const drawing of [older, newer]) await board.list(drawing);
  };
  replace(
    element,
    h('p', {}, story.told),
    older?.listing && newer?.listing
      ? h('p', { id: 'missing' }, difference(older, newer, story.column))
      : h('p', { class: 'row' }, h('button', { id: 'compare', 'data-key': 'compare', onclick: compare }, 'Compare the two lists')),
  );
}

function difference(older, newer, column) {
  const [had, have] = [older, newer].map(({ listing }) => columnOf(listing, column));
  const missing = [...have].filter((name) => !had.has(name));
  const told = `${older.title} has ${counted(had.size, column, `${column}s`)}, ${newer.title} has ${have.size}.`;
  return missing.length ? `${told} Missing from the old list: ${missing.join(', ')}.` : `${told} None is missing.`;
}
