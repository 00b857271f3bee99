// Several patterns as a checklist: each with its bound, and its matches once it is listed.

import { grouped } from '../js/bahrufaz.mjs';
import { button, find, h, replace } from './dom.mjs';
import { counted } from './words.mjs';

const KNOWN = { empty: 'nothing drawn yet', uncovered: 'not covered', above: 'T above 65,536', wrong: 'a label is missing' };

/** What is known of a pattern in one line. */
function status({ listed }, judgement) {
  if (listed?.answer === 0) return `${counted(listed.matches, 'match', 'matches')}, T ${grouped(listed.bound)}`;
  if (listed) return `refused with ${listed.answer}`;
  return judgement.kind === 'planned' ? `T ${grouped(judgement.bound)}` : KNOWN[judgement.kind] ?? '';
}

function tickBox({ title, done }, place, onchange) {
  return h('input', { type: 'checkbox', checked: done, 'data-key': `tick ${place}`, 'aria-label': `${title} is done`, onchange });
}

/** asks: choose(drawing), tick(drawing). */
export function showChecklist(drawings, current, judgements, asks) {
  const line = (drawing, place) => {
    const judgement = judgements.get(drawing), isCurrent = drawing === current;
    const isRed = drawing.listed ? drawing.listed.answer !== 0 : !['planned', 'empty'].includes(judgement.kind);
    const more = { 'aria-current': isCurrent ? 'true' : null, title: drawing.state.question };
    const chooser = button(`choose ${place}`, drawing.title, () => asks.choose(drawing), more);
    chooser.append(h('small', { class: isRed ? 'red' : '' }, status(drawing, judgement)));
    const kind = `${isCurrent ? 'current' : ''} ${drawing.done ? 'done' : ''}`;
    return h('li', { class: kind }, tickBox(drawing, place, () => asks.tick(drawing)), chooser);
  };
  replace(find('patterns'), drawings.map(line));
}
