// The open world, as the page shows it.

import { Names } from '../js/bahrufaz.mjs';
import { find, h, replace } from './dom.mjs';
import { constraintsAlone } from './figures.mjs';
import { counted } from './words.mjs';

/** A world that was admitted, with its names. */
export class World {
  constructor(title, { store, counts, constraints, names, labelCounts }) {
    Object.assign(this, { title, store, counts, constraints });
    this.names = new Names();
    for (const kind of ['labels', 'nodes']) for (const [number, name] of names[kind]) this.names[kind].add(number, name);
    this.constraintsAlone = constraintsAlone(constraints);
    const bearing = new Map(labelCounts);
    const numbers = [...new Set([...bearing.keys(), ...names.labels.map(([number]) => number)])].sort((a, b) => a - b);
    this.labels = numbers.map((number) => ({ number, name: this.names.labels.name(number), count: bearing.get(number) ?? 0 }));
  }

  /** The number of a label by its name, or undefined. */
  numberOf(label) {
    if (typeof label !== 'string') return label;
    return this.names.labels.has(label) ? this.names.labels.number(label) : undefined;
  }
}

export function showWorld(world) {
  const { nodes, edges, constraints } = world.counts;
  const told = [[nodes, 'node'], [edges, 'edge'], [constraints, 'constraint']].map(([count, one]) => counted(count, one, `${one}s`));
  const why = h('span', { class: 'soft' }, ': building it afresh gives the same bytes');
  const list = h('ul', {}, world.constraints.map((one) => h('li', {}, world.names.constraint(one))));
  replace(
    find('world'),
    h(
      'div',
      { class: 'row' },
      h('strong', {}, world.title),
      h('span', { id: 'admitted' }, h('span', { class: 'admitted' }, 'admitted'), why),
      h('details', {}, h('summary', {}, told.join(', ')), list),
    ),
  );
}

/** Says that nothing was opened, and why; the world before it stays open. */
export function showRefusedWorld(title, { answer, sentence, advice, detail = [] }) {
  const head = h('p', {}, h('strong', {}, `${title} is refused with ${answer}: `), sentence);
  const lines = [...detail, `${advice[0].toUpperCase()}${advice.slice(1)}.`].map((line) => h('p', {}, line));
  find('world').prepend(warning(head, ...lines));
}

export function showWrong(title, reason) {
  const [first, ...more] = reason.split('\n');
  const lines = more.map((line) => h('p', {}, line));
  find('world').prepend(warning(h('p', {}, h('strong', {}, `${title} cannot be opened: `), first), ...lines));
}

function warning(...lines) {
  find('world').querySelectorAll('.refusal').forEach((old) => old.remove());
  return h('div', { class: 'refusal', role: 'alert' }, ...lines);
}

const SLOW = 100; // so many milliseconds pass before progress is shown

/** What is being done, once it takes long. */
export class Progress {
  constructor(title, stop) {
    Object.assign(this, { title, stop, step: null, isShown: false });
    this.late = setTimeout(() => this.show(), SLOW);
  }

  tell(step) {
    this.step = step;
    if (this.isShown) this.show();
  }

  show() {
    const { step = 'starting', done = 0, of = 1 } = this.step ?? {};
    this.isShown = true;
    replace(
      find('world'),
      h(
        'div',
        { class: 'row' },
        h('strong', {}, this.title),
        h('progress', { max: of, value: done + 0.5, 'aria-label': 'Progress' }),
        h('span', { class: 'soft' }, step),
        h('button', { class: 'quiet', 'data-key': 'stop', onclick: this.stop }, 'Stop'),
      ),
    );
  }

  /** Whether it was shown. */
  end() {
    clearTimeout(this.late);
    return this.isShown;
  }
}
