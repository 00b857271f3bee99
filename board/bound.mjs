// What is known before anything is read: T in large type, the steps, and what stands in the way.

import { grouped } from '../js/bahrufaz.mjs';
import { button, find, h, replace } from './dom.mjs';
import { remedies, titleOf } from './figures.mjs';
import { counted } from './words.mjs';

/** The headline of a judgement: a figure, its tone, and a sentence. */
function headline(judgement, world) {
  switch (judgement.kind) {
    case 'planned':
      return ['', grouped(judgement.bound), `reads at most ${counted(judgement.bound, 'entry', 'entries')}, whatever the graph`];
    case 'uncovered':
      return ['red', 'Not covered', 'Nothing bounds what would be read, so no list is given (7).'];
    case 'above':
      return ['amber', grouped(judgement.bound), `would be T, and it may be 65,536 at most (8).`];
    case 'wrong':
      return ['red', 'Not yet', judgement.reason];
    case 'refused':
      return ['red', `Refused: ${judgement.refused.answer}`, judgement.refused.sentence];
    default:
      return ['', '–', world ? 'Tap the board to add the first node. The bound is shown as you draw.' : 'Open a world first.'];
  }
}

export function showBound(judgement, world, canList, list) {
  const [tone, figure, sentence] = headline(judgement, world);
  replace(
    find('bound'),
    h('h2', { class: 'soft' }, judgement.bound === undefined ? 'Before anything is read' : 'T, before anything is read'),
    h('p', { class: `t ${tone} ${figure.length > 8 ? 'long' : ''}`, id: 't' }, figure),
    h('p', { id: 'sentence' }, sentence),
    h('div', { class: 'row' }, button('list', 'List', list, { class: 'main', id: 'list', disabled: !canList, title: 'Ctrl Enter' })),
  );
}

/** The steps of a plan, or why there is none. */
export function showWhy(judgement, world) {
  const why = find('why'), wasOpen = why.querySelector('details')?.open ?? false;
  if (judgement.kind === 'planned') replace(why, steps(judgement, world, wasOpen));
  else if (judgement.kind === 'uncovered') replace(why, h('h3', {}, 'What would cover it'), ...remedies(judgement, world).map(thing));
  else if (judgement.kind === 'above') replace(why, h('h3', {}, 'The step that multiplies'), multiplies(judgement, world));
  else replace(why);
}

function thing({ title, sentences }) {
  return h('div', { class: 'thing' }, h('h3', {}, title), ...sentences.map((sentence) => h('p', {}, sentence)));
}

function multiplies({ pattern, multiplying: { largest, steps: all, widest } }, world) {
  const most = (row) => world.constraints[row.constraint].most;
  const product = all.map((row) => grouped(most(row))).join(' × ');
  return h(
    'div',
    { class: 'thing amber' },
    h('h3', {}, titleOf(pattern, widest)),
    h('p', {}, `“${world.names.constraint(world.constraints[widest.constraint])}” multiplies by ${grouped(most(widest))}.`),
    h('p', {}, `The largest figure is that of ${titleOf(pattern, largest)}: ${product} = ${grouped(largest.figure)}.`),
    h('p', {}, 'A smaller N there, or a pattern that starts elsewhere, makes T smaller.'),
  );
}

function steps({ pattern, rows }, world, open) {
  const how = ({ constraint, chosen }) => {
    const from = chosen.map((node) => pattern.names.spelled(node)).join(', ');
    return `${world.names.constraint(world.constraints[constraint])}${from && `, from ${from}`}`;
  };
  const line = (row) => {
    const what = h('td', {}, h('strong', {}, titleOf(pattern, row)), h('br'), h('span', { class: 'soft' }, how(row)));
    return h('tr', {}, what, h('td', { class: 'number' }, grouped(row.figure)));
  };
  const summary = h('summary', { 'data-key': 'steps' }, `How it is read: ${counted(rows.length, 'step', 'steps')}`);
  return h('details', { open }, summary, h('table', {}, h('tbody', {}, rows.map(line))));
}

/** The figure and tone of a node or edge; said is the same for those who do not see it. */
function markOf(kind, number, judgement, figures) {
  const figure = figures.get(`${kind} ${number}`), widest = judgement.multiplying?.widest;
  if (judgement.kind === 'uncovered' && figure === undefined) return { tone: 'red', text: '?', said: 'not covered' };
  if (figure === undefined) return { said: 'no figure yet' };
  const tone = widest?.kind === kind && widest.number === number ? 'amber' : '';
  return { tone, text: `≤ ${grouped(figure)}`, said: `at most ${grouped(figure)}` };
}

/** The marks of each node and edge, for the board; nodes with their label. */
export function marksOf(drawing, judgement, world) {
  const figures = new Map((judgement.rows ?? []).map((row) => [`${row.kind} ${row.number}`, row.figure]));
  const order = judgement.pattern ? drawing.edgeOrder() : drawing.state.edges.map((_, number) => number);
  return {
    nodes: drawing.state.nodes.map(({ label }, number) => {
      const labelNumber = world?.numberOf(label);
      const shown = labelNumber === undefined ? String(label) : world.names.labels.name(labelNumber);
      return { ...markOf('node', number, judgement, figures), labelNumber, label: shown };
    }),
    edges: order.map((number) => markOf('edge', number, judgement, figures)),
  };
}
