// What is selected, with everything about it that can be changed: the same by touch and by keys.

import { MAX_VALUE, MIN_VALUE } from '../js/bahrufaz.mjs';
import { button, find, h, replace } from './dom.mjs';

const SIGNS = { '': 'any', '=': '=', '<': '<', '>': '>', '<=': '≤', '>=': '≥' };

function headOf(title, close) {
  return h('div', { class: 'head' }, h('h2', {}, title), button('close', 'Close', close, { class: 'quiet', title: 'Close (Escape)' }));
}

const labelled = (text, field) => h('label', {}, h('span', { class: 'soft' }, text), field);

/** A choice of one among options {value, text}. */
function choice(attributes, options, isChosen) {
  return h('select', attributes, options.map((one) => h('option', { value: one.value, selected: isChosen(one.value) }, one.text)));
}

const removal = (text, remove) => button('remove', text, remove, { class: 'danger', id: 'remove' });

/** The conditions that the fields of a form say; a field that is no whole number leaves its condition out. */
function conditionsIn(element) {
  return [...element.querySelectorAll('.condition')].flatMap((row) => {
    const [operator, constant] = ['select', 'input'].map((tag) => row.querySelector(tag).value);
    const number = Number(constant);
    const isRight = operator && constant !== '' && Number.isInteger(number) && MIN_VALUE <= number && number <= MAX_VALUE;
    return isRight ? [{ operator, constant: number }] : [];
  });
}

function conditionRow(place, condition, onchange) {
  const name = place ? 'and value' : 'value';
  const signs = Object.entries(SIGNS).map(([value, text]) => ({ value, text }));
  const operator = { 'aria-label': `${name}, operator`, id: `operator-${place}`, 'data-key': `operator ${place}`, onchange };
  const constant = { 'aria-label': `${name}, number`, id: `constant-${place}`, 'data-key': `constant ${place}`, onchange };
  return h(
    'div',
    { class: 'condition' },
    h('span', {}, name),
    choice(operator, signs, (sign) => sign === (condition?.operator ?? '')),
    h('input', { type: 'number', step: 1, min: MIN_VALUE, max: MAX_VALUE, value: condition?.constant ?? '', ...constant }),
  );
}

export class Inspector {
  /** asks: rename, relabel, condition, connect, remove, turn, deselect; each with the number of what is selected. */
  constructor(asks) {
    this.asks = asks;
    this.element = find('inspector');
  }

  show(drawing, selection, world) {
    this.element.hidden = !selection;
    if (!selection) return replace(this.element);
    const { kind, number } = selection;
    replace(this.element, ...(kind === 'node' ? this.node(drawing, number, world) : this.edge(drawing, number)));
  }

  focus() {
    this.element.querySelector('input, #turn')?.focus();
  }

  node({ state }, number, world) {
    const { name, label, conditions } = state.nodes[number], asks = this.asks;
    const changed = () => asks.condition(number, conditionsIn(this.element));
    const rename = (event) => asks.rename(number, event.target.value.trim());
    return [
      headOf('Node', asks.deselect),
      labelled('Name', h('input', { id: 'node-name', 'data-key': 'name', value: name, autocomplete: 'off', onchange: rename })),
      labelled('Label', this.labels(label, world, (value) => asks.relabel(number, value))),
      conditionRow(0, conditions[0], changed),
      conditionRow(1, conditions[1], changed),
      this.joiner(state, number),
      h('div', { class: 'row' }, removal('Delete node', () => asks.remove({ kind: 'node', number }))),
    ];
  }

  labels(label, world, chosen) {
    const known = world.labels.map(({ number, name }) => ({ value: number, text: name }));
    const own = world.numberOf(label) ?? label;
    if (!known.some(({ value }) => value === own)) known.push({ value: own, text: String(own) });
    const onchange = (event) => chosen(known[event.target.selectedIndex].value);
    return choice({ id: 'node-label', 'data-key': 'label', onchange }, known, (value) => value === own);
  }

  /** An arrow to another node, for those who do not drag. */
  joiner({ nodes }, number) {
    const others = nodes.map(({ name }, value) => ({ value, text: name })).filter(({ value }) => value !== number);
    if (!others.length) return null;
    const onchange = (event) => event.target.value !== '' && this.asks.connect(number, Number(event.target.value));
    const options = [{ value: '', text: '…' }, ...others];
    return labelled('Arrow to', choice({ id: 'arrow-to', 'data-key': 'arrow', onchange }, options, (value) => value === ''));
  }

  edge({ state }, number) {
    const [from, to] = state.edges[number].map((node) => state.nodes[node].name), asks = this.asks;
    const turn = button('turn', 'Turn round', () => asks.turn(number), { id: 'turn' });
    return [
      headOf('Arrow', asks.deselect),
      h('p', {}, `${from} → ${to}`),
      h('div', { class: 'row' }, turn, removal('Delete arrow', () => asks.remove({ kind: 'edge', number }))),
    ];
  }
}
