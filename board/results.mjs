// The list: rows by name, sorted and filtered, as pictures, as files to keep, and as a printed page.

import { grouped } from '../js/bahrufaz.mjs';
import { button, find, h, keep, replace, table } from './dom.mjs';
import { picture } from './shapes.mjs';
import { counted } from './words.mjs';

const FIRST_ROWS = 200, FIRST_PICTURES = 24, PRINTED_ROWS = 2_000;
const byText = new Intl.Collator(undefined, { numeric: true }).compare;

/** A listing with its names: what the page shows and keeps. */
export class Listing {
  constructor(drawing, judgement, world, board) {
    const { names } = world.names.nodes, { listed } = drawing;
    Object.assign(this, { listed, title: drawing.title, state: drawing.state, world });
    this.aspect = Math.min(1, Math.max(0.45, board.height / board.width)); // pictures have the shape of the board
    this.columns = judgement.pattern.nodeNames();
    this.labels = drawing.state.nodes.map(({ label }) => world.numberOf(label));
    this.rows = Array.from({ length: listed.matches }, (_, row) =>
      Array.from(listed.words.subarray(row * listed.width, (row + 1) * listed.width), (id) => names.get(id) ?? id),
    );
    Object.assign(this, { sorted: null, filter: '', view: 'table', most: 0 });
  }

  get summary() {
    const { matches, nodeEntries, edgeEntries, bound } = this.listed;
    const found = matches ? counted(matches, 'match', 'matches') : 'no match';
    const read = `${counted(nodeEntries + edgeEntries, 'entry', 'entries')} read of at most ${grouped(bound)}`;
    return `${found}; ${read} (${grouped(nodeEntries)} for nodes, ${grouped(edgeEntries)} for edges)`;
  }

  /** The rows that are shown: those with the filter's text, in the order asked for. */
  shown() {
    const wanted = this.filter.toLowerCase();
    const rows = this.rows.filter((row) => !wanted || row.some((cell) => String(cell).toLowerCase().includes(wanted)));
    if (!this.sorted) return rows;
    const { column, down } = this.sorted;
    return rows.sort((one, other) => (down ? -1 : 1) * byText(String(one[column]), String(other[column])));
  }

  /** As the command's list --csv has it. */
  csv() {
    const cell = (text) => (/[",\r\n]/.test(text) ? `"${String(text).replaceAll('"', '""')}"` : text);
    return [this.columns, ...this.shown()].map((row) => row.map(cell).join(',') + '\n').join('');
  }

  /** As the command's list --json has it. */
  json() {
    const { matches, nodeEntries, edgeEntries, bound } = this.listed;
    const counts = { matches, node_entries: nodeEntries, edge_entries: edgeEntries, bound };
    const told = { answer: 0, admitted: true, ...counts, nodes: this.columns };
    const members = Object.entries(told).map(([name, value]) => `  ${JSON.stringify(name)}: ${spaced(value)}`);
    const rows = this.rows.map((row) => `    ${spaced(row)}`).join(',\n');
    members.push(this.rows.length ? `  "rows": [\n${rows}\n  ]` : '  "rows": []');
    return `{\n${members.join(',\n')}\n}\n`;
  }

  /** The match as it was drawn. */
  picture(row) {
    return picture(this.state.nodes, this.state.edges, row.map(String), this.labels, this.aspect);
  }
}

const spaced = (value) => (Array.isArray(value) ? `[${value.map((one) => JSON.stringify(one)).join(', ')}]` : JSON.stringify(value));

export class Results {
  constructor() {
    this.element = find('results');
  }

  show(listing) {
    this.listing = listing;
    this.element.hidden = false;
    this.render();
  }

  /** Says why there is no list. */
  refuse(refused) {
    this.listing = null;
    this.element.hidden = false;
    const number = h('strong', {}, `Refused with ${refused.answer}: `);
    replace(this.element, h('div', { class: 'refusal' }, h('p', {}, number, refused.sentence), h('p', {}, refused.advice)));
  }

  hide() {
    this.listing = null;
    this.element.hidden = true;
    replace(this.element);
  }

  render() {
    const { listing } = this, rows = listing.shown();
    const body = listing.view === 'table' ? this.asTable(rows) : this.asPictures(rows);
    replace(
      this.element,
      h('p', { class: 'summary', id: 'summary' }, h('strong', {}, listing.title), ': ', listing.summary),
      listing.rows.length > 0 && this.tools(rows),
      listing.rows.length > 0 && body,
    );
  }

  change(change) {
    Object.assign(this.listing, change);
    this.render();
  }

  tools(rows) {
    const { listing } = this;
    const view = (name, text) => {
      const more = { id: `view-${name}`, 'aria-pressed': String(listing.view === name) };
      return button(name, text, () => this.change({ view: name, most: 0 }), more);
    };
    const file = listing.title.replace(/[^\p{L}\p{N}._-]+/gu, '-');
    const filter = { id: 'filter', 'data-key': 'filter', placeholder: 'Filter', 'aria-label': 'Filter', value: listing.filter };
    return h(
      'div',
      { class: 'tools' },
      view('table', 'Table'),
      view('pictures', 'Pictures'),
      h('input', { type: 'search', oninput: (event) => this.filtered(event.target), ...filter }),
      listing.filter && h('span', { class: 'soft' }, `${grouped(rows.length)} shown`),
      h('span', { class: 'gap' }),
      button('csv', 'CSV', () => keep(`${file}.csv`, 'text/csv', listing.csv()), { id: 'csv' }),
      button('json', 'JSON', () => keep(`${file}.json`, 'application/json', listing.json()), { id: 'json' }),
      button('print', 'Print', () => print(), { id: 'print' }),
    );
  }

  filtered(input) {
    const at = input.selectionStart;
    this.change({ filter: input.value, most: 0 });
    find('filter').setSelectionRange(at, at);
  }

  asTable(rows) {
    const { listing } = this, most = listing.most || FIRST_ROWS;
    const sort = (column) => this.change({ sorted: { column, down: listing.sorted?.column === column && !listing.sorted.down } });
    const sign = (column) => (listing.sorted?.column !== column ? '' : listing.sorted.down ? ' ↓' : ' ↑');
    const heads = listing.columns.map((name, column) => button(`sort ${column}`, `${name}${sign(column)}`, () => sort(column)));
    return h('div', { class: 'scroll' }, table(heads, rows.slice(0, most)), this.more(rows, most));
  }

  asPictures(rows) {
    const most = this.listing.most || FIRST_PICTURES;
    const drawn = rows.slice(0, most).map((row) => this.listing.picture(row));
    return h('div', {}, h('div', { class: 'pictures' }, drawn), this.more(rows, most));
  }

  more(rows, most) {
    if (rows.length <= most) return null;
    const show = () => this.change({ most: 5 * most });
    return h('p', { class: 'row' }, button('more', `Show more of ${grouped(rows.length)}`, show));
  }

  /** Fills the printed page: what was asked, what was read, and every row. */
  print(printed) {
    if (!this.listing) return replace(printed, h('p', {}, 'List a pattern first: its matches are printed.'));
    const { listing } = this, rows = listing.shown();
    const names = listing.state.nodes.map(({ name }) => name);
    replace(
      printed,
      h('h2', {}, listing.title),
      h('p', {}, listing.state.question),
      h('p', {}, `${listing.world.title}, ${new Date().toLocaleDateString()}. ${listing.summary}.`),
      listing.picture(names),
      table(listing.columns, rows.slice(0, PRINTED_ROWS)),
      rows.length > PRINTED_ROWS && h('p', {}, `${grouped(PRINTED_ROWS)} of ${grouped(rows.length)} rows; the CSV file has all.`),
    );
  }
}
