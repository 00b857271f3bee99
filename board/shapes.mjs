// Nodes and arrows as SVG: for the board, the pictures of matches and the printed page.

import { s } from './dom.mjs';
import { conditionsText } from '../js/bahrufaz.mjs';

const FILLS = ['#cfe3f5', '#fbe3c0', '#d5edcf', '#f6d3d5', '#e2d8f0', '#f3efb5', '#cdeeea', '#e8dccf'];

/** The colour of a label: the same in every picture. */
export const fillOf = (label) => (typeof label === 'number' && label >= 1 ? FILLS[(label - 1) % FILLS.length] : '#eeeeee');

/** Conditions as they are drawn. */
export const shownConditions = (conditions) =>
  conditionsText(conditions).replaceAll('<=', '≤').replaceAll('>=', '≥').replaceAll('value ', '');

/** A text that fits so many characters. */
export const clipped = (text, most) => (text.length > most ? `${text.slice(0, most - 1)}…` : text);

/** Where a line from the middle of a box towards a point leaves the box. */
function border(from, to, { width, height }) {
  const dx = to.x - from.x, dy = to.y - from.y;
  const part = Math.min(width / 2 / Math.abs(dx || 1e-9), height / 2 / Math.abs(dy || 1e-9), 1);
  return { x: from.x + dx * part, y: from.y + dy * part };
}

/** The path of an arrow between two boxes, and where its figure stands; one of a pair both ways round is bent. */
export function arrowPath(from, to, size, isBent) {
  const length = Math.hypot(to.x - from.x, to.y - from.y) || 1;
  const bend = isBent ? 26 : 0;
  const middle = {
    x: (from.x + to.x) / 2 - ((to.y - from.y) / length) * bend,
    y: (from.y + to.y) / 2 + ((to.x - from.x) / length) * bend,
  };
  const start = border(from, middle, size), end = border(to, middle, { width: size.width + 12, height: size.height + 12 });
  const part = isBent ? 0.3 : 0.5; // the figures of a pair stand near the starts, so that both can be read
  const at = (axis) => (1 - part) ** 2 * start[axis] + 2 * part * (1 - part) * middle[axis] + part ** 2 * end[axis];
  return { d: `M${start.x},${start.y} Q${middle.x},${middle.y} ${end.x},${end.y}`, plate: { x: at('x'), y: at('y') } };
}

/** The head of every arrow in one picture; id keeps two pictures apart. */
export function arrowHead(id, colour) {
  const mark = { id, viewBox: '0 0 10 10', refX: 4, refY: 5, markerWidth: 7, markerHeight: 7, orient: 'auto-start-reverse' };
  return s('marker', mark, s('path', { d: 'M0,0 L10,5 L0,10 z', fill: colour }));
}

let pictures = 0;

/** A small picture: the drawing with these texts in its nodes, cut to the height that they take. */
export function picture(nodes, edges, texts, labels, aspect) {
  const width = 380, box = { width: 98, height: 30 }, scale = width * aspect - box.height;
  const lowest = Math.min(...nodes.map(({ y }) => y)), highest = Math.max(...nodes.map(({ y }) => y));
  const height = Math.round((highest - lowest) * scale + box.height + 20);
  const at = ({ x, y }) => ({ x: box.width / 2 + 8 + x * (width - box.width - 16), y: box.height / 2 + 10 + (y - lowest) * scale });
  const head = `head-${++pictures}`;
  const places = nodes.map(at);
  const isPair = ([a, b]) => edges.some(([c, d]) => a === d && b === c);
  return s(
    'svg',
    { viewBox: `0 0 ${width} ${height}`, class: 'picture', role: 'img', 'aria-label': texts.join(', ') },
    s('defs', {}, arrowHead(head, '#6b7684')),
    edges.map((edge) => {
      const { d } = arrowPath(places[edge[0]], places[edge[1]], box, isPair(edge));
      return s('path', { d, class: 'arrow', 'marker-end': `url(#${head})` });
    }),
    texts.map((text, node) => pictureNode(places[node], text, labels[node], box)),
  );
}

function pictureNode({ x, y }, text, label, { width, height }) {
  return s(
    'g',
    { transform: `translate(${x},${y})` },
    s('title', {}, text),
    s('rect', { x: -width / 2, y: -height / 2, width, height, rx: 9, fill: fillOf(label), class: 'box' }),
    s('text', { 'text-anchor': 'middle', 'dominant-baseline': 'central', class: 'name' }, clipped(text, 13)),
  );
}
