// The board itself: nodes and arrows, drawn and changed by touch, mouse and keys.

import { find, replace, s } from './dom.mjs';
import { arrowHead, arrowPath, clipped, fillOf, shownConditions } from './shapes.mjs';

const MOVED = 7; // so many pixels are a drag and no tap
const STEP = 0.025; // how far an arrow key moves a node
const SIDE = 26, TOP = 16, BOTTOM = 26; // pixels that stay free

const CENTRED = { 'text-anchor': 'middle', 'dominant-baseline': 'central' };

/** What lets a part of the picture be reached by keys and be heard. */
const reachable = (key, said) => ({ tabindex: 0, role: 'button', 'data-key': key, 'aria-label': said });

export class Canvas {
  /** asks: addAt(place, from), select(what), connect(from, to), move(node, place), nudge(node, shift), remove(what), refresh(). */
  constructor(asks) {
    this.asks = asks;
    this.svg = find('canvas');
    this.gesture = null;
    this.joining = null; // the node that an arrow is being drawn from by taps or keys
    this.svg.addEventListener('pointerdown', (event) => this.press(event));
    this.svg.addEventListener('pointermove', (event) => this.drag(event));
    this.svg.addEventListener('pointerup', (event) => this.release(event));
    this.svg.addEventListener('pointercancel', () => this.letGo());
    // without this the click that follows a touch would fall on whatever the touch has opened
    this.svg.addEventListener('touchend', (event) => event.cancelable && event.preventDefault(), { passive: false });
    this.svg.addEventListener('keydown', (event) => this.key(event));
    new ResizeObserver(() => this.asks.refresh()).observe(this.svg);
  }

  get size() {
    const { width, height } = this.svg.getBoundingClientRect();
    return { width: Math.max(width, 240), height: Math.max(height, 200) };
  }

  get box() {
    return this.size.width < 560 ? { width: 104, height: 54 } : { width: 132, height: 58 };
  }

  /** The room in which the middles of boxes may stand. */
  get frame() {
    const { width, height } = this.size, box = this.box;
    return {
      left: box.width / 2 + SIDE,
      top: box.height / 2 + TOP,
      width: width - box.width - 2 * SIDE,
      height: height - box.height - TOP - BOTTOM,
      box,
    };
  }

  /** Parts of the whole as pixels, and back. */
  toPixels({ x, y }) {
    const { left, top, width, height } = this.frame;
    return { x: left + x * width, y: top + y * height };
  }

  toPlace({ x, y }) {
    const { left, top, width, height } = this.frame;
    const part = (value) => Math.min(1, Math.max(0, value));
    return { x: part((x - left) / width), y: part((y - top) / height) };
  }

  point(event) {
    const { left, top } = this.svg.getBoundingClientRect();
    return { x: event.clientX - left, y: event.clientY - top };
  }

  /** What stands under a pointer. */
  under(event) {
    const element = document.elementFromPoint(event.clientX, event.clientY);
    const [handle, node, edge] = ['handle', 'node', 'edge'].map((kind) => element?.closest?.(`#canvas [data-${kind}]`)?.dataset[kind]);
    if (handle !== undefined) return { kind: 'handle', number: Number(handle) };
    if (node !== undefined) return { kind: 'node', number: Number(node) };
    return edge !== undefined ? { kind: 'edge', number: Number(edge) } : { kind: 'empty' };
  }

  press(event) {
    if (event.button || this.gesture) return;
    this.gesture = { ...this.under(event), id: event.pointerId, start: this.point(event), moved: false };
    this.svg.setPointerCapture(event.pointerId);
  }

  drag(event) {
    const gesture = this.gesture;
    if (!gesture || gesture.id !== event.pointerId) return;
    gesture.now = this.point(event);
    gesture.moved ||= Math.hypot(gesture.now.x - gesture.start.x, gesture.now.y - gesture.start.y) > MOVED;
    if (!gesture.moved) return;
    gesture.over = gesture.kind === 'handle' ? this.under(event) : null;
    this.asks.refresh();
  }

  release(event) {
    const gesture = this.gesture;
    if (!gesture || gesture.id !== event.pointerId) return;
    const target = this.under(event), place = this.toPlace(this.point(event));
    this.gesture = null;
    if (gesture.moved) this.dropped(gesture, target, place);
    else this.tapped(gesture, place);
  }

  dropped(gesture, target, place) {
    if (gesture.kind === 'node') return this.asks.move(gesture.number, place);
    if (gesture.kind !== 'handle') return this.asks.refresh();
    if (target.kind === 'empty' || target.kind === 'edge') return this.asks.addAt(place, gesture.number);
    this.asks.connect(gesture.number, target.number);
  }

  tapped({ kind, number }, place) {
    const from = this.joining;
    this.joining = null;
    if (from !== null && kind !== 'empty' && kind !== 'edge') return this.asks.connect(from, number);
    if (kind === 'handle') this.joining = number;
    if (kind === 'empty') return from === null ? this.asks.addAt(place, null) : this.asks.refresh();
    this.asks.select({ kind: kind === 'edge' ? 'edge' : 'node', number });
  }

  letGo() {
    this.gesture = null;
    this.asks.refresh();
  }

  key(event) {
    const { node, edge } = event.target.dataset;
    if (node === undefined && edge === undefined) return;
    const what = node !== undefined ? { kind: 'node', number: Number(node) } : { kind: 'edge', number: Number(edge) };
    const act = this.actionFor(event.key, what);
    if (!act) return;
    event.preventDefault();
    act();
  }

  actionFor(key, what) {
    const shift = { ArrowLeft: [-STEP, 0], ArrowRight: [STEP, 0], ArrowUp: [0, -STEP], ArrowDown: [0, STEP] }[key];
    if (shift && what.kind === 'node') return () => this.asks.nudge(what.number, shift);
    if (key === 'Enter' || key === ' ') return () => this.entered(what);
    if (key === 'Delete' || key === 'Backspace') return () => this.asks.remove(what);
    if (key.toLowerCase() === 'c' && what.kind === 'node') return () => this.join(what.number);
    return null;
  }

  entered(what) {
    const from = this.joining;
    this.joining = null;
    if (from !== null && what.kind === 'node') return this.asks.connect(from, what.number);
    this.asks.select(what, true);
  }

  /** Starts an arrow that ends at the next node that is tapped or entered. */
  join(number) {
    this.joining = number;
    this.asks.refresh();
  }

  /** Shows a drawing with what is known of it; marks: figures and colours of nodes and edges. */
  show({ nodes, edges }, selection, marks) {
    const { width, height } = this.size;
    this.svg.setAttribute('viewBox', `0 0 ${width} ${height}`);
    const places = nodes.map((node, number) => (this.isDragged(number) ? this.gesture.now : this.toPixels(node)));
    replace(
      this.svg,
      s('defs', {}, arrowHead('head', '#5b6673'), arrowHead('head-red', '#b3261e'), arrowHead('head-blue', '#1f5fa8')),
      edges.map((edge, number) => this.edge(edge, number, { nodes, edges, places, selection, mark: marks.edges[number] })),
      nodes.map((node, number) => this.node(node, number, { place: places[number], selection, mark: marks.nodes[number] })),
      this.newArrow(places),
    );
  }

  isDragged(number) {
    return this.gesture?.moved && this.gesture.kind === 'node' && this.gesture.number === number;
  }

  edge(edge, number, { nodes, edges, places, selection, mark }) {
    const isPair = edges.some(([a, b]) => a === edge[1] && b === edge[0]);
    const { d, plate } = arrowPath(places[edge[0]], places[edge[1]], this.box, isPair);
    const isSelected = selection?.kind === 'edge' && selection.number === number;
    const name = `${nodes[edge[0]].name} to ${nodes[edge[1]].name}`;
    const head = mark.tone === 'red' ? 'head-red' : isSelected ? 'head-blue' : 'head';
    const kind = `edge ${mark.tone ?? ''} ${isSelected ? 'selected' : ''}`;
    return s(
      'g',
      { class: kind, 'data-edge': number, ...reachable(`edge ${number}`, `arrow ${name}, ${mark.said}`) },
      s('path', { d, class: 'reach' }),
      s('path', { d, class: 'arrow', 'marker-end': `url(#${head})` }),
      mark.text && this.plate(mark.text, 'figure', plate),
    );
  }

  node(node, number, { place, selection, mark }) {
    const { width, height } = this.box, isWide = width > 120;
    const isSelected = selection?.kind === 'node' && selection.number === number;
    const condition = shownConditions(node.conditions);
    const second = [mark.label !== node.name ? mark.label : '', condition].filter(Boolean).join(' ');
    const kind = `node ${mark.tone ?? ''} ${isSelected ? 'selected' : ''} ${this.isTarget(number) ? 'target' : ''}`;
    const said = `node ${node.name}, ${mark.label} ${condition}, ${mark.said}`;
    return s(
      'g',
      { class: kind, transform: `translate(${place.x},${place.y})`, 'data-node': number, ...reachable(`node ${number}`, said) },
      s('rect', { x: -width / 2, y: -height / 2, width, height, rx: 14, fill: fillOf(mark.labelNumber), class: 'box' }),
      s('text', { y: second ? -9 : 0, class: 'name', ...CENTRED }, clipped(node.name, isWide ? 14 : 10)),
      second && s('text', { y: 12, class: 'label', ...CENTRED }, clipped(second, isWide ? 20 : 16)),
      mark.text && this.plate(mark.text, 'badge', { x: width / 2 - 26, y: height / 2 + 3 }),
      this.handle(number, width),
    );
  }

  /** Whether an arrow is being drawn to a node, or from it by taps or keys. */
  isTarget(number) {
    const { over, number: from } = this.gesture ?? {};
    const isOver = over && ['node', 'handle'].includes(over.kind) && over.number === number;
    return this.joining === number || (isOver && from !== number);
  }

  /** A text on a plate of its own. */
  plate(text, kind, { x, y }) {
    const width = 14 + 8 * text.length;
    return s(
      'g',
      { class: kind, transform: `translate(${x},${y})` },
      s('rect', { x: -width / 2, y: -11, width, height: 22, rx: 11 }),
      s('text', CENTRED, text),
    );
  }

  /** The place that an arrow is drawn from. */
  handle(number, width) {
    return s(
      'g',
      { class: 'handle', 'data-handle': number, transform: `translate(${width / 2},0)` },
      s('circle', { r: 22, class: 'reach' }),
      s('circle', { r: 11, class: 'dot' }),
      s('path', { d: 'M-5,0 H5 M1,-4 L5,0 L1,4', class: 'sign' }),
    );
  }

  newArrow(places) {
    const gesture = this.gesture;
    if (!gesture?.moved || gesture.kind !== 'handle') return null;
    const from = places[gesture.number];
    const d = `M${from.x + this.box.width / 2},${from.y} L${gesture.now.x},${gesture.now.y}`;
    return s('path', { d, class: 'arrow new', 'marker-end': 'url(#head-blue)' });
  }
}
