// The page: a world, the patterns over it, the one that is drawn, and its list.

import { Library } from '../js/bahrufaz.mjs';
import { assetBytes } from './assets.mjs';
import { marksOf, showBound, showWhy } from './bound.mjs';
import { Canvas } from './canvas.mjs';
import { showChecklist } from './checklist.mjs';
import { Desk, Stopped } from './desk.mjs';
import { button, find, h, keep, replace } from './dom.mjs';
import { Drawing, MOST_NODES } from './drawing.mjs';
import { judge } from './figures.mjs';
import { Inspector } from './inspector.mjs';
import { freePlace } from './layout.mjs';
import { Listing, Results } from './results.mjs';
import { fillOf } from './shapes.mjs';
import { keepWorld, keptWorld, recall, remember } from './memory.mjs';
import { showStory } from './story.mjs';
import { Progress, World, showRefusedWorld, showWorld, showWrong } from './world.mjs';
import { WORLDS } from './worlds.mjs';

const HELP = 'Tap for a new node, drag a round arrow to connect, drag a node to move it.';
const baseName = (path) => path.split('/').at(-1).replace(/\.[^.]*$/, '');
const isPattern = ({ name }) => name.endsWith('.pat');

class Board {
  constructor(module) {
    this.library = new Library(module);
    this.desk = new Desk(module);
    this.drawings = [];
    this.judgements = new Map();
    this.selection = null;
    this.results = new Results();
    this.canvas = new Canvas(this.canvasAsks());
    this.inspector = new Inspector(this.inspectorAsks());
    this.wire();
  }

  // ---- worlds

  /** Asks the worker; what takes longer than a tenth of a second shows its progress, and can be stopped. */
  async ask(title, question) {
    const progress = new Progress(title, () => this.desk.stop());
    try {
      return await this.desk.ask(question, (step) => progress.tell(step));
    } catch (error) {
      return error instanceof Stopped ? { stopped: true } : { wrong: error.message };
    } finally {
      if (progress.end()) this.showWorldAgain();
    }
  }

  /** Opens files as a world; the one before it stays where they are refused. */
  async openWorld(title, files) {
    const opened = await this.ask(title, { kind: 'open', files });
    if (opened.store) return this.takeWorld(title, opened);
    if (opened.refused) showRefusedWorld(title, opened.refused);
    if (opened.wrong) showWrong(title, opened.wrong);
    return false;
  }

  takeWorld(title, opened) {
    this.world = new World(title, opened);
    this.builtIn = null;
    this.judgements.clear();
    for (const drawing of this.drawings) drawing.forgetList();
    this.results.hide();
    showWorld(this.world);
    return true;
  }

  showWorldAgain() {
    if (this.world) showWorld(this.world);
    else replace(find('world'), h('p', { class: 'soft' }, 'No world is open.'));
  }

  /** Opens a built-in world with its patterns; patterns of one's own stay. */
  async openBuiltIn(world) {
    const feed = { name: world.feed, bytes: await assetBytes(world.feed) };
    if (!(await this.openWorld(world.title, [feed]))) return;
    this.builtIn = world;
    const texts = await Promise.all(world.patterns.map(async (path) => [path, new TextDecoder().decode(await assetBytes(path))]));
    const own = this.drawings.filter((drawing) => drawing.own);
    const given = texts.map(([path, text]) => Drawing.ofText(text, baseName(path), path));
    this.drawings = [...given, ...own.filter(({ title }) => !given.some((one) => one.title === title))];
    this.choose(given[0]);
  }

  /** Opens whatever files are given: patterns, and a world. */
  async openFiles(list) {
    const read = async (file) => ({ name: file.name, bytes: new Uint8Array(await file.arrayBuffer()) });
    const files = await Promise.all([...list].map(read));
    const patterns = files.filter(isPattern), world = files.filter((file) => !isPattern(file));
    if (world.length && (await this.openOwn(world[0].name, world))) await keepWorld(world[0].name, world);
    for (const { name, bytes } of patterns) this.openPattern(name, bytes);
  }

  /** Opens a world of one's own; the patterns of a built-in one go with it. */
  async openOwn(title, files) {
    if (!(await this.openWorld(title, files))) return false;
    this.drawings = this.drawings.filter((drawing) => drawing.own);
    if (!this.drawings.length) this.drawings.push(new Drawing('pattern 1'));
    this.choose(this.drawings[0]);
    return true;
  }

  /** Opens what was open when the page was closed; on a first visit the first world. */
  async openLast() {
    const { world, drawings } = recall();
    this.drawings = drawings;
    const kept = world === null ? await keptWorld() : undefined;
    if (kept && (await this.openOwn(kept.title, kept.files))) return;
    await this.openBuiltIn(WORLDS.find(({ id }) => id === world) ?? WORLDS[0]);
  }

  openPattern(name, bytes) {
    try {
      const text = new TextDecoder('utf-8', { fatal: true }).decode(bytes);
      const drawing = Drawing.ofText(text, baseName(name), name);
      drawing.own = true;
      this.drawings.push(drawing);
      this.choose(drawing);
    } catch (error) {
      showWrong(name, error.message);
    }
  }

  // ---- patterns

  choose(drawing) {
    this.drawing = drawing;
    this.selection = null;
    this.canvas.joining = null;
    if (drawing.listing) this.results.show(drawing.listing);
    else this.results.hide();
    this.changed();
  }

  newPattern() {
    const titles = new Set(this.drawings.map(({ title }) => title));
    let number = 1;
    while (titles.has(`pattern ${number}`)) number += 1;
    const drawing = new Drawing(`pattern ${number}`);
    this.drawings.push(drawing);
    this.choose(drawing);
  }

  /** Takes a pattern off the checklist; there is always one to draw on. */
  removePattern() {
    const { drawing, drawings } = this, place = drawings.indexOf(drawing);
    if (drawing.own && drawing.state.nodes.length && !confirm(`Remove ${drawing.title}? What is not saved is lost.`)) return;
    drawings.splice(place, 1);
    if (drawings.length) this.choose(drawings[Math.min(place, drawings.length - 1)]);
    else this.newPattern();
  }

  retitle(title) {
    if (title) Object.assign(this.drawing, { title, own: true });
    this.changed();
  }

  /** After any change of the drawing: its old list no longer belongs to it. */
  changed() {
    if (!this.drawing.listed) this.results.hide();
    for (const drawing of this.drawings) if (!this.judgements.has(drawing) || drawing === this.drawing) this.judge(drawing);
    this.keepSelection();
    this.refresh();
    remember(this);
  }

  /** Shows everything again; a drawing that nobody has placed follows the shape of the board. */
  refresh() {
    if (!this.drawing) return;
    if (!this.drawing.placed) this.drawing.arrange(this.canvas.frame);
    this.show();
  }

  judge(drawing) {
    this.judgements.set(drawing, this.world ? judge(this.library, this.world, drawing) : { kind: 'empty' });
  }

  keepSelection() {
    const { selection, drawing } = this;
    const things = selection?.kind === 'node' ? drawing.state.nodes : drawing.state.edges;
    if (selection && selection.number >= things.length) this.selection = null;
  }

  show() {
    const { drawing, world } = this, judgement = this.judgements.get(drawing);
    this.canvas.show(drawing.state, this.selection, marksOf(drawing, judgement, world));
    if (world) this.inspector.show(drawing, this.selection, world);
    showBound(judgement, world, judgement.kind === 'planned', () => this.list());
    showWhy(judgement, world);
    showChecklist(this.drawings, drawing, this.judgements, this.checklistAsks());
    find('hint').textContent = this.hint();
    find('title').value = drawing.title;
    find('undo').disabled = !drawing.past.length;
    find('redo').disabled = !drawing.future.length;
    for (const id of ['save-pattern', 'tidy']) find(id).disabled = !drawing.state.nodes.length;
    find('add-node').disabled = !world || drawing.state.nodes.length >= MOST_NODES;
    for (const one of find('worlds').children) one.setAttribute('aria-pressed', String(one.dataset.world === this.builtIn?.id));
    showStory(this);
  }

  hint() {
    const { nodes, edges, question } = this.drawing.state;
    if (this.canvas.joining !== null) return `Now the node that the arrow from ${nodes[this.canvas.joining].name} goes to.`;
    if (!nodes.length) return 'Tap anywhere to add a node.';
    if (nodes.length > 1 && !edges.length) return 'Drag from the round arrow of a node to another node.';
    return question.split('\n')[0] || HELP;
  }

  // ---- what the parts of the page ask for

  canvasAsks() {
    return {
      addAt: (place, from) => this.addNode(place, from),
      select: (what, withKeys) => this.select(what, withKeys),
      connect: (from, to) => this.connect(from, to),
      move: (number, place) => this.edit((drawing) => drawing.move(number, place)),
      nudge: (number, [dx, dy]) => this.nudge(number, dx, dy),
      remove: (what) => this.remove(what),
      refresh: () => this.refresh(),
    };
  }

  inspectorAsks() {
    const set = (number, values) => this.edit((drawing) => drawing.change(({ nodes }) => Object.assign(nodes[number], values)));
    return {
      rename: (number, name) => this.rename(number, name, set),
      relabel: (number, label) => set(number, { label: this.labelOf(label) }),
      condition: (number, conditions) => this.condition(number, conditions, set),
      connect: (from, to) => this.connect(from, to),
      remove: (what) => this.remove(what),
      turn: (number) => this.edit((drawing) => drawing.turnEdge(number)),
      deselect: () => this.select(null),
    };
  }

  checklistAsks() {
    return {
      choose: (drawing) => this.choose(drawing),
      tick: (drawing) => {
        drawing.done = !drawing.done;
        this.changed();
      },
    };
  }

  edit(change) {
    change(this.drawing);
    this.changed();
  }

  select(what, withKeys = false) {
    const before = this.selection;
    this.selection = what;
    this.changed();
    if (what && withKeys) this.inspector.focus();
    if (!what && before) this.canvas.svg.querySelector(`[data-key="${before.kind} ${before.number}"]`)?.focus({ preventScroll: true });
  }

  /** A label as the pattern keeps it: by name where it has one. */
  labelOf(number) {
    return this.world.names.labels.names.get(number) ?? number;
  }

  async addNode(place, from = null) {
    const { drawing } = this;
    const label = this.world && drawing.state.nodes.length < MOST_NODES ? await this.chooseLabel() : null;
    if (label === null) return this.changed();
    const base = this.world.names.labels.names.get(label) ?? `node${label}-`;
    const number = drawing.addNode(this.labelOf(label), base, place ?? freePlace(drawing.state.nodes));
    if (from !== null) drawing.addEdge(from, number);
    this.select({ kind: 'node', number });
    this.canvas.svg.querySelector(`[data-key="node ${number}"]`)?.focus({ preventScroll: true });
  }

  chooseLabel() {
    const dialog = find('chooser');
    return new Promise((resolve) => {
      const close = (label) => {
        dialog.onclose = null;
        dialog.close();
        resolve(label);
      };
      const offer = ({ number, name, count }) => {
        const offered = button(`label ${number}`, name, () => close(number), { style: `background:${fillOf(number)}` });
        offered.append(h('small', {}, `${count} in this world`));
        return offered;
      };
      replace(find('chooser-labels'), this.world.labels.map(offer));
      find('chooser-cancel').onclick = () => close(null);
      dialog.onclose = () => close(null);
      dialog.showModal();
    });
  }

  connect(from, to) {
    this.edit((drawing) => {
      if (!drawing.addEdge(from, to)) return;
      this.selection = { kind: 'edge', number: drawing.state.edges.length - 1 };
    });
  }

  nudge(number, dx, dy) {
    const part = (value) => Math.min(1, Math.max(0, value));
    const { x, y } = this.drawing.state.nodes[number];
    this.edit((drawing) => drawing.move(number, { x: part(x + dx), y: part(y + dy) }, `nudge ${number}`));
  }

  remove({ kind, number }) {
    this.selection = null;
    this.edit((drawing) => (kind === 'node' ? drawing.removeNode(number) : drawing.removeEdge(number)));
  }

  rename(number, name, set) {
    const isTaken = this.drawing.state.nodes.some((node, other) => other !== number && node.name === name);
    if (!name || isTaken) return this.changed();
    set(number, { name });
  }

  /** Takes conditions that differ; a half-typed one waits for its other half. */
  condition(number, conditions, set) {
    const had = this.drawing.state.nodes[number].conditions;
    if (JSON.stringify(had) !== JSON.stringify(conditions)) set(number, { conditions });
  }

  // ---- lists

  async list(drawing = this.drawing) {
    const judgement = this.judgements.get(drawing), { world } = this, { state } = drawing;
    if (judgement?.kind !== 'planned') return;
    const told = await this.ask(drawing.title, { kind: 'list', store: world.store, pattern: judgement.bytes });
    if (told.wrong) showWrong(drawing.title, told.wrong);
    if (told.answer === undefined || world !== this.world || state !== drawing.state) return; // the list of something past
    drawing.listed = told;
    drawing.listing = told.answer === 0 ? new Listing(drawing, judgement, world, this.canvas.size) : null;
    if (drawing === this.drawing) this.showList(drawing);
    this.show();
  }

  showList(drawing) {
    if (drawing.listing) this.results.show(drawing.listing);
    else this.results.refuse(drawing.listed);
    const isCalm = matchMedia('(prefers-reduced-motion: reduce)').matches;
    find('results').scrollIntoView({ behavior: isCalm ? 'instant' : 'smooth', block: 'nearest' });
  }

  async listAll() {
    for (const drawing of this.drawings) await this.list(drawing);
  }

  // ---- buttons, keys and files

  wire() {
    const click = (id, act) => find(id).addEventListener('click', act);
    click('add-node', () => this.addNode(null));
    click('undo', () => this.edit((drawing) => drawing.undo()));
    click('redo', () => this.edit((drawing) => drawing.redo()));
    click('tidy', () => this.edit((drawing) => drawing.arrange(this.canvas.frame)));
    click('save-pattern', () => this.save());
    click('new-pattern', () => this.newPattern());
    click('list-all', () => this.listAll());
    click('remove-pattern', () => this.removePattern());
    find('title').addEventListener('change', ({ target }) => this.retitle(target.value.trim()));
    for (const [button, input] of [['open-world', 'world-files'], ['open-pattern', 'pattern-files']]) {
      click(button, () => find(input).click());
      find(input).addEventListener('change', ({ target }) => this.openFiles(target.files).then(() => (target.value = '')));
    }
    const offer = (world) =>
      button(world.id, world.title, () => this.openBuiltIn(world), { class: 'quiet', 'data-world': world.id });
    replace(find('worlds'), WORLDS.map(offer));
    addEventListener('keydown', (event) => this.key(event));
    addEventListener('beforeprint', () => this.results.print(find('printed')));
    this.wireDrop();
  }

  wireDrop() {
    const dropping = (on) => (event) => {
      event.preventDefault();
      document.body.classList.toggle('dropping', on);
    };
    addEventListener('dragover', dropping(true));
    addEventListener('dragleave', (event) => event.relatedTarget || dropping(false)(event));
    addEventListener('drop', (event) => {
      dropping(false)(event);
      this.openFiles(event.dataTransfer.files);
    });
  }

  save() {
    if (this.drawing.state.nodes.length) keep(`${this.drawing.title}.pat`, 'text/plain', this.drawing.text());
  }

  key(event) {
    if (find('chooser').open) return;
    const act = event.ctrlKey || event.metaKey ? this.commandFor(event) : this.plainKey(event);
    if (!act) return;
    event.preventDefault();
    act();
  }

  commandFor({ key, shiftKey }) {
    const redo = () => this.edit((drawing) => drawing.redo()), undo = () => this.edit((drawing) => drawing.undo());
    return { z: shiftKey ? redo : undo, Z: redo, y: redo, s: () => this.save(), Enter: () => this.list() }[key];
  }

  plainKey({ key, target }) {
    if (key === 'Escape') return () => this.escape();
    if (target.closest('input, select, textarea')) return null;
    return key === 'n' || key === 'N' ? () => this.addNode(null) : null;
  }

  escape() {
    this.canvas.joining = null;
    this.select(null);
  }
}

async function start() {
  const module = await WebAssembly.compile(await assetBytes('bahrufaz.wasm'));
  const board = new Board(module);
  await board.openLast();
  globalThis.bahrufazBoard = board;
  document.body.dataset.ready = 'true';
  if ('serviceWorker' in navigator && location.protocol.startsWith('http')) await navigator.serviceWorker.register('sw.js');
}

start().catch((error) => showWrong('The board', error.message));
