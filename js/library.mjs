// The calls of the library as WebAssembly: what they are lent is copied into the module's memory and back.

import { ANSWERED, refusal } from './numbers.mjs';

const RESULT_WORDS = 8;
const UPPER_MATCHES = 7; // where listing has the upper half of the number of matches
const PLAN_WORDS = 512; // always enough for the rows of a plan
const ROW_WORDS = 8;
const MOST_ROOM_WORDS = 1 << 25; // 128 MiB
const FIRST_ROOM_WORDS = 1 << 16;
const INDEX_BYTES = 24 * 262_144 + 8 * 1_048_576;
const NO_CHOSEN = 255;
const PAGE = 65_536;
const FENCE = 32; // bytes on both sides of whatever is lent; no call may change them
const MARK = 0xa5;

/** Compiles the module: from its bytes, or from a Response that has them. */
async function compiled(source) {
  if (source instanceof WebAssembly.Module) return source;
  const bytes = typeof Response !== 'undefined' && source instanceof Response ? await source.arrayBuffer() : source;
  return WebAssembly.compile(bytes);
}

/** What one call is lent: parts one after another in the module's memory, with fences between them. */
class Lent {
  constructor(exports) {
    this.memory = exports.memory;
    this.end = exports.__heap_base.value;
    this.fences = [];
    this.fence();
  }

  fence() {
    this.reach(this.end + FENCE);
    new Uint8Array(this.memory.buffer, this.end, FENCE).fill(MARK);
    this.fences.push(this.end);
    this.end += FENCE;
  }

  /** Makes the memory long enough. */
  reach(end) {
    const missing = end - this.memory.buffer.byteLength;
    if (missing > 0) this.memory.grow(Math.ceil(missing / PAGE));
  }

  /** A part of so many bytes; its address is a multiple of 16. */
  take(length) {
    const at = Math.ceil(this.end / 16) * 16;
    this.reach(at + length);
    this.end = at + length;
    this.fence();
    return at;
  }

  /** A copy of bytes or words. */
  copyOf(array) {
    const at = this.take(array.byteLength);
    this.bytes(at, array.byteLength).set(new Uint8Array(array.buffer, array.byteOffset, array.byteLength));
    return at;
  }

  bytes(at, length) {
    return new Uint8Array(this.memory.buffer, at, length);
  }

  words(at, length) {
    return new Uint32Array(this.memory.buffer, at, length);
  }

  /** Puts a room back as the call has left it. */
  giveBack(at, array) {
    new Uint8Array(array.buffer, array.byteOffset, array.byteLength).set(this.bytes(at, array.byteLength));
  }

  check() {
    for (const at of this.fences)
      if (this.bytes(at, FENCE).some((byte) => byte !== MARK)) throw new Error('a call changed what it was not lent');
  }
}

/** The library, loaded. Calls keep nothing between them. */
export class Library {
  constructor(module) {
    this.module = module;
    this.instance = new WebAssembly.Instance(module, {});
  }

  /** Loads target/wasm/bahrufaz.wasm: its bytes, a Response, or a compiled module. */
  static async load(source) {
    return new Library(await compiled(source));
  }

  /** Makes a call on what is laid out for it; after a trap the module starts anew. */
  make(name, layOut) {
    const lent = new Lent(this.instance.exports);
    const results = lent.take(4 * RESULT_WORDS);
    const given = layOut(lent);
    try {
      const answer = this.instance.exports[`bahrufaz_${name}`](...given(results)) >>> 0;
      lent.check();
      return { answer, results: lent.words(results, RESULT_WORDS).slice() };
    } catch (error) {
      this.instance = new WebAssembly.Instance(this.module, {});
      throw error;
    }
  }

  /** Building in a room of the caller's own, as the C boundary has it: the number and the 8 results. */
  buildInto(draft, room) {
    return this.withRooms('build', [draft], [room]);
  }

  planInto(store, pattern, room) {
    return this.withRooms('plan', [store, pattern], [room]);
  }

  listInto(store, pattern, work, room) {
    return this.withRooms('list', [store, pattern], [work, room]);
  }

  withRooms(name, inputs, rooms) {
    let lent, at;
    const told = this.make(name, (layer) => {
      lent = layer;
      at = [...inputs, ...rooms].map((array) => lent.copyOf(array));
      const lengths = [...inputs, ...rooms].map((array) => BigInt(array.length));
      return (results) => [...at.flatMap((address, place) => [address, lengths[place]]), results];
    });
    rooms.forEach((room, place) => lent.giveBack(at[inputs.length + place], room));
    return told;
  }

  /** The store of a draft. */
  build(draft) {
    let lent, room;
    const length = draft.length + INDEX_BYTES;
    const { answer, results } = this.make('build', (layer) => {
      lent = layer;
      const at = lent.copyOf(draft);
      room = lent.take(length);
      return (told) => [at, BigInt(draft.length), room, BigInt(length), told];
    });
    if (answer !== ANSWERED) return refusal('build', answer);
    return { answer, store: lent.bytes(room, results[0]).slice() };
  }

  /** Whether building from the store's own records gives the same bytes. */
  admit(store) {
    const { answer } = this.make('admit', (lent) => {
      const at = lent.copyOf(store);
      return () => [at, BigInt(store.length)];
    });
    return answer === ANSWERED ? { answer } : refusal('admit', answer);
  }

  /** The bound T and the rows of the plan of a pattern, over the constraints of a store or draft. */
  plan(store, pattern) {
    const room = new Uint32Array(PLAN_WORDS);
    const { answer, results } = this.planInto(store, pattern, room);
    if (answer !== ANSWERED) return refusal('plan', answer);
    const header = new DataView(pattern.buffer, pattern.byteOffset, 12);
    const count = header.getUint32(4, true) + header.getUint32(8, true); // p + q: the pattern is right
    return { answer, bound: results[0], rows: Array.from({ length: count }, (_, row) => planRow(room, row)) };
  }

  /** The matches of a pattern; the room for them grows up to mostWords. */
  list(store, pattern, { mostWords = MOST_ROOM_WORDS } = {}) {
    const planned = this.plan(store, pattern);
    if (planned.answer !== ANSWERED) return refusal('list', planned.answer);
    for (let words = Math.min(FIRST_ROOM_WORDS, mostWords); ; words = Math.min(8 * words, mostWords)) {
      const listed = this.listOnce(store, pattern, 2 * planned.bound, words);
      if (listed.answer !== 10 || words >= mostWords) return listed;
    }
  }

  listOnce(store, pattern, workWords, roomWords) {
    let lent, room;
    const { answer, results } = this.make('list', (layer) => {
      lent = layer;
      const given = [store, pattern].flatMap((array) => [lent.copyOf(array), BigInt(array.length)]);
      given.push(lent.take(4 * workWords), BigInt(workWords));
      room = lent.take(4 * roomWords);
      return (told) => [...given, room, BigInt(roomWords), told];
    });
    if (answer !== ANSWERED) return refusal('list', answer);
    const width = new DataView(pattern.buffer, pattern.byteOffset, 8).getUint32(4, true);
    const matches = results[0] + results[UPPER_MATCHES] * 2 ** 32;
    const [, nodeEntries, edgeEntries, bound] = results;
    return { answer, matches, nodeEntries, edgeEntries, bound, width, words: lent.words(room, matches * width).slice() };
  }
}

function planRow(room, row) {
  const [kind, number, fetched, constraint, a, b, c, figure] = room.subarray(row * ROW_WORDS, (row + 1) * ROW_WORDS);
  const chosen = [a, b, c].filter((node) => node !== NO_CHOSEN);
  return { kind: kind === 1 ? 'edge' : 'node', number, fetched, constraint, chosen, figure };
}

/** The matches of a listing, each as an array of node ids in pattern order. */
export function* matchesOf(listed) {
  for (let at = 0; at < listed.words.length; at += listed.width) yield listed.words.subarray(at, at + listed.width);
}
