#!/usr/bin/env node
// Makes the calls of target/wasm/bahrufaz.wasm on cases from standard input, and writes whole outcomes to standard
// output, as tests/boundary/serve.c does for the archive: its first comment has the form of cases and outcomes.

import fs from 'node:fs';
import { Library } from './library.mjs';

const STACK = 8_388_608; // the stack stands at the foot of the memory
const MARK = 0xa5;
const wasm = new URL('../target/wasm/bahrufaz.wasm', import.meta.url);

/** The next bytes of the input; null where it has ended before the first. */
function take(length) {
  const bytes = new Uint8Array(length);
  for (let at = 0; at < length; ) {
    const got = fs.readSync(0, bytes, at, length - at, null);
    if (got === 0 && at === 0) return null;
    if (got === 0) throw new Error('a case ends early');
    at += got;
  }
  return bytes;
}

function tell(array) {
  const bytes = new Uint8Array(array.buffer, array.byteOffset, array.byteLength);
  for (let at = 0; at < bytes.length; ) at += fs.writeSync(1, bytes, at);
}

const words = (bytes) => new Uint32Array(bytes.buffer);

function call(library, which, store, pattern, work, room) {
  if (which === 1) return library.buildInto(store, room);
  if (which === 2) return { answer: library.admit(store).answer, results: new Uint32Array(8) };
  if (which === 3) return library.planInto(store, pattern, words(room));
  if (which === 4) return library.listInto(store, pattern, words(work), words(room));
  throw new Error('no such call');
}

/** One case: the outcome of its calls, with the shortest time of one. */
function serve(library, [which, times, ...lengths]) {
  const [store, pattern, work, room] = lengths.map((length) => take(length) ?? new Uint8Array(0));
  let told, best = Infinity;
  for (let turn = 0; turn < times; turn++) {
    const from = process.hrtime.bigint();
    told = call(library, which, store, pattern, work, room);
    best = Math.min(best, Number(process.hrtime.bigint() - from));
  }
  tell(new Uint32Array([told.answer, ...told.results, best, best / 2 ** 32]));
  tell(work);
  tell(room);
}

const library = await Library.load(fs.readFileSync(wasm));
const stack = () => new Uint8Array(library.instance.exports.memory.buffer, 0, STACK);
stack().fill(MARK);
for (let asked; (asked = take(24)); ) serve(library, words(asked));
const lowest = stack().findIndex((byte) => byte !== MARK);
tell(new Uint32Array([lowest < 0 ? 0 : STACK - lowest]));
