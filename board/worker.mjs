// The worker: makes the calls that may take long, and keeps nothing but the library.

import { Library } from '../js/bahrufaz.mjs';
import { openWorld } from './opening.mjs';

const MOST_WORDS = 1 << 22; // matches beyond 16 MiB are no list for a person
let ready;

function work({ kind, files, store, pattern }, tell) {
  if (kind === 'open') return ready.then((library) => openWorld(library, files, tell));
  tell({ step: 'listing', done: 0, of: 1 });
  return ready.then((library) => library.list(store, pattern, { mostWords: MOST_WORDS }));
}

/** Answers what the page asks; errors of the files come back as their sentence. */
function serveWork(scope) {
  scope.onmessage = async ({ data: { id, module, ...asked } }) => {
    if (module) {
      ready = Library.load(module);
      return;
    }
    try {
      scope.postMessage({ id, result: await work(asked, (progress) => scope.postMessage({ id, progress })) });
    } catch (error) {
      scope.postMessage({ id, wrong: error.message });
    }
  };
}

serveWork(globalThis);
