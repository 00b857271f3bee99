// What the browser keeps of one's own patterns and of the world last opened, so that closing the page loses nothing.

import { Drawing } from './drawing.mjs';

const KEY = 'bahrufaz-board', SHELF = 'world', LAST = 'last';

export function remember({ drawings, builtIn }) {
  const own = drawings.filter(({ own: isOwn, state }) => isOwn && state.nodes.length);
  const patterns = own.map((drawing) => ({ title: drawing.title, text: drawing.text(), done: drawing.done }));
  try {
    localStorage.setItem(KEY, JSON.stringify({ world: builtIn?.id ?? null, patterns }));
  } catch {
    // a browser that keeps nothing still draws
  }
}

export function recall() {
  try {
    const { world, patterns } = JSON.parse(localStorage.getItem(KEY)) ?? {};
    return { world, drawings: (patterns ?? []).map(recalled) };
  } catch {
    return { world: null, drawings: [] };
  }
}

function recalled({ title, text, done }) {
  return Object.assign(Drawing.ofText(text, title, title), { own: true, done });
}

/** Does something with the shelf on which the files of a world are kept. */
function onShelf(mode, act) {
  return new Promise((resolve, reject) => {
    const opening = indexedDB.open(KEY, 1);
    opening.onupgradeneeded = () => opening.result.createObjectStore(SHELF);
    opening.onerror = () => reject(opening.error);
    opening.onsuccess = () => {
      const request = act(opening.result.transaction(SHELF, mode).objectStore(SHELF));
      request.onsuccess = () => resolve(request.result);
      request.onerror = () => reject(request.error);
    };
  });
}

/** Keeps the files of a world; a browser that keeps nothing still opens them. */
export const keepWorld = (title, files) => onShelf('readwrite', (shelf) => shelf.put({ title, files }, LAST)).catch(() => {});

/** The title and files of the world that was last opened from files, if they are kept. */
export const keptWorld = () => onShelf('readonly', (shelf) => shelf.get(LAST)).catch(() => undefined);
