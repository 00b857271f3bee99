// assemble.mjs WASM OUT: puts the page together. OUT/index.html with its modules is for a static server;
// OUT/bahrufaz-board.html is the same page in one file, which opens from a folder too.

import crypto from 'node:crypto';
import fs from 'node:fs';
import path from 'node:path';
import { fileURLToPath } from 'node:url';
import { oneFile } from './onefile.mjs';
import { WORLD_FILES } from './worlds.mjs';

const [, , wasm, out] = process.argv;
const root = fileURLToPath(new URL('..', import.meta.url));
const NOT_SERVED = ['assemble.mjs', 'onefile.mjs', 'serve.mjs'];

function modules(folder) {
  const names = fs.readdirSync(path.join(root, folder)).filter((name) => name.endsWith('.mjs') && !NOT_SERVED.includes(name));
  return names.map((name) => `${folder}/${name}`);
}

/** Where each file of the page comes from. */
function pageFiles() {
  const files = new Map([['bahrufaz.wasm', wasm]]);
  const beside = ['index.html', 'manifest.webmanifest', 'icon.svg', 'icon-512.png'];
  for (const name of beside) files.set(name, path.join(root, 'board', name));
  const below = [...modules('js'), ...modules('board'), 'board/board.css', ...WORLD_FILES];
  for (const name of below) files.set(name, path.join(root, name));
  return files;
}

function write(name, data) {
  fs.mkdirSync(path.dirname(path.join(out, name)), { recursive: true });
  fs.writeFileSync(path.join(out, name), data);
}

/** The service worker with the list of files, and a version that follows what is in them. */
function serviceWorker(files) {
  const sum = crypto.createHash('sha256');
  for (const [name, from] of files) sum.update(name).update(fs.readFileSync(from));
  const names = ['./', ...files.keys()].map((name) => `'${name}'`).join(', ');
  const text = fs.readFileSync(path.join(root, 'board/sw.js'), 'utf8');
  return text.replace('@VERSION@', `bahrufaz-${sum.digest('hex').slice(0, 16)}`).replace("'@FILES@'", names);
}

fs.rmSync(out, { recursive: true, force: true });
const files = pageFiles();
for (const [name, from] of files) write(name, fs.readFileSync(from));
write('sw.js', serviceWorker(files));
const assets = ['bahrufaz.wasm', ...WORLD_FILES].map((name) => [name, fs.readFileSync(files.get(name)).toString('base64')]);
write('bahrufaz-board.html', oneFile((name) => fs.readFileSync(path.join(root, name), 'utf8'), assets));
console.log(`board: ${out} has index.html for a static server, and bahrufaz-board.html for a folder`);
