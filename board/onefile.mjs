// The page as one file, which opens from a folder: modules may not be loaded there, so they become plain scripts.

import path from 'node:path';

const IMPORT = /^(import|export) \{([^}]*)\} from '([^']+)';\n/gm;
const DECLARED = /^export (?:async )?(?:function\*?|class|const) (\w+)/gm;
const pairs = (names) => names.split(',').map((name) => name.trim()).filter(Boolean).map((name) => name.split(' as '));

/** One module as a function that returns what it exports; what it imports is put into needs. */
function asFunction(name, text, needs) {
  const exported = [...text.matchAll(DECLARED)].map(([, one]) => one);
  const body = text
    .replace(IMPORT, (_, kind, names, from) => {
      const module = path.posix.join(path.posix.dirname(name), from);
      needs.push(module);
      if (kind === 'export') exported.push(...pairs(names).map(([one, other]) => other ?? one));
      const taken = pairs(names).map(([one, other]) => (other ? `${one}: ${other}` : one)).join(', ');
      return `const { ${taken} } = modules['${module}'];\n`;
    })
    .replace(/^export /gm, '');
  return `modules['${name}'] = (() => {\n${body}\nreturn { ${exported.join(', ')} };\n})();\n`;
}

/** A plain script of a module and all that it imports, in the order in which they are needed. */
function script(entry, read) {
  const parts = new Map();
  const take = (name) => {
    if (parts.has(name)) return;
    parts.set(name, null);
    const needs = [], made = asFunction(name, read(name), needs);
    needs.forEach(take);
    parts.delete(name);
    parts.set(name, made); // after all that it needs
  };
  take(entry);
  return `(() => {\n'use strict';\nconst modules = {};\n${[...parts.values()].join('')}})();\n`;
}

const inScript = (text) => text.replaceAll('</script', '<\\/script');

/** The whole page: style, icon, assets and scripts in it. */
export function oneFile(read, assets) {
  const inlined = JSON.stringify(Object.fromEntries(assets));
  const worker = JSON.stringify(script('board/worker.mjs', read));
  const icon = `data:image/svg+xml;base64,${Buffer.from(read('board/icon.svg')).toString('base64')}`;
  const scripts = `globalThis.bahrufazAssets = ${inlined};\nglobalThis.bahrufazWorker = ${worker};\n${script('board/main.mjs', read)}`;
  return read('board/index.html')
    .replace(/<link rel="manifest".*\n/, '')
    .replace('href="icon.svg"', `href="${icon}"`)
    .replace(/<link rel="stylesheet".*/, () => `<style>\n${read('board/board.css')}</style>`)
    .replace(/<script type="module".*/, () => `<script>\n${inScript(scripts)}</script>`);
}
