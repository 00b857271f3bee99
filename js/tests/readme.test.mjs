// The example of the README prints what its comments say.

import assert from 'node:assert/strict';
import { execFileSync } from 'node:child_process';
import fs from 'node:fs';
import { fileURLToPath } from 'node:url';
import test from 'node:test';

test('the example prints what it says', () => {
  const root = fileURLToPath(new URL('../..', import.meta.url));
  const [, code] = /```js\n([^]*?)```/.exec(fs.readFileSync(`${root}js/README.md`, 'utf8'));
  const said = [...code.matchAll(/\/\/ prints (.*)/g)].map(([, line]) => line);
  const printed = execFileSync(process.execPath, ['--input-type=module', '--eval', code], { cwd: root, encoding: 'utf8' });
  assert.deepEqual(printed.trim().split('\n'), said);
  assert.equal(said.length, 3);
});
