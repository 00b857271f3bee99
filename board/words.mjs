// Counts in words.

import { grouped } from '../js/bahrufaz.mjs';

export const counted = (count, one, many) => (Number(count) === 1 ? `1 ${one}` : `${grouped(count)} ${many}`);
