// Lines of words: what the text forms have in common. docs/FORMATS.md specifies them, tests/formats has cases.

/** What is wrong with a text or a graph, before any call; a text's error has its file and line. */
export class Wrong extends Error {}

export class WrongText extends Wrong {
  constructor(file, line, reason) {
    super(`${file}:${line}: ${reason}`);
    Object.assign(this, { file, line, reason, mistakes: [this] });
  }
}

const MOST_TOLD = 20;

/** All that is wrong about a text, in line order; file, line and reason are those of the first. */
export class WrongTexts extends WrongText {
  constructor(mistakes) {
    const [{ file, line, reason }] = mistakes;
    super(file, line, reason);
    const more = mistakes.length - MOST_TOLD;
    const told = mistakes.slice(0, MOST_TOLD).map(({ message }) => message);
    this.message = [...told, ...(more > 0 ? [`${file}: ${more} more mistakes`] : [])].join('\n');
    this.mistakes = mistakes;
  }
}

// blanks are those of Unicode, in every implementation the same ones
const BLANK = '\\t-\\r\\x1c-\\x20\\x85\\xa0\\u1680\\u2000-\\u200a\\u2028\\u2029\\u202f\\u205f\\u3000';
const BARE = `(?:(?!->)[^${BLANK}"#,<>=≤≥→])+`;
const TOKEN = new RegExp(
  `[${BLANK}]*(?:(?<quoted>"(?:[^"\\\\]|\\\\[^])*")|(?<sign>->|→|<=|>=|≤|≥|<|>|=|,)|(?<word>${BARE})|(?<comment>#[^]*))`,
  'uy',
);
const FIRST_WORD = new RegExp(`[^${BLANK}]+`, 'u');
const BLANKS_AT_END = new RegExp(`[${BLANK}]+$`, 'u');
const BARE_NAME = new RegExp(`^${BARE}$`, 'u');
const WHOLE_NUMBER = /^-?[0-9]+$/;
const LONE_SURROGATE = /[\ud800-\udfff]/u;
// what a terminal would act on, or not show: control characters, zero-width and direction marks, line separators
const HIDDEN = /[\x00-\x1f\x7f-\x9f\u200b-\u200f\u2028-\u202e\u2066-\u2069\ufeff]/gu;
const UTF_16 = [0xfffe, 0xfeff]; // what such a text begins with
const MAX_TEXT_BYTES = 2 ** 28;
const MAX_LINE = 100_000;
const SHOWN = 60; // characters of what was found, in a message
const BEGINS_A_NAME = /^[\p{L}\p{N}]/u;
const KEYWORDS = ['value', 'and', 'at', 'most', 'or'];
const SIGNS = { '→': '->', '≤': '<=', '≥': '>=' };
const DIGITS = 20; // so many are beyond every range, however many follow

/** A text with nothing hidden in it: such characters are shown as in JSON. */
const visible = (text) => text.replace(HIDDEN, (c) => `\\u${c.charCodeAt(0).toString(16).padStart(4, '0')}`);

/** How many characters a text has. */
export const lengthOf = (text) => (text.length > SHOWN ? [...text].length : text.length);

/** A text for a message: its beginning, if it is long. */
export function shortened(text) {
  return visible(lengthOf(text) <= SHOWN ? text : `${[...text].slice(0, SHOWN).join('')}..`);
}

/** Whether a name can be written: at least one character, all of them Unicode. */
export const isName = (name) => name !== '' && !LONE_SURROGATE.test(name);

/** A whole number with commas between its thousands. */
export const grouped = (number) => String(number).replace(/\B(?=(\d{3})+$)/g, ',');

/** The number, if it may be that. */
export function within(what, number, low, high) {
  if (!(low <= number && number <= high))
    throw new Wrong(`${what} is ${grouped(number)}, and must be from ${grouped(low)} to ${grouped(high)}`);
  return number;
}

/** The whole number that a bare word is, if it is one. */
export function numberOf(token) {
  if (token?.kind !== 'word' || !WHOLE_NUMBER.test(token.text)) return null;
  const exact = BigInt(token.text.slice(0, DIGITS));
  return Number.isSafeInteger(Number(exact)) ? Number(exact) : exact;
}

/** The tokens of one line, taken one after another; errors name file and line. */
class Line {
  constructor(file, line, tokens) {
    Object.assign(this, { file, line, tokens, at: 0 });
  }

  error(reason) {
    return new WrongText(this.file, this.line, reason);
  }

  expected(what) {
    const found = this.peek() ? `'${shortened(this.nextText())}'` : 'the end of the line';
    return this.error(`expected ${what}, found ${found}${this.quotesHint()}`);
  }

  /** Two words where one is expected: perhaps a name with a blank in it. */
  quotesHint() {
    const at = this.at === 3 && this.tokens[0].text === 'node' ? 2 : this.at;
    const words = this.tokens.slice(Math.max(at - 1, 1), at + 1);
    const isPlain = (word) => word?.kind === 'word' && numberOf(word) === null;
    if (words.length < 2 || ![...words, this.peek()].every(isPlain)) return '';
    if (!BEGINS_A_NAME.test(this.nextText()) || KEYWORDS.includes(this.nextText())) return '';
    return `; a name with a blank in it is quoted, as ${shortened(spelled(words.map(({ text }) => text).join(' ')))}`;
  }

  /** What stands next, whatever it is. */
  nextText() {
    return this.peek()?.text ?? '';
  }

  peek() {
    return this.tokens[this.at];
  }

  /** The next name or number. */
  take(what) {
    const token = this.peek();
    if (!token || token.kind === 'sign') throw this.expected(what);
    this.at += 1;
    return token;
  }

  /** Goes past these words if they stand next. */
  skip(...words) {
    const ahead = this.tokens.slice(this.at, this.at + words.length);
    if (!words.every((word, place) => ahead[place]?.text === word && ahead[place].kind !== 'quoted')) return false;
    this.at += words.length;
    return true;
  }

  want(...words) {
    if (!this.skip(...words)) throw this.expected(words.join(' '));
  }

  /** Goes past one of these words. */
  choose(words, what) {
    const token = this.peek();
    if (!token || token.kind === 'quoted' || !words.includes(token.text)) throw this.expected(what);
    this.at += 1;
    return token.text;
  }

  wholeNumber(what, low, high) {
    const number = numberOf(this.peek());
    if (number === null || number < low || number > high)
      throw this.expected(`${what}, a whole number from ${grouped(low)} to ${grouped(high)}`);
    this.at += 1;
    return number;
  }

  end() {
    if (this.peek()) throw this.expected('the end of the line');
  }
}

/** The first word of a line, as blanks divide it. */
export const firstWord = (line) => FIRST_WORD.exec(line)?.[0];

/** A line, word by word. */
export const lineOf = (line, file, number) => new Line(file, number, tokensOf(line, file, number));

function tokensOf(whole, file, number) {
  const tooLong = whole.length > MAX_LINE && lengthOf(whole) > MAX_LINE;
  if (tooLong)
    throw new WrongText(file, number, `a line has at most ${grouped(MAX_LINE)} characters, and this has ${grouped(lengthOf(whole))}`);
  const line = whole.replace(BLANKS_AT_END, ''), tokens = [];
  for (TOKEN.lastIndex = 0; TOKEN.lastIndex < line.length; ) {
    const found = TOKEN.exec(line)?.groups;
    if (!found) throw new WrongText(file, number, 'expected a closing quote');
    const { quoted, sign, word } = found;
    if (quoted !== undefined) tokens.push({ kind: 'quoted', text: unquoted(quoted, file, number) });
    else if (sign !== undefined) tokens.push({ kind: 'sign', text: SIGNS[sign] ?? sign });
    else if (word !== undefined) tokens.push({ kind: 'word', text: word });
  }
  return tokens;
}

function unquoted(text, file, number) {
  let name;
  try {
    name = JSON.parse(text);
  } catch {
    name = '\ud800';
  }
  if (name === '') throw new WrongText(file, number, 'expected a name, found an empty one');
  if (!isName(name)) throw new WrongText(file, number, `expected a name quoted as in JSON, found ${shortened(text)}`);
  return name;
}

/** The text of a file: UTF-8, with or without a byte order mark, any line ends. */
export function textOfBytes(bytes, file) {
  if (bytes.length > MAX_TEXT_BYTES)
    throw new Wrong(`${file}: a text has at most ${grouped(MAX_TEXT_BYTES)} bytes, and this has more`);
  try {
    return new TextDecoder('utf-8', { fatal: true }).decode(bytes).replace(/\r\n?/g, '\n');
  } catch {
    const found = UTF_16.includes(bytes[0] * 256 + bytes[1]) ? 'UTF-16: save it as UTF-8' : 'other bytes';
    throw new WrongText(file, firstBadLine(bytes), `expected UTF-8 text, found ${found}`);
  }
}

/** The line of the first bytes that are no UTF-8; no character goes past the end of a line. */
function firstBadLine(bytes) {
  const decoder = new TextDecoder('utf-8', { fatal: true });
  for (let line = 1, start = 0; ; line += 1) {
    const end = bytes.indexOf(10, start);
    try {
      decoder.decode(bytes.subarray(start, end < 0 ? bytes.length : end));
    } catch {
      return line;
    }
    start = end + 1;
  }
}

/** A name as the text forms spell it: quoted where it would not be read as a name, or not be seen. */
export function spelled(name) {
  const isPlain = BARE_NAME.test(name) && !WHOLE_NUMBER.test(name) && visible(name) === name;
  return isPlain ? name : visible(JSON.stringify(name));
}

// characters that take two places
const WIDE = /[\u1100-\u115f\u2e80-\ua4cf\uac00-\ud7a3\uf900-\ufaff\ufe30-\ufe6f\uff00-\uff60\uffe0-\uffe6\u{1f300}-\u{3fffd}]/u;

function textWidth(text) {
  return [...text].reduce((width, c) => width + (/\p{M}/u.test(c) ? 0 : WIDE.test(c) ? 2 : 1), 0);
}

/** Rows of words in columns, two blanks between them; rows may be of different lengths. */
export function aligned(rows) {
  const widths = [];
  for (const row of rows) row.forEach((cell, at) => (widths[at] = Math.max(widths[at] ?? 0, textWidth(cell))));
  return rows.map((row) => row.map((cell, at) => cell + ' '.repeat(widths[at] - textWidth(cell))).join('  ').trimEnd());
}
