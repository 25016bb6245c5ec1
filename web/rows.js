// The rows of a text that comes in pieces: CSV with quotes, or fields separated by tabs, semicolons, bars or spaces.

import { InputError } from './boruvka.js';

const MOST_IN_ROW = 1_000_000; // characters
const MOST_LINES = 20_000_000;
const CONTROLS = /[\0-\x08\x0e-\x1f]/; // these occur in no text
const BREAKS = /\r\n|\n|\r(?=[^])/; // the LF of a CR at the end may be in the next piece

// The separator of a table, by its first row: the first of these that occurs outside quotes, or else spaces.
export const separatorOf = row => ['\t', ';', '|', ','].find(mark => row.replace(/"[^"]*"/g, '').includes(mark)) ?? ' ';

// The fields of a row, without the quotes around them. Two quotes inside a field stand for one.
export function fieldsOf(row, separator, line) {
  if (separator === ' ' && row.includes('\n')) throw strayQuote(row, line);
  if (separator === ' ') return row.trim().split(/\s+/).map(unquoted);
  if (!row.includes('"')) return row.split(separator).map(field => field.trim());
  const fields = [];
  let begin = 0, isInside = false;
  for (let at = 0; at <= row.length; at++) {
    if (row[at] === '"') isInside = !isInside;
    if (at < row.length && (isInside || row[at] !== separator)) continue;
    fields.push(wholeField(row.slice(begin, at).trim(), separator, line));
    begin = at + 1;
  }
  return fields;
}

const strayQuote = (text, line) => new InputError('StrayQuote', line, `‘${text.slice(0, 40).split('\n')[0]}’`);

// A field without its quotes. Only quotes around the whole field may hide a separator or a line break: a single mark,
// for inches, would swallow the next row.
function wholeField(field, separator, line) {
  const isWhole = isQuoted(field) && !field.slice(1, -1).replaceAll('""', '').includes('"');
  if (!isWhole && (field.includes(separator) || field.includes('\n'))) throw strayQuote(field, line);
  return unquoted(field);
}

const isQuoted = field => /^"[^]*"$/.test(field);
const unquoted = field => isQuoted(field) ? field.slice(1, -1).replaceAll('""', '"') : field;

// Whether a line opens a quote that it doesn't close, or closes an open one.
const changesQuotes = line => line.includes('"') && line.split('"').length % 2 === 0;

// Calls `take(row, line)` for each row that isn't empty. Lines end in LF, CR or both, and rows may contain quoted
// lines.
export class Rows {
  constructor(take) {
    this.take = take;
    this.rest = '';
    this.held = [];
    this.length = 0;
    this.line = 0;
    this.first = 0;
  }

  push(text) {
    const control = text.search(CONTROLS);
    if (control >= 0) throw this.binaryError(text.slice(0, control));
    const all = this.rest + text, lines = all.split(all.includes('\r') ? BREAKS : '\n');
    this.rest = lines.pop();
    if (this.line + lines.length > MOST_LINES) throw new InputError('TooManyLines', MOST_LINES + 1);
    for (const line of lines) this.add(line);
    if (this.rest.length > MOST_IN_ROW) throw new InputError('LongRow', this.line + 1);
  }

  // The error of a control character after this part of the text.
  binaryError(before) {
    return new InputError('NoText', this.line + (this.rest + before).split(BREAKS).length, 'a binary file');
  }

  add(line) {
    this.line++;
    const isWithin = this.held.length > 0;
    if (!isWithin) [this.first, this.length] = [this.line, 0];
    if (isWithin !== changesQuotes(line)) this.hold(line);
    else if (isWithin) this.take([...this.held.splice(0), line].join('\n'), this.first);
    else if (line.trim() !== '') this.take(line, this.first);
  }

  // Stores a line of a row that isn't complete.
  hold(line) {
    this.length += line.length + 1;
    if (this.length > MOST_IN_ROW) throw new InputError('OpenQuote', this.first);
    this.held.push(line);
  }

  end() {
    if (this.rest.replace(/\r$/, '')) this.add(this.rest.replace(/\r$/, ''));
    if (this.held.length) throw new InputError('OpenQuote', this.first);
  }
}
