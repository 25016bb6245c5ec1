// Reads a table row by row: points with optional names, or edges between names.

/**
 * @typedef {import('./types.js').Choice} Choice
 * @typedef {import('./sources.js').Source} Source
 */

import { InputError } from './boruvka.js';
import { chosenBy, degreesNotes, hasComma, headerNotes, isMissing } from './columns.js';
import { isRounded, numberOf, rankOfNames } from './columns.js';
import { Packer } from './names.js';
import { fieldsOf, separatorOf } from './rows.js';

export const MOST_POINTS = 1_000_000;
const MOST_LINKS = 16_000_000;
const MOST_COLUMNS = 1000;
const SAMPLE = 6; // rows by which columns are chosen
const SEPARATOR_LINE = /^sep=(.)\s*$/i; // a first line with the separator, as Excel writes it
const COMMENT = /^\s*#/;

// Reads the fields of one table, and rejects the bad ones.
class Reader {
  constructor(separator) {
    this.separator = separator;
    this.commas = separator !== ',';
    this.point = '';
    this.comma = '';
  }

  fields(row, line, count) {
    const fields = fieldsOf(row, this.separator, line);
    if (fields.length > MOST_COLUMNS) throw new InputError('TooManyColumns', line, String(fields.length));
    const isOther = count && fields.length !== count;
    if (isOther) throw new InputError('OtherColumns', line, `${fields.length} instead of ${count}`);
    return fields;
  }

  number(field, line) {
    const number = numberOf(field, this.commas);
    if (!Number.isFinite(number)) throw new InputError('NoNumber', line, `‘${field.slice(0, 40)}’`);
    if (this.commas) this.checkMark(field, line);
    return number;
  }

  // The number in a field. A whole number that a double would round is rejected.
  whole(field, line, kind) {
    const number = this.number(field, line);
    if (isRounded(field, number)) throw new InputError(kind, line, field.slice(0, 40));
    return number;
  }

  // All numbers of a table must have the same decimal mark.
  checkMark(field, line) {
    if (hasComma(field)) this.comma ||= field;
    else if (field.includes('.')) this.point ||= field;
    if (this.comma && this.point) throw new InputError('PointAndComma', line, `‘${field.slice(0, 40)}’`);
  }

  notes() {
    const { comma } = this;
    return comma ? [`A comma is read as the decimal point: ${comma} is ${comma.replace(',', '.')}.`] : [];
  }
}

// A growing list of points with optional names.
export class Points {
  constructor(kind, hasNames) {
    this.kind = kind;
    this.places = [];
    this.names = hasNames ? new Packer() : null;
  }

  add(across, up, name, line) {
    if (this.kind === 'globe' && !(Math.abs(up) <= 90)) throw new InputError('NoLatitude', line, String(up));
    if (this.kind === 'globe' && !(Math.abs(across) <= 360)) throw new InputError('NoLongitude', line, String(across));
    if (this.places.length >= 2 * MOST_POINTS) throw new InputError('TooManyPoints', line);
    this.places.push(across, up);
    this.names?.add(name);
  }

  all(notes) {
    if (!this.places.length) throw new InputError('NoPoint');
    notes.push(...this.names?.notes() ?? []);
    return { kind: this.kind, points: new Float64Array(this.places), names: this.names?.packed() ?? null, notes };
  }
}

class PointTable extends Points {
  constructor(reader, { kind, roles }) {
    super(kind, roles.name >= 0);
    this.reader = reader;
    this.roles = roles;
  }

  take(fields, line) {
    const { across, up, name } = this.roles, number = column => this.reader.whole(fields[column], line, 'LongPlace');
    this.add(number(across), number(up), fields[name], line);
  }
}

// Edges between names. Names are numbered as they occur, and in the end by their order.
class LinkTable {
  constructor(reader, { roles }) {
    this.reader = reader;
    this.roles = roles;
    this.ids = new Map();
    this.endpoints = [];
    this.weights = [];
    this.loops = 0;
  }

  id(name, line) {
    const known = this.ids.get(name);
    if (known !== undefined) return known;
    if (name === '') throw new InputError('NoName', line);
    if (this.ids.size >= MOST_POINTS) throw new InputError('TooManyPoints', line);
    this.ids.set(name, this.ids.size);
    return this.ids.size - 1;
  }

  take(fields, line) {
    const { from, to, weight } = this.roles, u = this.id(fields[from], line), v = this.id(fields[to], line);
    const number = weight >= 0 ? this.reader.whole(fields[weight], line, 'LongWeight') : 1;
    if (this.weights.length >= MOST_LINKS) throw new InputError('TooManyLinks', line);
    if (u === v) this.loops++;
    this.endpoints.push(u, v);
    this.weights.push(number);
  }

  all(notes) {
    if (!this.weights.length) throw new InputError('NoLink');
    if (this.loops) notes.push(`Edges from a name to itself are left out: ${this.loops}.`);
    if (this.roles.weight < 0) notes.push('No column is a weight, so each edge has the weight 1.');
    const all = [...this.ids.keys()], order = rankOfNames(all), rank = new Uint32Array(all.length);
    const names = new Packer();
    order.forEach((id, place) => {
      rank[id] = place;
      names.add(all[id]);
    });
    const endpoints = Uint32Array.from(this.endpoints, id => rank[id]), weights = new Float64Array(this.weights);
    return { kind: 'links', endpoints, weights, names: names.packed(), notes: [...notes, ...names.notes()] };
  }
}

// The first rows of a table, its separator, and the comment above them, which may name the columns.
async function sampleOf(source) {
  const rows = [];
  let separator = '', comment = /** @type {any} */ (null);
  await source.rows((row, line) => {
    const found = !rows.length && !separator && SEPARATOR_LINE.exec(row);
    if (found) [, separator] = found;
    else if (!rows.length && COMMENT.test(row)) comment = { row: row.replace(COMMENT, ''), line };
    else rows.push({ row, line });
    return rows.length < SAMPLE;
  });
  if (!rows.length && comment) rows.push({ row: comment.row, line: comment.line });
  if (!rows.length) throw new InputError('NoPoint');
  return { rows, separator: separator || separatorOf(rows[0].row), comment };
}

// The fields of a table, row by row. A comment above them names the columns if it has as many fields and no number.
class Table {
  constructor({ rows, separator, comment }) {
    const [first] = rows;
    this.separator = separator;
    this.reader = new Reader(separator);
    this.first = first.line;
    this.comments = 0;
    this.marked = 0;
    this.left = null;
    this.hasComment = Boolean(comment);
    this.count = this.reader.fields(first.row, first.line).length;
    this.sample = rows.filter(({ row }) => row === first.row || !COMMENT.test(row) || this.isRow(row))
      .map(({ row, line }) => this.reader.fields(row, line, this.count));
    const named = comment ? fieldsOf(comment.row, separator, comment.line) : [];
    const isNumber = field => !Number.isNaN(numberOf(field, this.reader.commas));
    this.named = named.length === this.count && this.count > 1 && !named.some(isNumber) && comment.line !== first.line;
    if (this.named) this.sample.unshift(named);
  }

  isRow(row) {
    return fieldsOf(row, this.separator, 0).length === this.count;
  }

  // Whether a row is data. A line that begins with # is data if it has as many fields as the other rows.
  isData(row, line, hasHeader) {
    if (line < this.first || (line === this.first && hasHeader && !this.named)) return false;
    if (line === this.first || !COMMENT.test(row)) return true;
    const isRow = this.isRow(row);
    if (isRow) this.marked++;
    else this.comments++;
    return isRow;
  }

  // Whether a row has no value in a column that is used. Such rows are counted.
  lacks(fields, line, { roles }) {
    const isName = role => role === 'from' || role === 'to';
    const isEmpty = (role, field) => isName(role) ? !field : isMissing(field);
    const lacked = Object.entries(roles).find(([role, at]) => role !== 'name' && at >= 0 && isEmpty(role, fields[at]));
    if (!lacked) return false;
    this.left ??= { line, field: fields[lacked[1]], count: 0, isName: isName(lacked[0]) };
    this.left.count++;
    return true;
  }

  // What a program that reads the table has to skip.
  skips() {
    if (this.named) return 'header';
    return this.hasComment || this.comments ? 'comments' : '';
  }

  notes(rows, cut) {
    const notes = this.reader.notes(), { left } = this;
    if (left?.count === 1) notes.push(`1 of ${rows} rows is left out: line ${left.line} has no value.`);
    else if (left) {
      notes.push(`${left.count} of ${rows} rows are left out: they have no value. The first is in line ${left.line}.`);
    }
    if (this.comments) notes.push(`Comments (#) between the rows are left out: ${this.comments}.`);
    if (this.marked) notes.push(`Rows that begin with # are read like the others: ${this.marked}.`);
    if (cut) notes.push(`The file is read as Windows-1252: ‘${cut}’.`);
    return notes;
  }
}

// The points or edges of a table, or { ask } if somebody has to choose columns or leave out rows without a value.
async function read(source, choice) {
  const table = new Table(await sampleOf(source)), { reader, sample, count, separator } = table;
  if (!choice) {
    const { choice: plain, guess } = chosenBy(sample, reader.commas);
    if (!plain && count < 2) throw new InputError('OneColumn', table.first, `‘${sample[0][0].slice(0, 40)}’`);
    if (!plain) return { ask: { rows: sample, guess } };
    choice = plain;
  }
  const all = choice.kind === 'links' ? new LinkTable(reader, choice) : new PointTable(reader, choice);
  let rows = 0;
  await source.rows((row, line) => {
    if (!table.isData(row, line, choice.hasHeader)) return;
    const fields = reader.fields(row, line, count);
    rows++;
    if (!table.lacks(fields, line, choice)) all.take(fields, line);
  });
  if (table.left && table.left.count === rows) throw lacking(table.left);
  if (table.left && !choice.leavesOut) return { ask: { missing: { ...table.left, rows }, choice } };
  const head = choice.hasHeader ? headerNotes(sample[0], choice) : [];
  const degrees = degreesNotes(sample.slice(choice.hasHeader ? 1 : 0), choice, reader.commas);
  const more = {
    separator, commas: Boolean(reader.comma), encoding: source.encoding, skips: table.skips(),
  };
  return { ...all.all([...head, ...degrees, ...table.notes(rows, source.foreign)]), choice: { ...choice, ...more } };
}

const lacking = ({ line, field, isName }) =>
  isName ? new InputError('NoName', line) : new InputError('NoNumber', line, `‘${field}’`);

export async function readTable(source, choice) {
  try {
    return await read(source, choice);
  } catch (error) {
    if (!(error instanceof InputError) || error.kind !== 'NoUtf8' || !source.turnsToWindows()) throw error;
    return read(source, choice);
  }
}

// The table with one more column, as a file. `cell` returns the new field of each row that was read.
export async function widened(source, choice, title, cell) {
  source.encoding = choice.encoding;
  const table = new Table(await sampleOf(source)), { separator, reader, count } = table, parts = [];
  let at = 0, text = '';
  const add = (row, more) => { text += `${row}${separator}${more}\n`; };
  if (choice.hasHeader && table.named) add(table.sample[0].join(separator), title);
  await source.rows((row, line) => {
    if (table.isData(row, line, choice.hasHeader)) {
      add(row, table.lacks(reader.fields(row, line, count), line, choice) ? '' : cell(at++));
    } else if (line === table.first) add(row, title);
    if (text.length > 2 ** 20) {
      parts.push(text);
      text = '';
    }
  });
  return new Blob([...parts, text], { type: 'text/csv' });
}
