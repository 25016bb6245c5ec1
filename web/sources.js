// Reads a file: decompresses and decodes it, and recognizes its kind. It is read in pieces, so that it needn't fit into
// memory.

import { InputError } from './boruvka.js';
import { Rows } from './rows.js';

const MOST_BYTES = 2 ** 30; // of a text that is read as a whole
const HEAD = 4096; // bytes by which the kind is recognized
const PIECE = 2 ** 20; // bytes

// The first bytes of some kinds of files that aren't text.
const MAGIC = {
  '89504e47': 'a PNG picture',
  'ffd8ff': 'a JPEG picture',
  '47494638': 'a GIF picture',
  '504b0304': 'a ZIP, KMZ or Excel file',
  '25504446': 'a PDF',
  '28b52ffd': 'compressed by zstd',
  'fd377a58': 'compressed by xz',
  '425a68': 'compressed by bzip2',
  '53514c69': 'an SQLite file, perhaps a GeoPackage',
  '7f454c46': 'a program',
};

const hex = bytes => Array.from(bytes, byte => byte.toString(16).padStart(2, '0')).join('');

// A stream of bytes in pieces, like that of a file.
function streamOf(bytes) {
  let at = 0;
  return new ReadableStream({
    pull(controller) {
      if (at < bytes.length) controller.enqueue(bytes.subarray(at, at += PIECE));
      else controller.close();
    },
  });
}

// A file's bytes in pieces, decompressed if it is a .gz. `file` is a File, or { name, content } if a worker may not
// read files.
export class Source {
  constructor(file, head) {
    this.file = file;
    this.isGzip = hex(head.subarray(0, 2)) === '1f8b';
    this.encoding = '';
    this.foreign = '';
    this.name = file.name.toLowerCase().replace(/\.gz$/, '');
  }

  static async of(file) {
    const head = file.content?.subarray(0, 2) ?? new Uint8Array(await file.slice(0, 2).arrayBuffer());
    return new Source(file, head);
  }

  async *pieces() {
    const { content } = this.file, stream = content ? streamOf(content) : this.file.stream();
    const reader = (this.isGzip ? stream.pipeThrough(new DecompressionStream('gzip')) : stream).getReader();
    try {
      for (let read = await reader.read(); !read.done; read = await reader.read()) yield read.value;
    } catch (error) {
      if (this.isGzip && error instanceof TypeError) throw new InputError('BadGzip');
      throw error;
    } finally {
      reader.cancel().catch(() => {});
    }
  }

  async head() {
    const parts = [];
    let length = 0;
    for await (const piece of this.pieces()) {
      parts.push(piece);
      length += piece.length;
      if (length >= HEAD) break;
    }
    return joined(parts, length).subarray(0, HEAD);
  }

  // All bytes.
  async whole(most = MOST_BYTES) {
    const parts = [];
    let length = 0;
    for await (const piece of this.pieces()) {
      parts.push(piece);
      length += piece.length;
      if (length > most) throw new InputError('TooLong');
    }
    return joined(parts, length);
  }

  // Decodes a table as Windows-1252 from now on. Returns false if it was decoded so already.
  turnsToWindows() {
    if (this.encoding === 'windows-1252') return false;
    this.encoding = 'windows-1252';
    return true;
  }

  // Calls `take(row, line)` with the text of each row, until it returns false.
  async rows(take) {
    this.encoding ||= encodingOf(await this.head());
    try {
      return await this.rowsIn(this.encoding, take);
    } catch (error) {
      if (!(error instanceof TypeError)) throw error;
      throw new InputError(this.encoding === 'utf-8' ? 'NoUtf8' : 'NoUtf16');
    }
  }

  async rowsIn(encoding, take) {
    const decoder = new TextDecoder(encoding, { fatal: true }), isForeign = encoding === 'windows-1252';
    let goes = true;
    const rows = new Rows((row, line) => { goes = goes && take(row, line) !== false; });
    for await (const piece of this.pieces()) {
      const text = decoder.decode(piece, { stream: true });
      if (isForeign) this.checkForeign(text);
      rows.push(text);
      if (!goes) return rows.line;
    }
    rows.push(decoder.decode());
    rows.end();
    return rows.line;
  }

  // Five bytes aren't letters of Windows-1252. A file that contains one has another encoding.
  checkForeign(text) {
    if (/[\x80-\x9f]/.test(text)) throw new InputError('NoUtf8');
    this.foreign ||= /[^\n\r\t;,|]{0,12}[\u0100-\uffff\xa0-\xff][^\n\r\t;,|]{0,12}/.exec(text)?.[0] ?? '';
  }
}

function joined(parts, length) {
  const all = new Uint8Array(length);
  let at = 0;
  for (const part of parts) {
    all.set(part, at);
    at += part.length;
  }
  return all;
}

const encodingOf = head => ({ fffe: 'utf-16le', feff: 'utf-16be' })[hex(head.subarray(0, 2))] ?? 'utf-8';

const ENDINGS = { gr: 'gr', co: 'co', geojson: 'geojson', json: 'geojson', gpx: 'xml', kml: 'xml' };

// The kind of a file: `gr`, `co`, `geojson`, `xml` (GPX or KML) or `table`. Files that aren't text are rejected.
export function kindOf(name, head) {
  const magic = Object.keys(MAGIC).find(bytes => hex(head.subarray(0, 4)).startsWith(bytes));
  if (magic) throw new InputError('NoText', 0, MAGIC[magic]);
  const text = new TextDecoder('latin1').decode(head), ending = name.split('.').at(-1);
  if (ending === 'gr' || ending === 'co') return ending;
  if (/^(\xef\xbb\xbf)?\s*<(!doctype )?html/i.test(text)) throw new InputError('WebPage');
  if (/^(\xef\xbb\xbf)?\s*<(\?xml|gpx|kml)/i.test(text)) return 'xml';
  const first = text.split('\n').find(line => line.trim() && !/^c(\s|$)/.test(line)) ?? '';
  if (first.startsWith('p sp ')) return 'gr';
  if (first.startsWith('p aux sp co ')) return 'co';
  return ENDINGS[ending] ?? (/^(\xef\xbb\xbf)?\s*[{[]/.test(text) ? 'geojson' : 'table');
}
