// Reads the points of a GPX or KML text: degrees east and north, and names. The text is searched, and never becomes
// markup of the page.

import { InputError } from './boruvka.js';
import { Points } from './tables.js';

const MOST_BYTES = 400_000_000;
// The kinds of points in GPX. The first kind that occurs is read.
const GPX_POINTS = [
  ['wpt', 'of the waypoints'], ['rtept', 'of the points of routes'], ['trkpt', 'of the points of tracks'],
];
const KML_OTHERS = ['LineString', 'Polygon', 'LinearRing', 'Model'];
const ENTITIES = { amp: '&', lt: '<', gt: '>', quot: '"', apos: "'" };

// A text of XML without its entities or CDATA.
function unescaped(text) {
  const cdata = /^\s*<!\[CDATA\[([^]*?)\]\]>\s*$/.exec(text);
  if (cdata) return cdata[1];
  return text.replace(/&(?:#(\d{1,7})|#x([0-9a-f]{1,6})|(\w+));/gi, (whole, decimal, hexadecimal, name) => {
    const code = decimal ? Number(decimal) : hexadecimal ? parseInt(hexadecimal, 16) : -1;
    if (code >= 0) return code <= 0x10ffff ? String.fromCodePoint(code) : whole;
    return ENTITIES[name] ?? whole;
  });
}

// The elements with this name: their attributes and their contents. In these formats they aren't nested.
function* elementsOf(text, name) {
  const begin = new RegExp(`<(?:\\w+:)?${name}(\\s[^<>]*?)?(/)?>`, 'g');
  const end = new RegExp(`</(?:\\w+:)?${name}\\s*>`, 'g');
  for (let found = begin.exec(text); found; found = begin.exec(text)) {
    if (found[2]) yield { attributes: found[1] ?? '', inside: '' };
    else {
      end.lastIndex = begin.lastIndex;
      const close = end.exec(text);
      if (!close) throw new InputError('BadXml', 0, `<${name}>`);
      yield { attributes: found[1] ?? '', inside: text.slice(begin.lastIndex, close.index) };
      begin.lastIndex = end.lastIndex;
    }
  }
}

const textIn = (inside, name) => {
  const { value } = elementsOf(inside, name).next();
  return value ? unescaped(value.inside).trim() : '';
};

const attributeOf = (attributes, name) => new RegExp(`\\s${name}\\s*=\\s*["']([^"']*)["']`).exec(attributes)?.[1] ?? '';

function add(points, number, [east, north], name) {
  if (![east, north].every(value => /^\s*[-+]?[\d.]+(e[-+]?\d+)?\s*$/i.test(value) && Number.isFinite(Number(value)))) {
    throw new InputError('NoGeoPoint', 0, `point ${number}: no two numbers`);
  }
  points.add(Number(east), Number(north), name || String(number), 0);
}

function readGpx(text) {
  const points = new Points('globe', true);
  const countOf = name => (text.match(new RegExp(`<${name}\\s`, 'g')) ?? []).length;
  const counts = GPX_POINTS.map(([name]) => countOf(name));
  const kind = counts.findIndex(Boolean);
  if (kind < 0) throw new InputError('NoPoint');
  let number = 0;
  for (const { attributes, inside } of elementsOf(text, GPX_POINTS[kind][0])) {
    add(points, ++number, [attributeOf(attributes, 'lon'), attributeOf(attributes, 'lat')], textIn(inside, 'name'));
  }
  const notes = GPX_POINTS.map(([, words], i) => i > kind && counts[i] ? `Left out: ${counts[i]} ${words}.` : '');
  return points.all(notes.filter(Boolean));
}

function readKml(text) {
  const points = new Points('globe', true);
  let number = 0;
  for (const { inside } of elementsOf(text, 'Placemark')) {
    const other = KML_OTHERS.find(name => new RegExp(`<(?:\\w+:)?${name}[\\s>]`).test(inside));
    if (other) throw new InputError('NoGeoPoint', 0, `place ${number + 1}: ${other}`);
    for (const { inside: point } of elementsOf(inside, 'Point')) {
      add(points, ++number, textIn(point, 'coordinates').split(','), textIn(inside, 'name'));
    }
  }
  return points.all([]);
}

export async function readGeoXml(source) {
  const bytes = await source.whole(MOST_BYTES), named = /encoding\s*=\s*["']([\w.:-]+)["']/i;
  const [head] = new TextDecoder('latin1').decode(bytes.subarray(0, 200)).split('?>');
  const [, encoding = 'utf-8'] = named.exec(head) ?? [];
  let text;
  try {
    text = new TextDecoder(encoding, { fatal: true }).decode(bytes);
  } catch {
    throw new InputError('BadXml', 0, encoding);
  }
  text = text.replace(/<!--[^]*?-->/g, '');
  if (/<(?:\w+:)?gpx[\s>]/.test(text)) return { ...readGpx(text), format: 'gpx' };
  if (/<(?:\w+:)?kml[\s>]/.test(text)) return { ...readKml(text), format: 'kml' };
  throw new InputError('OtherXml', 0, /<([\w:-]+)[\s>/]/.exec(text)?.[1] ?? 'nothing');
}
