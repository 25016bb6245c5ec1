// The files that the worker writes, each as a Blob.

import { nameAt, namesApart } from './names.js';
import { onceEast } from './spaces.js';
import { bitsOf } from './weights.js';

// A long text, collected in pieces.
class Text {
  constructor(head = '') {
    this.parts = [];
    this.piece = head;
  }

  add(text) {
    this.piece += text;
    if (this.piece.length < 2 ** 20) return;
    this.parts.push(this.piece);
    this.piece = '';
  }

  blob(type) {
    return new Blob([...this.parts, this.piece], { type });
  }
}

// A field of CSV. Quotes keep the spaces at its ends.
const quoted = field => /[",\n\r;]|^\s|\s$/.test(field) ? `"${field.replaceAll('"', '""')}"` : field;

// A field of CSV that no spreadsheet runs as a formula. Numbers are left alone.
function guarded(field) {
  const isFormula = /^[=+@\t\r]/.test(field) || (/^-/.test(field) && Number.isNaN(Number(field)));
  return isFormula ? `"'${field.replaceAll('"', '""')}"` : quoted(field);
}

// The .gr text of edges, with whole weights.
export function grOf(n, links) {
  const weights = bitsOf(links), text = new Text(`p sp ${n} ${links.length / 4}\n`);
  for (let i = 0; i < links.length; i += 4) text.add(`a ${links[i + 2]} ${links[i + 3]} ${weights[i / 2]}\n`);
  return text.blob('text/plain');
}

// A double beyond 2^53 is written with an exponent, because the last digits of a whole number wouldn't be its own.
const written = number => Math.abs(number) > Number.MAX_SAFE_INTEGER ? number.toExponential() : number;

const PLACES = { plane: ['x', 'y'], globe: ['longitude', 'latitude'] };

// The keys of all properties, in the order of their first occurrence.
const keysOf = properties => [...new Set((properties ?? []).flatMap(all => Object.keys(all)))];

function asText(value) {
  if (value === undefined || value === null) return '';
  return typeof value === 'string' ? value : JSON.stringify(value);
}

// A title that no other column has.
function uniqueTitle(title, others) {
  let free = title;
  while (others.includes(free)) free += '_';
  return free;
}

// The points or vertices with their properties, and with the numbers of their clusters if these are given. `named`
// writes a name as a field.
export function pointsCsv({ n, points, names, kind }, numbers = null, properties = null, named = guarded) {
  const keys = keysOf(properties), isNamed = names && !keys.includes('name'), places = PLACES[kind] ?? [];
  const own = [...(isNamed ? ['name'] : []), ...places, ...(!names && !places.length ? ['vertex'] : [])];
  const more = [...(numbers ? ['cluster'] : [])].map(title => uniqueTitle(title, [...keys, ...own]));
  const titles = own.map(title => uniqueTitle(title, keys));
  const text = new Text(`${[...titles, ...keys.map(guarded), ...more].join(',')}\n`);
  const fieldOf = v => ({
    name: () => named(nameAt(names, v)), vertex: () => v + 1,
    x: () => written(points[2 * v]), y: () => written(points[2 * v + 1]),
    longitude: () => written(points[2 * v]), latitude: () => written(points[2 * v + 1]),
  });
  for (let v = 0; v < n; v++) {
    const fields = fieldOf(v), all = keys.map(key => guarded(asText(properties[v][key])));
    text.add(`${[...own.map(title => fields[title]()), ...all, ...(numbers ? [numbers[v]] : [])].join(',')}\n`);
  }
  return text.blob('text/csv');
}

// Points on the globe as GeoJSON, with their properties and the numbers of their clusters.
export function clustersGeoJson({ n, points, names }, numbers, properties) {
  const title = uniqueTitle('cluster', keysOf(properties));
  const text = new Text('{"type":"FeatureCollection","features":[');
  for (let v = 0; v < n; v++) {
    const all = { ...(properties ? properties[v] : names ? { name: nameAt(names, v) } : {}), [title]: numbers[v] };
    const geometry = { type: 'Point', coordinates: [points[2 * v], points[2 * v + 1]] };
    text.add(`${v ? ',' : ''}\n${JSON.stringify({ type: 'Feature', properties: all, geometry })}`);
  }
  text.add('\n]}\n');
  return text.blob('application/geo+json');
}

// The points as a table for this page, with unchanged names.
export const carriedCsv = shown => pointsCsv(shown, null, null, quoted);

// A function for the written weight of an edge of the forest.
function weightsWritten({ forest, heights, isExact }) {
  const weights = bitsOf(forest);
  return i => isExact ? weights[2 * i] : written(heights[i]);
}

// The edges of the forest with the names of their endpoints, the lightest edge first.
export function forestCsv(shown) {
  const { n, forest, names, heights, isExact } = shown, nameOf = namesApart(names, n), weight = weightsWritten(shown);
  const text = new Text(`from,to,${isExact ? 'weight' : 'length'}\n`);
  for (let i = 0; i < heights.length; i++) {
    const [low, high] = [2, 3].map(word => guarded(nameOf(forest[4 * i + word] - 1)));
    text.add(`${low},${high},${weight(i)}\n`);
  }
  return text.blob('text/csv');
}

// An edge, from -180 to 180 degrees east. At the border of the map it is cut in two (RFC 7946, section 3.1.9).
function lineOf(ends) {
  const [[east, high], [west, low]] = ends[0][0] < ends[1][0] ? [ends[1], ends[0]] : ends;
  const over = west + 360 - east;
  if (over >= 180) return { type: 'LineString', coordinates: ends };
  const edge = high + (low - high) * (180 - east) / over;
  const parts = [[[east, high], [180, edge]], [[-180, edge], [west, low]]];
  return { type: 'MultiLineString', coordinates: parts.filter(([one, other]) => one[0] !== other[0]) };
}

export function forestGeoJson({ n, forest, names, heights, points }) {
  const nameOf = namesApart(names, n), text = new Text('{"type":"FeatureCollection","features":[');
  for (let i = 0; i < heights.length; i++) {
    const ends = [2, 3].map(word => forest[4 * i + word] - 1), [from, to] = ends.map(nameOf);
    const geometry = lineOf(ends.map(v => [onceEast(points[2 * v]), points[2 * v + 1]]));
    const properties = { from, to, kilometres: heights[i] };
    text.add(`${i ? ',' : ''}\n${JSON.stringify({ type: 'Feature', properties, geometry })}`);
  }
  text.add('\n]}\n');
  return text.blob('application/geo+json');
}

// The merges in the format of scipy's linkage: two nodes, the lower one first, their height, and their number of points
// together.
export function linkageCsv(shown) {
  const { n, heights, merges: { larger, smaller, size } } = shown, weight = weightsWritten(shown), text = new Text();
  for (let i = 0; i < heights.length; i++) {
    text.add(`${Math.min(larger[i], smaller[i])},${Math.max(larger[i], smaller[i])},${weight(i)},${size[n + i]}\n`);
  }
  return text.blob('text/csv');
}
