// Graphs in the format .gr of the 9th DIMACS challenge, and coordinates of their vertices in its format .co.
//
// The module reads .gr with a proved parser. `linksOfGraph` is used if the browser can't run the module.

import { InputError } from './boruvka.js';
import { isRounded } from './columns.js';

const MOST_VERTICES = 2 ** 26, MOST_ARCS = 2 ** 30, MOST_PLACED = 1_000_000;
const LEAST_WEIGHT = -(2n ** 63n), MOST_WEIGHT = 2n ** 63n - 1n;
const DIGITS = /^\d+$/;

const LF = 10, PART = 2 ** 26; // bytes
const MOST_IN_TEXT = 2 ** 29 - 24; // letters; browsers decode a longer text as an empty one

function linesOf(bytes) {
  if (bytes.length > MOST_IN_TEXT) throw new InputError('LongText');
  return new TextDecoder('latin1').decode(bytes).replace(/\n$/, '').split('\n');
}

// The lines of a text of any length. No line may be longer than a part.
function* linesInParts(bytes) {
  for (let begin = 0, end; begin < bytes.length; begin = end) {
    end = bytes.length - begin > PART ? bytes.lastIndexOf(LF, begin + PART) + 1 : bytes.length;
    yield* linesOf(bytes.subarray(begin, end));
  }
}

const wordsOf = line => line.split(/[ \t\r]+/).filter(Boolean);

class Graph {
  constructor() {
    this.n = -1;
    this.count = 0;
    this.words = null;
    this.weights = null;
  }

  start([, kind, n, m, ...rest], error) {
    if (this.n >= 0) throw error('SecondProblem');
    if (kind !== 'sp' || !DIGITS.test(n) || !DIGITS.test(m) || rest.length) throw error('BadProblem');
    if (Number(n) > MOST_VERTICES || Number(m) > MOST_ARCS) throw error('TooLarge');
    this.n = Number(n);
    this.words = new Uint32Array(4 * m);
    this.weights = new BigInt64Array(this.words.buffer);
  }

  arc([, u, v, weight, ...rest], error) {
    if (this.n < 0) throw error('NoProblemYet');
    if (4 * this.count === this.words.length) throw error('TooManyArcs');
    if (!DIGITS.test(u) || !DIGITS.test(v) || !/^-?\d+$/.test(weight) || rest.length) throw error('BadArc');
    for (const end of [u, v]) if (!(Number(end) >= 1 && Number(end) <= this.n)) throw error('EndOutOfRange');
    const digits = weight.replace(/^(-?)0+(?=\d)/, '$1');
    const exact = digits.length > 20 ? MOST_WEIGHT + 1n : BigInt(digits);
    if (exact < LEAST_WEIGHT || exact > MOST_WEIGHT) throw error('WeightOutOfRange');
    this.weights[2 * this.count] = exact;
    this.words[4 * this.count + 2] = Math.min(u, v);
    this.words[4 * this.count + 3] = Math.max(u, v);
    this.count++;
  }
}

// The number of vertices of a .gr text, and its edges, loops included.
export function linksOfGraph(bytes) {
  const lines = linesOf(bytes), graph = new Graph();
  for (const [i, line] of lines.entries()) {
    const words = wordsOf(line), error = kind => new InputError(kind, i + 1);
    if (!words.length || words[0].startsWith('c')) continue;
    if (words[0] === 'p') graph.start(words, error);
    else if (words[0] === 'a') graph.arc(words, error);
    else throw error('UnknownLine');
  }
  const last = bytes.length ? lines.length + 1 : 1;
  if (graph.n < 0) throw new InputError('MissingProblem', last);
  if (4 * graph.count < graph.words.length) throw new InputError('MissingArcs', last);
  return { n: graph.n, links: graph.words };
}

// The number of vertices of a forest's text, and its edges.
export function linksOfForest(text) {
  const lines = linesInParts(text), [n, k] = String(lines.next().value).split(' ').slice(2).map(Number);
  const forest = new Uint32Array(4 * k), weights = new BigInt64Array(forest.buffer);
  let i = 0;
  for (const line of lines) {
    const [, low, high, weight] = line.split(' ');
    forest[4 * i + 2] = Number(low);
    forest[4 * i + 3] = Number(high);
    weights[2 * i++] = BigInt(weight);
  }
  return { n, forest };
}

class Places {
  start(words, error) {
    if (this.points) throw error('SecondProblem');
    if (!/^p aux sp co \d+$/.test(words.join(' '))) throw error('BadProblem');
    this.left = Number(words[4]);
    if (this.left > MOST_PLACED) throw error('TooLarge');
    this.points = new Float64Array(2 * this.left).fill(NaN);
  }

  put(words, error) {
    if (!this.points) throw error('NoProblemYet');
    const [v, x, y] = words.slice(1).map(Number);
    const isPlace = words.length === 4 && Number.isInteger(v) && Number.isFinite(x) && Number.isFinite(y);
    const isOther = words.some(word => /0[box]/i.test(word)); // (JavaScript accepts 0x10, the format doesn't)
    if (!isPlace || isOther) throw error('BadPlace');
    if (v < 1 || v > this.points.length / 2) throw error('EndOutOfRange');
    if (isRounded(words[2], x) || isRounded(words[3], y)) throw error('LongPlace');
    if (!Number.isNaN(this.points[2 * v - 2])) throw error('SecondPlace');
    this.points.set([x, y], 2 * v - 2);
    this.left--;
  }
}

// The coordinates of a graph's vertices, from the text of a .co file.
export function pointsOfPlaces(bytes) {
  const lines = linesOf(bytes), places = new Places();
  for (const [i, line] of lines.entries()) {
    const words = wordsOf(line), error = kind => new InputError(kind, i + 1);
    if (!words.length || words[0].startsWith('c')) continue;
    if (words[0] === 'p') places.start(words, error);
    else if (words[0] === 'v') places.put(words, error);
    else throw error('UnknownLine');
  }
  if (!places.points) throw new InputError('MissingProblem', lines.length + 1);
  if (places.left) throw new InputError('MissingPlaces', lines.length + 1);
  return places.points;
}
