// The page's worker: it reads files, computes forests, and writes the longer files. The page sends it messages.
//
// The first message is { module }, compiled, or null if the browser can't run it. Each later message is a task. For a
// task, the worker posts { progress } any number of times, and then { result } or { error }. Nothing is kept between
// tasks.
//
// A result with a forest has these fields:
// - `kind`: `plane`, `globe`, `links` (edges between names) or `graph` (from a .gr); `n` vertices; `names` or null
// - `points`: the coordinates that were given; `places`: those of the picture, with y upwards. Both are empty for too
//   large a graph
// - `turn`: the width of 360 degrees on a map of the globe, or 0; `cut`: the degree at which the map is cut open
// - `forest`: its links, see boruvka.js; `heights`: their weights; `total`: the sum of their weights
// - `isExact`: whether the weights were whole numbers
// - `others`: the endpoints, from 0, of a small graph's edges that aren't in the forest, or null
// - `links`: the number of candidate edges; `merges`: see merges.js
// - `rounds`: see rounds.js, or null for more than MOST_PLAYED vertices
// - `isProved`: whether the module chose the edges, in `milliseconds`, and merged the clusters
// - `notes`: sentences about the file
//
// A worker that draws pictures gets { task: 'see', shown } first, and then { task: 'draw', job }; see pixels.js.

import { InputError, forestOfLinks, forestOfText, mergesOfLinks } from './boruvka.js';
import { propertiesOf, readGeoJson } from './geojson.js';
import { readGeoXml } from './geoxml.js';
import { linksOfForest, linksOfGraph, pointsOfPlaces } from './graphs.js';
import { forestByKruskal, mergesByKruskal } from './kruskal.js';
import { placed } from './layout.js';
import { mergesOf } from './merges.js';
import { carriedCsv, clustersGeoJson, forestCsv, forestGeoJson, grOf, linkageCsv, pointsCsv } from './out.js';
import { drawn } from './pixels.js';
import { bornOf, roundsOf } from './rounds.js';
import { Source, kindOf } from './sources.js';
import { Globe, Plane, drawnGlobe, namedOnce } from './spaces.js';
import { MOST_POINTS, readTable, widened } from './tables.js';
import { candidates } from './tree.js';
import { putWeights, totalOf, weightsOf } from './weights.js';

const LEAST_SQUARE = 2 ** -1000; // of a distance; the longest side of the box around all points is 1 to 2
const MOST_CUT = 2 ** 22; // vertices of a graph that is clustered
const MOST_PLAYED = 1_000_000;
const MOST_OTHERS = 4000; // edges of a graph; with more of them, only the forest is drawn

let module;
const report = part => postMessage({ progress: part });
const isApart = (points, u, v) => points[2 * u] !== points[2 * v] || points[2 * u + 1] !== points[2 * v + 1];

// Candidate edges that contain a minimum spanning tree of points, with their lengths as weights.
function linksOfPoints(kind, points) {
  const space = (kind === 'globe' ? Globe : Plane).of(points);
  if (!space) throw new InputError('TooFarApart');
  const single = kind === 'globe' ? namedOnce(points) : points;
  const found = candidates(space, report), links = new Uint32Array(4 * found.length / 3);
  const lengths = new Float64Array(found.length / 3);
  for (let i = 0; i < lengths.length; i++) {
    const u = found[3 * i], v = found[3 * i + 1];
    if (found[3 * i + 2] < LEAST_SQUARE && isApart(single, u, v)) throw new InputError('TooNear');
    lengths[i] = space.length(found[3 * i + 2]);
    links[4 * i + 2] = Math.min(u, v) + 1;
    links[4 * i + 3] = Math.max(u, v) + 1;
  }
  putWeights(links, lengths);
  return links;
}

function linksOfEndpoints(endpoints, weights) {
  const links = new Uint32Array(4 * weights.length);
  for (let i = 0; i < weights.length; i++) {
    links[4 * i + 2] = Math.min(endpoints[2 * i], endpoints[2 * i + 1]) + 1;
    links[4 * i + 3] = Math.max(endpoints[2 * i], endpoints[2 * i + 1]) + 1;
  }
  putWeights(links, weights);
  return links;
}

const treeOf = (n, forest) => mergesOf(n, module ? mergesOfLinks(module, n, forest) : mergesByKruskal(n, forest));

// The edges that aren't in the forest, as pairs of endpoints from 0, or null if there are too many.
function othersOf(forest, links) {
  if (links.length > 4 * MOST_OTHERS) return null;
  const key = (all, i) => `${all[i + 2]} ${all[i + 3]}`, taken = new Set();
  for (let i = 0; i < forest.length; i += 4) taken.add(key(forest, i));
  const endpoints = new Map();
  for (let i = 0; i < links.length; i += 4) {
    const isLoop = links[i + 2] === links[i + 3];
    if (!isLoop && !taken.has(key(links, i))) endpoints.set(key(links, i), [links[i + 2] - 1, links[i + 3] - 1]);
  }
  return Uint32Array.from([...endpoints.values()].flat());
}

// The result for a forest. `more` has the fields that depend on its source.
function shown(n, forest, begun, more) {
  const milliseconds = performance.now() - begun, { isExact = false, kind, points } = more;
  const merges = n <= MOST_CUT ? treeOf(n, forest) : null, isDrawn = n <= MOST_POINTS;
  const isMap = kind === 'globe' && isDrawn;
  const { places: onMap, turn, cut } = isMap ? drawnGlobe(points) : { places: null, turn: 0, cut: 0 };
  const places = !isDrawn ? new Float64Array() : onMap ?? points ?? placed(n, forest, merges);
  const rounds = n <= MOST_PLAYED ? roundsOf(n, forest) : null;
  if (rounds) rounds.born = bornOf(n, rounds, merges);
  const heights = weightsOf(forest, isExact), total = totalOf(forest, isExact), isProved = Boolean(module);
  const found = { n, forest, merges, rounds, heights, total, milliseconds, isExact, isProved, turn, cut };
  return { ...found, names: null, others: null, notes: [], ...more, points: points ?? new Float64Array(), places };
}

function solved(n, links, more) {
  report(null);
  const begun = performance.now(), forest = module ? forestOfLinks(module, n, links) : forestByKruskal(n, links);
  const others = more.kind === 'links' ? othersOf(forest, links) : null;
  return shown(n, forest, begun, { links: links.length / 4, others, ...more });
}

function solvedGraph(text) {
  report(null);
  const begun = performance.now(), more = { kind: 'graph', isExact: true };
  if (!module) {
    const { n, links } = linksOfGraph(text), forest = forestByKruskal(n, links);
    return shown(n, forest, begun, { ...more, others: othersOf(forest, links) });
  }
  const { n, forest } = linksOfForest(forestOfText(module, text)), result = shown(n, forest, begun, more);
  const isSmall = text.length < MOST_OTHERS * 60;
  return isSmall ? { ...result, others: othersOf(forest, linksOfGraph(text).links) } : result;
}

const solvedPoints = ({ kind, points, ...more }) =>
  solved(points.length / 2, linksOfPoints(kind, points), { kind, points, ...more });

const readers = { geojson: readGeoJson, xml: readGeoXml, table: readTable };

async function opened(file, choice) {
  const source = await Source.of(file), kind = kindOf(source.name, await source.head());
  if (kind === 'gr') return solvedGraph(await source.whole());
  if (kind === 'co') return { kind: 'places', points: pointsOfPlaces(await source.whole()) };
  const read = await readers[kind](source, choice);
  if (read.ask) return read;
  const { endpoints, weights, ...more } = read;
  if (!endpoints) return solvedPoints(more);
  return solved(more.names.ends.length - 1, linksOfEndpoints(endpoints, weights), more);
}

// The properties of a GeoJSON's points, or null.
const properties = async ({ format }, file) =>
  format === 'geojson' && file ? propertiesOf(await Source.of(file)) : null;

// The files that the page can ask for.
const texts = {
  'forest.gr': ({ n, forest }) => grOf(n, forest),
  'links.gr': ({ n, kind, points }) => grOf(n, linksOfPoints(kind, points)),
  'forest.csv': forestCsv,
  'forest.geojson': forestGeoJson,
  'linkage.csv': linkageCsv,
  'carried.csv': carriedCsv,
  async 'clusters.csv'(of, { file, numbers }) {
    const isTable = of.choice && of.kind !== 'links' && file;
    if (isTable) return widened(await Source.of(file), of.choice, 'cluster', at => numbers[at]);
    return pointsCsv(of, numbers, await properties(of, file));
  },
  'clusters.geojson': async (of, { file, numbers }) => clustersGeoJson(of, numbers, await properties(of, file)),
};

let seen; // the result that pictures show

const tasks = {
  points: given => solvedPoints({ kind: 'plane', ...given }),
  open: ({ file, choice }) => opened(file, choice),
  save: ({ name, shown: of, ...more }) => texts[name](of, more),
  draw: ({ job }) => ({ words: drawn(seen, job) }),
};

// The buffers of all arrays in a result. They are moved to the page instead of copied.
function memoryOf(result) {
  const values = Object.values(result).filter(value => value instanceof Object && !(value instanceof Blob));
  return [...new Set(values.flatMap(value => ArrayBuffer.isView(value) ? value.buffer : memoryOf(value)))];
}

function errorOf(error) {
  if (error instanceof InputError) return { kind: error.kind, line: error.line, what: error.what };
  if (error instanceof DOMException) return { kind: 'Unreadable', line: 0, what: '' };
  return error instanceof RangeError ? { kind: 'no memory', line: 0, what: '' } : null;
}

onmessage = async ({ data }) => {
  if (data.module !== undefined) {
    ({ module } = data);
    return;
  }
  if (data.task === 'see') {
    seen = data.shown;
    return;
  }
  try {
    const result = await tasks[data.task](data);
    postMessage({ result }, memoryOf(result));
  } catch (error) {
    postMessage({ error: errorOf(error) ?? { kind: 'Broken', line: 0, what: String(error) } });
  }
};
