// The dendrogram, with heights that grow from right to left, and the greatest heights as bars. While the rounds are
// played, it shows the merges whose edges have all been chosen.

import { greatest } from './clusters.js';
import { inkOf, inks } from './inks.js';
import { widthOf } from './labels.js';
import { formatted } from './measures.js';
import { nameAt } from './names.js';
import { emptied, paint, svgOf } from './shapes.js';
import { state } from './state.js';

const MOST_BRACKETS = 1000; // only the heaviest merges are drawn
const EDGE = 14; // pixels
const FOOT = 34; // pixels for the ticks
const LEAST_ROW = 11; // pixels per leaf with a name
const MOST_NAME = 0.38; // of the width of the canvas

const BENDS = {
  even: { to: height => height, from: value => value },
  root: {
    to: height => Math.sign(height) * Math.sqrt(Math.abs(height)),
    from: value => Math.sign(value) * value * value,
  },
  log: { to: Math.log, from: Math.exp },
};

// The width of the names of the leaves, in pixels, or 0 if they don't fit.
function nameWidth({ n, names }, width, height) {
  if (!names || (height - FOOT - EDGE) / n < LEAST_ROW) return 0;
  const widest = Math.max(...Array.from({ length: n }, (_, v) => widthOf(nameAt(names, v))));
  return Math.min(widest + 6, MOST_NAME * width);
}

// The scale of heights. A logarithmic one begins at the least height above 0.
function scaleOf({ heights }, width, right = EDGE) {
  const { to, from } = BENDS[state.scale], positive = heights.find(height => height > 0) ?? 1;
  const isLog = state.scale === 'log';
  const low = to(isLog ? positive : Math.min(0, heights[0]));
  const high = to(Math.max(heights.at(-1), isLog ? positive : -Infinity));
  // relative to the greatest, because the difference of two doubles may be too large for a double
  const unit = Math.max(Math.abs(low), Math.abs(high)) || 1, most = high / unit, across = most - low / unit || 1;
  const room = width - EDGE - right, bounded = height => isLog ? Math.max(height, positive) : height;
  const pixel = height => EDGE + room * (most - to(bounded(height)) / unit) / across;
  return { to: pixel, from: x => from((most - across * (x - EDGE) / room) * unit), low, high };
}

function placing(shown, width, height) {
  const { n, heights } = shown, right = EDGE + nameWidth(shown, width, height), most = height - FOOT - EDGE;
  const scale = scaleOf(shown, width, right), end = width - right;
  const xOf = node => node < n ? end : scale.to(heights[node - n]);
  return { scale, end, xOf, yOf: place => EDGE + most * place / n };
}

// A few round heights for the ticks.
function ticksOf({ heights }, scale) {
  const most = heights.at(-1);
  if (!(most > 0)) return [heights[0], most];
  if (state.scale === 'log') {
    const low = Math.ceil(scale.low / Math.LN10), high = Math.floor(Math.log10(most)), all = [];
    for (let power = low; power <= high; power += Math.max(1, Math.ceil((high - low) / 4))) all.push(10 ** power);
    return all.length ? all : [most];
  }
  const power = 10 ** Math.floor(Math.log10(most));
  const step = [0.2, 0.5, 1, 2].map(times => times * power).find(value => most / value <= 4) ?? 2 * power;
  if (!(step > 0 && most / step < 20)) return [0, most];
  return Array.from({ length: Math.floor(most / step) + 1 }, (_, i) => i * step);
}

// Whether a merge is shown yet. While the rounds are played, it is shown once all of its edges have been chosen.
function thereYet({ n, rounds }) {
  const { round } = state;
  return round === null ? () => true : node => node < n || rounds.born[node - n] <= round;
}

// The shapes of the merges from index `begin` on, without colours: segments to the two nodes that each merge joins, and
// boxes for nodes whose own merges aren't drawn. `node` gives a part its colour.
function partsOf(shown, begin, { xOf, yOf, end }) {
  const { n, merges: { roots, larger, smaller, size, first } } = shown, isThere = thereYet(shown);
  const segments = [], boxes = [], middle = node => yOf(first[node] + size[node] / 2);
  let covered = -1;
  const addBox = node => {
    if (node < n || node >= n + begin || !isThere(node)) return;
    const top = yOf(first[node]), height = Math.max(0.3, yOf(first[node] + size[node]) - top);
    if (height < 0.5 && Math.abs(top - covered) < 0.5) return; // there is one already
    covered = top;
    boxes.push({ node, numbers: [xOf(node), top, end - xOf(node), height] });
  };
  roots.forEach(addBox);
  for (let i = begin; i < larger.length; i++) {
    const x = xOf(n + i), joined = [larger[i], smaller[i]], [from, to] = joined.map(middle);
    joined.forEach(addBox);
    if (!isThere(n + i)) continue;
    for (const node of joined) segments.push({ node, numbers: [x, middle(node), xOf(node), middle(node)] });
    segments.push({ node: n + i, numbers: [x, from, x, to] });
  }
  return { segments, boxes };
}

const partsDrawn = new WeakMap(); // by the points or the graph

// The same parts, computed again only if the size, the scale or the round changed. A moved cut changes only colours.
function partsNow(shown, begin, through, { width, height }) {
  const { scale, round } = state, key = [width, height, scale, round === null ? '' : Math.floor(round)].join(' ');
  if (partsDrawn.get(shown)?.key !== key) partsDrawn.set(shown, { key, parts: partsOf(shown, begin, through) });
  return partsDrawn.get(shown).parts;
}

// The numbers of all parts that have the same colour.
function numbersByInk(parts, inkAt) {
  const found = new Map();
  for (const { node, numbers } of parts) {
    const ink = inkAt(node);
    if (!found.has(ink)) found.set(ink, []);
    found.get(ink).push(...numbers);
  }
  return Array.from(found, ([ink, numbers]) => ({ ink, numbers }));
}

// The pixel of the cut, in the middle between the last height that is kept and the first height that is cut.
function cutAt({ heights }, { kept }, scale) {
  const right = kept ? scale.to(heights[kept - 1]) : scale.to(-Infinity);
  const left = kept < heights.length ? scale.to(heights[kept]) : 0;
  return ((Number.isFinite(right) ? right : scale.to(scale.low)) + left) / 2;
}

const short = height => formatted(Number(height.toPrecision(3)), {
  maximumSignificantDigits: 3, notation: Math.abs(height) >= 1e6 ? 'scientific' : 'standard',
});

// Ticks whose texts stay inside the canvas and don't overlap.
function tickShapes(shown, scale, { width, height }, { soft, line }) {
  let free = -Infinity;
  const ticks = ticksOf(shown, scale).map(value => ({ x: scale.to(value), text: short(value) }));
  ticks.sort((a, b) => a.x - b.x);
  return ticks.flatMap(({ x, text }) => {
    const half = widthOf(text) / 2, at = Math.max(half + 2, Math.min(width - half - 2, x));
    const tick = { stroke: line, width: 1, path: `M${x.toFixed(1)} ${EDGE}V${height - FOOT + 4}` };
    if (at - half < free) return [tick];
    free = at + half + 4;
    return [tick, { text, x: at, y: height - FOOT + 18, fill: soft, anchor: 'center' }];
  });
}

// The text, shortened to this width in pixels.
function fitting(text, width) {
  let end = text.length;
  while (end > 1 && widthOf(text.slice(0, end)) > width) end--;
  return end < text.length ? `${text.slice(0, Math.max(1, end - 1))}…` : text;
}

function nameShapes(shown, width, { end, yOf }, ink) {
  const { names, merges: { order } } = shown, most = width - end - 4;
  if (most < EDGE) return [];
  const textOf = v => fitting(nameAt(names, v), most);
  return Array.from(order, (v, place) => ({ text: textOf(v), x: end + 4, y: yOf(place + 0.5) + 4, fill: ink }));
}

function shapesOf(width, height) {
  const { shown, clusters, round } = state, plain = inks();
  if (!clusters || !shown.heights.length) return [];
  const { n, heights, merges: { first, order }, rounds } = shown, { kept, colours } = clusters;
  const through = placing(shown, width, height);
  const ofClusters = node => node < n + kept ? inkOf(plain, colours[order[first[node]]]) : plain.soft;
  const labels = round === null ? null : rounds.labels[Math.min(Math.floor(round), rounds.labels.length - 1)];
  const inkAt = labels ? node => inkOf(plain, labels[order[first[node]]]) : ofClusters;
  const x = cutAt(shown, clusters, through.scale).toFixed(1);
  const { boxes, segments } = partsNow(shown, Math.max(0, heights.length - MOST_BRACKETS), through, { width, height });
  return [
    ...tickShapes(shown, through.scale, { width, height }, plain),
    ...numbersByInk(boxes, inkAt).map(({ ink, numbers }) => ({ fill: ink, boxes: numbers })),
    ...numbersByInk(segments, inkAt).map(({ ink, numbers }) => ({ stroke: ink, width: 1.2, segments: numbers })),
    ...nameShapes(shown, width, through, plain.ink),
    ...(labels ? [] : [{ stroke: plain.mark, width: 2, dash: [5, 4], path: `M${x} 2V${height - FOOT}` }]),
  ];
}

export function drawDendrogram(canvas) {
  const { pen } = emptied(canvas, inks().paper);
  paint(pen, shapesOf(canvas.clientWidth, canvas.clientHeight));
}

export function dendrogramSvg(canvas) {
  const width = canvas.clientWidth || 300, height = canvas.clientHeight || 500;
  return svgOf(shapesOf(width, height), width, height, inks().paper);
}

// The number of clusters if the cut is at this pixel.
export function countAt(shown, x, canvas) {
  const { n, heights } = shown, most = placing(shown, canvas.clientWidth, canvas.clientHeight).scale.from(x);
  let low = 0, high = heights.length;
  while (low < high) {
    const middle = (low + high) >> 1;
    if (heights[middle] <= most) low = middle + 1;
    else high = middle;
  }
  return n - low;
}

// The number of clusters after the cut moves by this many different heights: down, or up if `steps` is negative.
export function countAfter({ n, heights }, { kept }, steps) {
  let at = kept;
  for (let left = Math.abs(steps); left > 0 && (steps < 0 ? at < heights.length : at > 0); left--) {
    const height = heights[steps < 0 ? at : at - 1];
    if (steps < 0) while (heights[at] === height) at++;
    else while (heights[at - 1] === height) at--;
  }
  return n - at;
}

// The branch at a pixel: the highest node there that lies to the right of the pixel, as indices in the order of
// vertices.
export function branchAt(shown, x, y, canvas) {
  const { n, heights, merges: { larger, smaller, first, size, roots } } = shown;
  const { clientWidth: width, clientHeight: height } = canvas;
  const place = (y - EDGE) * n / (height - FOOT - EDGE), most = placing(shown, width, height).scale.from(x);
  const has = node => place >= first[node] && place < first[node] + size[node];
  let node = roots.find(has);
  while (node >= n && heights[node - n] > most) node = has(larger[node - n]) ? larger[node - n] : smaller[node - n];
  return node === undefined ? null : { begin: first[node], end: first[node] + size[node] };
}

// The greatest heights as bars, the greatest first. Heights that are cut have the colour of marks.
export function drawBars(canvas) {
  const plain = inks(), { pen } = emptied(canvas, plain.paper), { shown, clusters } = state;
  const { clientWidth: width, clientHeight: height } = canvas;
  if (!clusters || !shown.heights.length) return;
  const all = greatest(shown), step = (width - 2 * EDGE) / all.length, cut = shown.heights.length - clusters.kept;
  const most = all[0] || 1;
  paint(pen, all.map((value, i) => {
    const tall = Math.max(1, (height - 8) * Math.max(0, value) / most), left = EDGE + i * step;
    const wide = Math.max(1, step - 2);
    const path = `M${left.toFixed(1)} ${height}v${(-tall).toFixed(1)}h${wide.toFixed(1)}V${height}z`;
    return { fill: i < cut ? plain.mark : plain.soft, path };
  }));
}

// The number of clusters if all bars up to this pixel are cut.
export function countAtBar(shown, x, width) {
  const count = greatest(shown).length, step = (width - 2 * EDGE) / count;
  return shown.merges.roots.length + Math.max(0, Math.min(count, Math.floor((x - EDGE) / step) + 1));
}
