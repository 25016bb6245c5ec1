// The clusters that are left if the heaviest edges of the forest are cut.

import { counted } from './measures.js';
import { NONE } from './merges.js';

/**
 * @typedef {import('./types.js').Shown} Shown
 * @typedef {import('./types.js').Clusters} Clusters
 */

const SPLITS = 30; // the number of the greatest heights that are considered
const CLEAR = 1.6; // an edge between clusters is at least this many times as long as the next one
const LEAST_POINTS = 4; // average number of points per cluster at first

export const greatest = ({ heights }) => Array.from(heights.subarray(Math.max(0, heights.length - SPLITS))).reverse();

// The indices of the merges whose two sides are both larger than noise, the heaviest merge first.
function splitsOf({ heights, merges: { larger, smaller, size } }, few) {
  const found = [];
  for (let i = heights.length - 1; i >= 0 && found.length < SPLITS; i--) {
    if (Math.min(size[larger[i]], size[smaller[i]]) >= few) found.push(i);
  }
  return found;
}

// The number of clusters at first: the heaviest edges are cut where the heights of such merges jump most. Without a
// clear jump, each tree is one cluster. The last of these merges is compared with the merge below it, whatever its
// size.
export function firstCount(shown, few) {
  const { n, heights, merges: { roots } } = shown, splits = splitsOf(shown, few);
  const last = splits.at(-1);
  const below = splits.length < SPLITS && last > 0 ? [...splits, last - 1] : splits;
  const mostClusters = roots.length + Math.max(2, n / LEAST_POINTS);
  let most = CLEAR, count = roots.length;
  for (let i = 0; i + 1 < below.length && n - below[i] <= mostClusters; i++) {
    const high = heights[below[i]], low = heights[below[i + 1]], jump = high > 0 && low >= 0 ? high / low : 0;
    if (jump >= most && (jump > most || count === roots.length)) [most, count] = [jump, n - below[i]];
  }
  return count;
}

function mergedLists(one, other, order) {
  const all = new Uint32Array(one.length + other.length);
  for (let i = 0, j = 0; i + j < all.length;) {
    const isFirst = j === other.length || (i < one.length && order(one[i], other[j]) < 0);
    all[i + j] = isFirst ? one[i++] : other[j++];
  }
  return all;
}

/**
 * The clusters: their nodes, the largest first; the colour of each vertex, or NONE; and the number of edges kept.
 * @param {Shown} shown
 * @param {number} wanted
 * @param {Uint32Array} colour - of each node
 * @returns {Clusters}
 */
export function clustersAt({ n, merges }, wanted, colour) {
  const { roots, larger, smaller, size, first, least, order } = merges;
  const count = Math.max(roots.length, Math.min(n, Math.round(wanted) || 1)), kept = n - count;
  const nodes = roots.filter(root => root < n + kept), cut = [];
  for (let i = kept; i < larger.length; i++) {
    if (larger[i] < n + kept) cut.push(larger[i]);
    if (smaller[i] < n + kept) cut.push(smaller[i]);
  }
  const colours = new Uint32Array(n), largerFirst = (a, b) => size[b] - size[a] || least[a] - least[b];
  const all = mergedLists(nodes, Uint32Array.from(cut).sort(largerFirst), largerFirst);
  for (const node of all) {
    for (let at = first[node]; at < first[node] + size[node]; at++) colours[order[at]] = colour[node];
  }
  return { count, kept, nodes: all, colours, colour };
}

// The number of each vertex's cluster. The largest cluster has the number 1.
export function numbersOf({ n, merges: { first, size, order } }, { nodes }) {
  const numbers = new Uint32Array(n);
  for (const [i, node] of nodes.entries()) {
    for (let at = first[node]; at < first[node] + size[node]; at++) numbers[order[at]] = i + 1;
  }
  return numbers;
}

// The number of clusters and the sizes of the largest, as sentences.
export function clustersText({ merges: { size } }, { count, nodes, colour }, few) {
  const large = nodes.filter(node => colour[node] !== NONE), small = count - large.length;
  const sizes = Array.from(nodes.subarray(0, 6), node => counted(size[node])), more = count - sizes.length;
  const clusters = number => `${counted(number)} cluster${number === 1 ? '' : 's'}`;
  const all = `${sizes.join(', ')}${more ? ` and ${counted(more)} more` : ''}`;
  const noise = small ? ` ${clusters(small)} smaller than ${counted(few)} ${small === 1 ? 'is' : 'are'} grey.` : '';
  return `${clusters(count)}.${sizes.length ? ` Size${count === 1 ? '' : 's'}: ${all}.` : ''}${noise}`;
}
