// The tree of a forest's merges, and an order of the vertices in which the vertices of each node are consecutive.

/** @typedef {import('./types.js').Merges} Merges */

export const NONE = 0xffffffff; // instead of a colour's number

// By default, a cluster of fewer points than this is noise and has no colour.
export const fewOf = n => Math.max(2, Math.ceil(n / 100));

/**
 * The tree of single linkage, from the rows that mergesOfLinks returns. The nodes 0 to n - 1 are the vertices, and the
 * merge at index i joins the nodes `larger` and `smaller` into the node n + i. A node has `size` vertices, of which
 * `least` is the first. `roots` are the whole trees, the largest first.
 * @returns {Merges}
 */
export function mergesOf(n, rows) {
  const k = rows.length / 3, larger = new Uint32Array(k), smaller = new Uint32Array(k);
  const size = new Uint32Array(n + k).fill(1);
  const nodes = new Uint32Array(n + k).map((_, node) => node), least = nodes.slice(), isPart = new Uint8Array(n + k);
  for (let i = 0; i < k; i++) {
    const first = rows[3 * i], second = rows[3 * i + 1];
    [larger[i], smaller[i]] = size[first] < size[second] ? [second, first] : [first, second];
    isPart[first] = isPart[second] = 1;
    size[n + i] = rows[3 * i + 2];
    least[n + i] = Math.min(least[first], least[second]);
  }
  const roots = nodes.filter(node => !isPart[node]).sort((a, b) => size[b] - size[a] || least[a] - least[b]);
  return { roots, larger, smaller, size, least, ...ordered(n, roots, larger, smaller, size) };
}

// An order of the vertices. Those of a node are consecutive and begin at its `first`.
function ordered(n, roots, larger, smaller, size) {
  const k = larger.length, first = new Uint32Array(n + k), order = new Uint32Array(n);
  let begin = 0;
  for (const root of roots) {
    first[root] = begin;
    begin += size[root];
  }
  for (let i = k - 1; i >= 0; i--) {
    first[larger[i]] = first[n + i];
    first[smaller[i]] = first[n + i] + size[larger[i]];
  }
  for (let v = 0; v < n; v++) order[first[v]] = v;
  return { first, order };
}

// The number of each node's colour. When a cut splits a node, the larger part keeps its colour and the smaller part
// gets the next number. A node with fewer than `few` vertices has none.
export function coloursOf(n, { roots, larger, smaller, size }, few) {
  const k = larger.length, colour = new Uint32Array(n + k);
  let colours = 0;
  for (const root of roots) colour[root] = size[root] >= few ? colours++ : NONE;
  for (let i = k - 1; i >= 0; i--) {
    colour[larger[i]] = size[larger[i]] >= few ? colour[n + i] : NONE;
    colour[smaller[i]] = size[smaller[i]] >= few ? colours++ : NONE;
  }
  return colour;
}
