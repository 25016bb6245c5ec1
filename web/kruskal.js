// Kruskal's algorithm, for browsers that can't run the module. It isn't proved. It orders edges as the module does, by
// weight, then by the lower endpoint, then by the higher one, so the forest and its merges are the same.

function rootIn(parent, node) {
  while (parent[node] !== node) node = parent[node] = parent[parent[node]];
  return node;
}

// The same as forestOfLinks in boruvka.js.
export function forestByKruskal(n, links) {
  const high = new Int32Array(links.buffer, links.byteOffset, links.length);
  const parent = new Uint32Array(n + 1).map((_, v) => v);
  const byEnds = (a, b) => links[a + 2] - links[b + 2] || links[a + 3] - links[b + 3];
  const order = (a, b) => high[a + 1] - high[b + 1] || links[a] - links[b] || byEnds(a, b);
  const forest = new Uint32Array(4 * Math.max(0, n - 1));
  let count = 0;
  for (const at of new Uint32Array(links.length / 4).map((_, i) => 4 * i).sort(order)) {
    const one = rootIn(parent, links[at + 2]), other = rootIn(parent, links[at + 3]);
    if (one === other) continue;
    parent[one] = other;
    forest.set(links.subarray(at, at + 4), 4 * count++);
  }
  return forest.slice(0, 4 * count);
}

// The same as mergesOfLinks in boruvka.js.
export function mergesByKruskal(n, forest) {
  const k = forest.length / 4, rows = new Uint32Array(3 * k), size = new Uint32Array(n + k).fill(1);
  const parent = new Uint32Array(n + k).map((_, node) => node);
  for (let i = 0; i < k; i++) {
    const one = rootIn(parent, forest[4 * i + 2] - 1), other = rootIn(parent, forest[4 * i + 3] - 1);
    parent[one] = parent[other] = n + i;
    size[n + i] = size[one] + size[other];
    [rows[3 * i], rows[3 * i + 1], rows[3 * i + 2]] = [Math.min(one, other), Math.max(one, other), size[n + i]];
  }
  return rows;
}
