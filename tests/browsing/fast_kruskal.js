// Kruskal's algorithm in JavaScript, over the links of web/boruvka.js, to compare with.

// A forest as fast as JavaScript finds one: weight and place are packed into one double, which the engine sorts by itself.
// Weights are 0 to 2^32 - 1, and equal ones are taken by place.
export function packedKruskal(n, links) {
  const m = links.length / 4, keys = new Float64Array(m), parent = Uint32Array.from({ length: n + 1 }, (_, v) => v);
  const root = v => {
    while (parent[v] !== v) v = parent[v] = parent[parent[v]];
    return v;
  };
  for (let i = 0; i < m; i++) keys[i] = links[4 * i] * m + i;
  keys.sort();
  const forest = new Uint32Array(4 * Math.max(0, n - 1));
  let count = 0;
  for (let at = 0; at < m && count < n - 1; at++) {
    const i = keys[at] % m, one = root(links[4 * i + 2]), other = root(links[4 * i + 3]);
    if (one === other) continue;
    parent[one] = other;
    for (let word = 0; word < 4; word++) forest[4 * count + word] = links[4 * i + word];
    count++;
  }
  return forest.subarray(0, 4 * count);
}
