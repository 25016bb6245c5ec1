// Coordinates for the vertices of a graph without any: each tree of its forest is a circle, and the circles are in
// rows.

const NOWHERE = 0xffffffff;

// The adjacency lists of a forest: the neighbours of vertex v (from 0) are `ends` from start[v] to start[v + 1].
function neighbours(n, forest) {
  const start = new Uint32Array(n + 2), ends = new Uint32Array(forest.length / 2);
  for (let i = 0; i < forest.length; i += 4) {
    start[forest[i + 2] + 1]++;
    start[forest[i + 3] + 1]++;
  }
  for (let v = 2; v < n + 2; v++) start[v] += start[v - 1];
  for (let i = 0; i < forest.length; i += 4) {
    const low = forest[i + 2], high = forest[i + 3];
    ends[start[low]++] = high - 1;
    ends[start[high]++] = low - 1;
  }
  return { start, ends };
}

// Breadth-first search over the trees of a forest.
class Walk {
  constructor(n, forest) {
    const { start, ends } = neighbours(n, forest);
    this.start = start;
    this.ends = ends;
    this.queue = new Uint32Array(n);
    this.from = new Uint32Array(n);
    this.depth = new Uint32Array(n);
    this.leaves = new Uint32Array(n);
    this.turn = new Float64Array(n);
  }

  // The vertices of a tree in the order of the search from `begin`. `from` is each vertex's parent, or NOWHERE.
  over(begin) {
    const { start, ends, queue, from, depth } = this;
    let count = 1;
    [queue[0], from[begin], depth[begin]] = [begin, NOWHERE, 0];
    for (let i = 0; i < count; i++) {
      const v = queue[i];
      for (let at = start[v]; at < start[v + 1]; at++) {
        const next = ends[at];
        if (next === from[v]) continue;
        from[next] = v;
        depth[next] = depth[v] + 1;
        queue[count++] = next;
      }
    }
    return queue.subarray(0, count);
  }

  // The middle of a longest path in the tree of v.
  middle(v) {
    const end = this.over(v).at(-1);
    let u = this.over(end).at(-1);
    for (let left = this.depth[u] >> 1; left > 0; left--) u = this.from[u];
    return u;
  }
}

// Arranges a tree in a circle around its middle at (0, 0), with its leaves at equal angles. Returns its vertices.
function putRound(walk, v, points) {
  const order = walk.over(walk.middle(v)), { from, depth, leaves, turn } = walk, [middle] = order;
  for (let i = order.length - 1; i >= 0; i--) {
    const u = order[i];
    leaves[u] ||= 1;
    if (u !== middle) leaves[from[u]] += leaves[u];
  }
  const scale = Math.sqrt(order.length) / Math.max(1, depth[order.at(-1)]);
  for (const u of order.subarray(1)) {
    const part = leaves[u] / leaves[middle], begin = turn[from[u]];
    turn[u] = begin;
    turn[from[u]] += part;
    const angle = 2 * Math.PI * (begin + part / 2), radius = scale * depth[u];
    points[2 * u] = radius * Math.cos(angle);
    points[2 * u + 1] = radius * Math.sin(angle);
  }
  return order;
}

// The coordinates, with the largest tree first.
export function placed(n, forest, { roots, first, order, size }) {
  const walk = new Walk(n, forest), points = new Float64Array(2 * n);
  const radius = root => Math.sqrt(size[root]) + 1;
  const width = 1.2 * Math.sqrt(roots.reduce((sum, root) => sum + (2 * radius(root)) ** 2, 0));
  let left = 0, top = 0, height = 0;
  for (const root of roots) {
    const side = 2 * radius(root);
    if (left + side > width && left > 0) [left, top, height] = [0, top - height, 0];
    for (const u of putRound(walk, order[first[root]], points)) {
      points[2 * u] += left + side / 2;
      points[2 * u + 1] += top - side / 2;
    }
    left += side;
    height = Math.max(height, side);
  }
  return points;
}
