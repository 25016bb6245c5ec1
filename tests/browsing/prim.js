// Prim's algorithm over all pairs of points, to compare with: it looks at n^2 distances and keeps n.
//
//     node prim.js plane|globe FILE    FILE has x and y of each point as doubles; the lengths of the tree's links go to
//                                      standard output as doubles, the shortest first
import { readFileSync, writeSync } from 'node:fs';

const RADIUS = 6371;

const plane = (x, y, u, v) => Math.sqrt((x[u] - x[v]) * (x[u] - x[v]) + (y[u] - y[v]) * (y[u] - y[v]));

function globe(x, y, u, v) {
  const turn = Math.PI / 180, half = it => Math.sin(it * turn / 2) ** 2;
  return 2 * RADIUS * Math.asin(Math.sqrt(half(y[u] - y[v]) + Math.cos(y[u] * turn) * Math.cos(y[v] * turn) * half(x[u] - x[v])));
}

function lengths(x, y, between) {
  const n = x.length, near = new Float64Array(n).fill(Infinity), rest = Int32Array.from({ length: n }, (_, v) => v), found = new Float64Array(n - 1);
  let at = 0, left = n;
  for (let count = 0; count < n - 1; count++) {
    const last = rest[at];
    rest[at] = rest[--left];
    at = 0;
    for (let i = 0; i < left; i++) {
      const v = rest[i], length = between(x, y, last, v);
      if (length < near[v]) near[v] = length;
      if (near[v] < near[rest[at]]) at = i;
    }
    found[count] = near[rest[at]];
  }
  return found.sort();
}

const bytes = readFileSync(process.argv[3]), points = new Float64Array(bytes.buffer.slice(bytes.byteOffset, bytes.byteOffset + bytes.length));
const [x, y] = [0, 1].map(axis => points.filter((_, i) => i % 2 === axis));
writeSync(1, new Uint8Array(lengths(x, y, process.argv[2] === 'globe' ? globe : plane).buffer));
