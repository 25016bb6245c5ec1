// Borůvka's rounds of a graph, computed from its forest alone: the lightest edge that leaves a component is always in
// the forest, so the forest has the same rounds as the graph.
//
// 1. Each vertex is a piece.
// 2. Each piece chooses the first edge, in the forest's order, that leaves it.
// 3. These edges join pieces, and a new piece has the colour of its largest part. As long as edges are left, go to 2.

export const LOW = 1, HIGH = 2; // which endpoints' pieces chose an edge

// For each edge: its round, and the endpoints whose pieces chose it. For the start of each round and for the end:
// `labels`, the piece of each vertex, and `counts`, the number of pieces.
export function roundsOf(n, forest) {
  const k = forest.length / 4, round = new Uint8Array(k), endpoints = new Uint8Array(k), pieces = new Pieces(n);
  const labels = [pieces.labels()], counts = [n], first = new Int32Array(n);
  const take = (i, end, now) => {
    const piece = pieces.root(forest[4 * i + 1 + end] - 1);
    if (first[piece] >= 0) return;
    first[piece] = i;
    round[i] = now;
    endpoints[i] |= end;
  };
  let live = new Uint32Array(k).map((_, i) => i);
  for (let now = 0; live.length; now++) {
    first.fill(-1);
    for (const i of live) for (let end = LOW; end <= HIGH; end++) take(i, end, now);
    for (const i of live) if (endpoints[i]) pieces.join(forest[4 * i + 2] - 1, forest[4 * i + 3] - 1);
    const left = live.filter(i => !endpoints[i]);
    labels.push(pieces.labels());
    counts.push(counts.at(-1) - live.length + left.length);
    live = left;
  }
  return { round, endpoints, labels, counts };
}

// For each merge: the number of rounds after which all of its edges have been chosen.
export function bornOf(n, { round }, { larger, smaller }) {
  const born = new Uint8Array(round.length), of = node => node < n ? 0 : born[node - n];
  for (let i = 0; i < born.length; i++) born[i] = Math.max(round[i] + 1, of(larger[i]), of(smaller[i]));
  return born;
}

// The vertices that are joined so far. The label of a piece is its root, which is the root of its largest part.
class Pieces {
  constructor(n) {
    this.parent = new Uint32Array(n).map((_, v) => v);
    this.size = new Uint32Array(n).fill(1);
  }

  // The label of each vertex.
  labels() {
    return this.parent.map((_, v) => this.root(v));
  }

  root(v) {
    const { parent } = this;
    while (parent[v] !== v) v = parent[v] = parent[parent[v]];
    return v;
  }

  join(u, v) {
    const one = this.root(u), other = this.root(v), isLess = this.size[one] < this.size[other];
    const [large, small] = isLess ? [other, one] : [one, other];
    this.parent[small] = large;
    this.size[large] += this.size[small];
  }
}
