// Candidate edges that contain a minimum spanning tree of points: the edges that Borůvka's rounds choose, with a k-d
// tree over the points.
//
// 1. Each point is a component.
// 2. Each component finds the nearest point outside. A node of the tree that lies in one component is skipped.
// 3. These edges join components. As long as there is more than one, go to 2.
//
// It computes about n log n distances, unless the points are arranged to prevent that.

const LEAF = 8; // points of a leaf, which are searched one by one

// A k-d tree. It orders the points; an index in this order is a place. A node has the places from `low` to `high`. Its
// first child follows it, and `second` is the other child, or 0 for a leaf. Its `box` has the least and the greatest
// value of each coordinate.
class Tree {
  constructor(space) {
    const n = space.coordinates.length / space.width, nodes = Math.max(1, Math.ceil(4 * n / LEAF));
    this.ids = new Uint32Array(n).map((_, i) => i);
    this.low = new Uint32Array(nodes);
    this.high = new Uint32Array(nodes);
    this.second = new Uint32Array(nodes);
    this.parent = new Uint32Array(nodes);
    this.leaf = new Uint32Array(n);
    this.coordinates = space.coordinates.slice();
    this.width = space.width;
    this.box = new Float64Array(2 * nodes * this.width);
    this.count = 0;
    if (n) this.build(0, n);
    this.space = space.inOrder(this.ids);
  }

  // A box is split across its longest side, so that equal coordinates don't lead to empty splits.
  build(low, high) {
    const node = this.count++, longest = this.measure(node, low, high);
    [this.low[node], this.high[node]] = [low, high];
    if (high - low <= LEAF) this.leaf.fill(node, low, high);
    else {
      const middle = this.splitAtMiddle(longest, low, high), first = this.build(low, middle);
      const second = this.build(middle, high);
      this.second[node] = second;
      this.parent[first] = this.parent[second] = node;
    }
    return node;
  }

  // Computes the box around these places, and returns the axis of its longest side.
  measure(node, low, high) {
    const { coordinates, width, box } = this;
    let longest = 0, most = -1;
    for (let axis = 0; axis < width; axis++) {
      let least = Infinity, greatest = -Infinity;
      for (let at = low * width + axis; at < high * width; at += width) {
        const value = coordinates[at];
        if (value < least) least = value;
        if (value > greatest) greatest = value;
      }
      box[2 * (node * width + axis)] = least;
      box[2 * (node * width + axis) + 1] = greatest;
      if (greatest - least > most) [longest, most] = [axis, greatest - least];
    }
    return longest;
  }

  // Reorders these places so that the one in the middle splits them along an axis (quickselect).
  splitAtMiddle(axis, low, high) {
    const { coordinates, width } = this, middle = (low + high) >> 1;
    for (let from = low, to = high - 1; from < to;) {
      const pivot = coordinates[((from + to) >> 1) * width + axis];
      let i = from, j = to;
      while (i <= j) {
        while (coordinates[i * width + axis] < pivot) i++;
        while (coordinates[j * width + axis] > pivot) j--;
        if (i <= j) this.swap(i++, j--);
      }
      if (middle <= j) to = j;
      else if (middle >= i) from = i;
      else break;
    }
    return middle;
  }

  swap(one, other) {
    const { ids, coordinates, width } = this, id = ids[one];
    ids[one] = ids[other];
    ids[other] = id;
    for (let axis = 0; axis < width; axis++) {
      const value = coordinates[one * width + axis];
      coordinates[one * width + axis] = coordinates[other * width + axis];
      coordinates[other * width + axis] = value;
    }
  }

  // The square of the gap between a node's box and a place.
  gap(node, place) {
    const { coordinates, box, width } = this;
    let sum = 0;
    for (let i = 0, at = 2 * node * width, from = place * width; i < width; i++, at += 2) {
      const value = coordinates[from + i], low = box[at], high = box[at + 1];
      const out = value < low ? low - value : value > high ? value - high : 0;
      sum += out * out;
    }
    return sum;
  }

  // The square of the gap between the boxes of two nodes.
  apart(one, other) {
    const { box, width } = this;
    let sum = 0;
    for (let i = 0, at = 2 * one * width, to = 2 * other * width; i < 2 * width; i += 2) {
      const out = Math.max(0, box[at + i] - box[to + i + 1], box[to + i] - box[at + i + 1]);
      sum += out * out;
    }
    return sum;
  }

  // Whether every place that is nearer than this square lies inside the node's box, and so in the node.
  holds(node, place, square) {
    const { coordinates, box, width } = this;
    for (let i = 0, at = 2 * node * width, from = place * width; i < width; i++, at += 2) {
      const value = coordinates[from + i], low = value - box[at], high = box[at + 1] - value;
      if (low * low < square || high * high < square) return false;
    }
    return true;
  }

  // The other child of a node's parent.
  sibling(node) {
    const up = this.parent[node], second = this.second[up];
    return second === node ? up + 1 : second;
  }
}

// The components, and the shortest edge found in this round that leaves each of them.
class Rounds {
  constructor(tree) {
    const n = tree.ids.length;
    this.tree = tree;
    this.left = n;
    this.inside = new Int32Array(tree.count);
    this.parent = new Int32Array(n).map((_, i) => i);
    this.component = this.parent.slice();
    this.from = new Int32Array(n);
    this.to = new Int32Array(n);
    this.best = new Float64Array(n);
    // for each place, the nearest one that it found outside its component, or -1; whatever is outside now isn't nearer
    this.seen = new Int32Array(n).fill(-1);
    this.far = new Float64Array(n);
    // the current search: its place and component, the place found, its square, and the squares of gaps to visit
    this.place = 0;
    this.own = 0;
    this.hit = -1;
    this.least = 0;
    this.within = 0;
  }

  root(place) {
    const { parent } = this;
    while (parent[place] !== place) place = parent[place] = parent[parent[place]];
    return place;
  }

  // Computes for each node the component that contains all of it, or -1.
  mark() {
    const { inside, tree: { second, count } } = this;
    for (let node = count - 1; node >= 0; node--) {
      if (!second[node]) inside[node] = this.componentOf(node);
      else inside[node] = inside[node + 1] === inside[second[node]] ? inside[node + 1] : -1;
    }
  }

  // The component that contains a whole leaf, or -1.
  componentOf(leaf) {
    const { component, tree: { low, high } } = this, first = component[low[leaf]];
    for (let at = low[leaf]; at < high[leaf]; at++) if (component[at] !== first) return -1;
    return first;
  }

  // Whether the place found last is still outside the component. If so, nothing outside is nearer.
  isOut(place) {
    return this.seen[place] >= 0 && this.component[this.seen[place]] !== this.component[place];
  }

  // Offers an edge to the components of both endpoints.
  keep(place, other, square) {
    this.offer(place, other, square);
    this.offer(other, place, square);
  }

  offer(place, other, square) {
    const own = this.component[place];
    if (square >= this.best[own]) return;
    this.best[own] = square;
    this.from[own] = place;
    this.to[own] = other;
  }

  // Searches for all places of a node. `top` is the highest node around it that lies in one component, or the node
  // itself.
  visit(node, top) {
    const { tree, inside, best } = this, own = inside[node], second = tree.second[node];
    if (own >= 0 && best[own] < Infinity && !this.reaches(node, top)) return;
    if (second) {
      this.visit(node + 1, own < 0 ? node + 1 : top);
      this.visit(second, own < 0 ? second : top);
    } else for (let place = tree.low[node]; place < tree.high[node]; place++) this.find(place, top);
  }

  // Whether a place outside a node's component may be nearer to the node than the component's best edge is long.
  reaches(node, top) {
    const { tree, inside } = this, within = tree.space.within(this.best[inside[node]]);
    for (let above = top; above > 0; above = tree.parent[above]) {
      if (this.meets(node, tree.sibling(above), within)) return true;
    }
    return false;
  }

  meets(node, other, within) {
    const { tree, inside } = this, second = tree.second[other];
    if (inside[other] === inside[node] || tree.apart(node, other) >= within) return false;
    if (!second) return this.meetsPlace(node, other, within);
    return this.meets(node, other + 1, within) || this.meets(node, second, within);
  }

  meetsPlace(node, leaf, within) {
    const { tree, component } = this, own = this.inside[node];
    for (let at = tree.low[leaf]; at < tree.high[leaf]; at++) {
      if (component[at] !== own && tree.gap(node, at) < within) return true;
    }
    return false;
  }

  // Finds the nearest place outside the component of a place, if that is nearer than the component's best. `top` is a
  // node around the place: a leaf, or a node inside the component.
  find(place, top) {
    const { tree, far, seen } = this, own = this.component[place], best = this.best[own];
    if (far[place] >= best || this.isOut(place)) return;
    this.place = place;
    this.own = own;
    this.hit = -1;
    this.least = best;
    this.within = tree.space.within(best);
    if (this.inside[top] !== own) this.look(tree.low[top], tree.high[top]);
    for (let above = top; above > 0 && !tree.holds(above, place, this.within); above = tree.parent[above]) {
      const other = tree.sibling(above);
      if (this.gap(other) < this.within) this.search(other);
    }
    far[place] = Math.max(far[place], this.least);
    seen[place] = this.hit >= 0 || this.from[own] !== place ? this.hit : this.to[own];
    if (this.hit >= 0) this.keep(place, this.hit, this.least);
  }

  // The square of the gap to a node, or Infinity if the node lies inside the component.
  gap(node) {
    return this.inside[node] === this.own ? Infinity : this.tree.gap(node, this.place);
  }

  search(node) {
    const { low, high, second } = this.tree, first = node + 1, other = second[node];
    if (!other) {
      this.look(low[node], high[node]);
      return;
    }
    const here = this.gap(first), there = this.gap(other), isFirst = here <= there;
    if ((isFirst ? here : there) < this.within) this.search(isFirst ? first : other);
    if ((isFirst ? there : here) < this.within) this.search(isFirst ? other : first);
  }

  look(low, high) {
    const { component, place, own, tree: { space } } = this;
    for (let at = low; at < high; at++) {
      if (component[at] === own) continue;
      const square = space.square(place, at);
      if (square >= this.least) continue;
      this.least = square;
      this.hit = at;
      this.within = space.within(square);
    }
  }

  // One round. Adds the chosen edges to `links`: two ids and the square of the distance each.
  run(links) {
    const { component, best, seen, far } = this, n = component.length;
    for (let place = 0; place < n; place++) component[place] = this.root(place);
    this.mark();
    best.fill(Infinity);
    for (let place = 0; place < n; place++) if (this.isOut(place)) this.keep(place, seen[place], far[place]);
    this.visit(0, 0);
    for (let own = 0; own < n; own++) if (best[own] < Infinity) this.take(own, links);
  }

  take(own, links) {
    const { from, to, tree: { ids } } = this, one = this.root(own), other = this.root(to[own]);
    links.push(ids[from[own]], ids[to[own]], this.best[own]);
    if (one === other) return;
    this.parent[one] = other;
    this.left--;
  }
}

// The candidates: two ids and the square of their distance, one edge after the other. `report` is called with the part
// of the work that is done.
export function candidates(space, report = _part => {}) {
  const tree = new Tree(space), rounds = new Rounds(tree), links = [];
  while (rounds.left > 1) {
    rounds.run(links);
    report(1 - Math.log(rounds.left) / Math.log(tree.ids.length));
  }
  return links;
}
