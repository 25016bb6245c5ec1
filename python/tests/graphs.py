"""Drawn graphs, and their forests by Kruskal's algorithm on Python's own sort."""

import math
import random

import numpy as np

# for each kind of weights: how one is drawn, and the dtypes that store them
_LEAST_DOUBLE, _MOST_DOUBLE = 5e-324, 1.7976931348623157e308
_DOUBLES = [0.0, -0.0, 1.0, 1.0000000000000002, math.inf, _LEAST_DOUBLE, _MOST_DOUBLE]
KINDS = {
    "ties": (lambda draw: draw.randint(-2, 2), [np.int8, np.int16, np.int32, np.int64, np.float16, np.float32, np.float64]),
    "natural": (lambda draw: draw.randint(0, 255), [np.uint8, np.uint16, np.uint32, np.uint64]),
    "all of 64 bits": (lambda draw: draw.randint(-(2**63), 2**63 - 1), [np.int64]),
    "ends of 64 bits": (lambda draw: draw.choice([-(2**63), 1 - 2**63, -1, 0, 2**63 - 2, 2**63 - 1]), [np.int64]),
    "up to 2^63": (lambda draw: draw.choice([0, 2**53, 2**53 + 1, 2**63 - 2, 2**63 - 1]), [np.uint64]),
    "doubles": (lambda draw: draw.gauss(0, 1), [np.float32, np.float64]),
    "special doubles": (lambda draw: draw.choice([-1, 1]) * draw.choice(_DOUBLES), [np.float64, np.dtype(">f8")]),
    "yes and no": (lambda draw: draw.random() < 0.5, [np.bool_]),
}
_ENDS = [np.int16, np.int32, np.int64, np.uint8, np.uint32, np.uint64, np.dtype(">i4")]


class Graph:
    """n vertices, and edges with loops, parallel edges and often several components. `kind` is that of the weights."""

    def __init__(self, seed, kinds=tuple(KINDS)):
        draw = random.Random(seed)
        self.kind = draw.choice(kinds)
        self.n = draw.choice([1, 2, 3, 5, 8, 20, 60, 200])
        m = draw.choice([0, 1, 2, 1, 2, 5, 10]) * draw.choice([1, self.n])
        # endpoints near each other leave more components
        reach = draw.choice([1, 3, self.n])
        self.u = [draw.randrange(self.n) for _ in range(m)]
        self.v = [min(self.n - 1, max(0, it + draw.randint(-reach, reach))) for it in self.u]
        one, dtypes = KINDS[self.kind]
        self.held = [np.array(it, draw.choice(_ENDS)) for it in (self.u, self.v)]
        self.held.append(np.array([one(draw) for _ in range(m)], draw.choice(dtypes)))
        # (as they are stored: a short float has fewer digits)
        self.w = self.held[2].tolist()


class Components:
    """Which vertices are connected so far."""

    def __init__(self, n):
        self.parent = list(range(n))

    def root(self, v):
        while self.parent[v] != v:
            v = self.parent[v]
        return v

    def join(self, u, v):
        """Connect two vertices; return whether they weren't connected before."""
        u, v = self.root(u), self.root(v)
        self.parent[max(u, v)] = min(u, v)
        return u != v


def kruskal(n, u, v, order):
    """The indices of the edges that Kruskal's algorithm chooses when it considers the edges in this order."""
    components = Components(n)
    return [place for place in order if components.join(u[place], v[place])]


def by_key(graph, maximum=False):
    """The indices of the forest's edges, in the order of (weight, lower endpoint, higher endpoint, index); heaviest
    first for a maximum.
    """
    ends = [(min(it), max(it)) for it in zip(graph.u, graph.v)]
    order = sorted(range(len(graph.w)), key=lambda i: (*ends[i], i))
    # (sorting is stable, also in reverse)
    order.sort(key=lambda i: graph.w[i], reverse=maximum)
    return kruskal(graph.n, graph.u, graph.v, order)


def searched(edges, a, b):
    """The path from a to b in a forest, by a search; None if there is none."""
    near = {}
    for one, other in edges:
        near.setdefault(one, []).append(other)
        near.setdefault(other, []).append(one)
    waiting = [[a]]
    while waiting:
        way = waiting.pop()
        if way[-1] == b:
            return way
        waiting += [[*way, it] for it in near.get(way[-1], []) if len(way) < 2 or it != way[-2]]
    return None


def replaced(graph, forest, maximum):
    """For each edge of the forest, its replacement by Kruskal's algorithm on the graph without this edge; or -1."""
    found, whole = [], {*forest}
    for lost in forest:
        other = Graph(0)
        kept = [it for it in range(len(graph.w)) if it != lost]
        other.n, other.u, other.v, other.w = graph.n, *([held[it] for it in kept] for held in (graph.u, graph.v, graph.w))
        new = {kept[it] for it in by_key(other, maximum)} - whole
        assert len(new) < 2
        found.append(min(new, default=-1))
    return found
