"""Paths in a forest, their heaviest edges, and what replaces an edge that fails.

What these questions need is computed once per forest, at the first question of each kind.
"""

from __future__ import annotations

import sys
from importlib.util import find_spec
from typing import TYPE_CHECKING

import numpy as np
from numpy.typing import NDArray

from boruvka import _library

if TYPE_CHECKING:
    from boruvka._result import Forest

# from this many vertices on, scipy's search is worth loading scipy
_LARGE = 1 << 14


class Rooted:
    """A forest whose trees hang from an additional vertex 0. The others are renumbered so that parents come first.

    `above[k]` has the ancestor that is 2^k steps above each vertex, or 0 if the vertex is less deep. `edge` has the
    edge between each vertex and its parent, or -1 for a root.
    """

    def __init__(self, forest: Forest) -> None:
        forest.expect_vertices()
        n, u, v = forest.n, forest.u, forest.v
        is_large = n >= _LARGE and ("scipy" in sys.modules or find_spec("scipy") is not None)
        order, parent = _searched_by_scipy(n, u, v) if is_large else _searched(n, u, v)
        self.number = np.zeros(n + 1, np.int32)
        self.number[order] = np.arange(1, n + 1, dtype=np.int32)
        is_head = parent[v] == u
        child = np.where(is_head, v, u)
        if (parent[child] != np.where(is_head, u, v)).any() or np.count_nonzero(parent < n) != len(u):
            raise ValueError("the edges of the forest close a cycle")
        self.edge = np.full(n + 1, -1, np.int32)
        self.edge[self.number[child]] = np.arange(len(u), dtype=np.int32)
        self.vertex = np.append(np.int32(-1), order.astype(np.int32))
        self.above = [np.append(np.int32(0), self.number[parent[order]])]
        while self.above[-1].any():
            self.above.append(self.above[-1][self.above[-1]])
        # (Python reads single numbers faster from a memoryview than from an array)
        self.views = [it.data for it in self.above]

    def path(self, a: int, b: int) -> list[int]:
        """The vertices on the path from a to b, including both; an empty list if there is no path."""
        a, b = int(self.number[a]), int(self.number[b])
        steps = self.depth(a), self.depth(b)
        top = self.common_ancestor(a, b, steps[0] - steps[1])
        if not top:
            return []
        end = self.depth(top) - 1
        there, back = self.ancestors(a, steps[0] - end), self.ancestors(b, steps[1] - end)
        found: list[int] = self.vertex[np.concatenate([there, back[-2::-1]])].tolist()
        return found

    def depth(self, vertex: int) -> int:
        """The number of steps from a vertex to its root."""
        found = 0
        for bit in range(len(self.views) - 1, -1, -1):
            above = self.views[bit][vertex]
            if above:
                vertex, found = above, found + (1 << bit)
        return found

    def common_ancestor(self, a: int, b: int, deeper: int) -> int:
        """The deepest vertex above a and b, which may be one of them; 0 if there is none. a is `deeper` steps deeper
        than b.
        """
        if deeper < 0:
            a, b, deeper = b, a, -deeper
        for bit, above in enumerate(self.views):
            if deeper >> bit & 1:
                a = above[a]
        if a == b:
            return a
        for above in reversed(self.views):
            if above[a] != above[b]:
                a, b = above[a], above[b]
        return int(self.views[0][a])

    def ancestors(self, vertex: int, count: int) -> NDArray[np.int32]:
        """A vertex and those above it, `count` in all."""
        found = np.array([vertex], np.int32)
        for above in self.above:
            if len(found) == count:
                break
            found = np.concatenate([found, above[found[: count - len(found)]]])
        return found


def _searched(n: int, u: NDArray[np.intp], v: NDArray[np.intp]) -> tuple[NDArray[np.intp], NDArray[np.intp]]:
    """The vertices in an order in which parents come before children, and the parent of each, which is n for a root."""
    endpoints = np.concatenate([u, v])
    by_endpoint = np.argsort(endpoints, kind="stable")
    starts = np.searchsorted(endpoints[by_endpoint], np.arange(n + 1)).tolist()
    others = np.concatenate([v, u])[by_endpoint].tolist()
    parent, order = [-1] * n, []
    for root in range(n):
        if parent[root] != -1:
            continue
        parent[root] = n
        waiting = [root]
        while waiting:
            here = waiting.pop()
            order.append(here)
            for it in others[starts[here] : starts[here + 1]]:
                if parent[it] == -1:
                    parent[it] = here
                    waiting.append(it)
    return np.array(order, np.intp), np.array(parent, np.intp)


def _searched_by_scipy(n: int, u: NDArray[np.intp], v: NDArray[np.intp]) -> tuple[NDArray[np.intp], NDArray[np.intp]]:
    """The same by scipy, from an additional vertex that has an edge to each root."""
    from scipy.sparse import csr_matrix
    from scipy.sparse.csgraph import breadth_first_order, connected_components

    roots = np.zeros(1, np.intp)
    if len(u) != n - 1:
        labels = connected_components(csr_matrix((np.ones(len(u), np.int8), (u, v)), shape=(n, n)), directed=False)[1]
        roots = np.unique(labels, return_index=True)[1]
    tops = np.full(len(roots), n)
    tails, heads = np.concatenate([u, v, tops]), np.concatenate([v, u, roots])
    graph = csr_matrix((np.ones(len(tails)), (tails, heads)), shape=(n + 1, n + 1))
    order, parent = breadth_first_order(graph, n)
    return order[1:].astype(np.intp), parent[:n].astype(np.intp)


class Merged:
    """A forest as the merges of its clusters, in the order of `_best_first`.

    Each merge puts the first vertex of the smaller cluster below that of the larger one. So at most log2(n) vertices
    are above any other.
    """

    def __init__(self, forest: Forest) -> None:
        forest.expect_vertices()
        n, k = forest.n, len(forest)
        self.order = _best_first(forest)
        links = np.zeros(k, _library.LINK)
        links["low"], links["high"] = forest.u[self.order] + 1, forest.v[self.order] + 1
        merges = _library.merges(n, links)
        # There are fewer than 2^27 clusters, and half as many bytes take less time.
        one, other = merges["first"].astype(np.int32), merges["second"].astype(np.int32)
        sizes = np.ones(n + k, np.int32)
        sizes[n:] = merges["size"]
        is_one = sizes[one] >= sizes[other]
        large, small = np.where(is_one, one, other), np.where(is_one, other, one)
        first = np.concatenate([np.arange(n, dtype=np.int32), large])
        waiting = np.arange(n, n + k, dtype=np.int32)
        while len(waiting):
            first[waiting] = first[first[waiting]]
            waiting = waiting[first[waiting] >= n]
        above, when = np.full(n, -1, np.int32), np.full(n, k, np.int32)
        below = first[small]
        above[below], when[below] = first[large], np.arange(k, dtype=np.int32)
        # (Python reads single numbers faster from a memoryview than from an array)
        self.above, self.when = above.data, when.data

    def heaviest(self, a: int, b: int) -> int:
        """The position, in the forest, of the edge that counts last on the path from a to b.

        It is -1 if a is b, and -2 if there is no path.
        """
        above, when = self.above, self.when
        found = -1
        while a != b:
            if when[a] > when[b]:
                a, b = b, a
            found, a = when[a], above[a]
            if a < 0:
                return -2
        return int(self.order[found]) if found >= 0 else -1


def _best_first(forest: Forest) -> NDArray[np.intp]:
    """The positions of the edges, lightest first, or heaviest first in a maximum forest; equal ones as they come."""
    if np.isnan(forest.w).any():
        raise ValueError(f"forest.w[{np.isnan(forest.w).argmax()}] is NaN")
    if not forest.maximum:
        return np.argsort(forest.w, kind="stable")
    return len(forest) - 1 - np.argsort(forest.w[::-1], kind="stable")[::-1]


def replacements(rooted: Rooted, u: NDArray[np.intp], v: NDArray[np.intp], order: NDArray[np.intp]) -> NDArray[np.intp]:
    """For each edge of the forest, the first of these other edges, in this order, whose path has it; -1 if none has.

    Edges of a path that have a replacement are contracted, so that each is visited once.
    """
    parent, edge = rooted.above[0].tolist(), rooted.edge.tolist()
    top = list(range(len(parent)))
    found = [-1] * (len(edge) - edge.count(-1))

    def contracted(vertex: int) -> int:
        while top[vertex] != vertex:
            top[vertex] = top[top[vertex]]
            vertex = top[vertex]
        return vertex

    for index, a, b in zip(order.tolist(), rooted.number[u[order]].tolist(), rooted.number[v[order]].tolist()):
        a, b = contracted(a), contracted(b)
        while a != b:
            if a < b:
                a, b = b, a
            found[edge[a]] = index
            top[a] = parent[a]
            a = contracted(a)
    return np.array(found, np.intp)
