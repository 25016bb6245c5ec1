"""Minimum spanning trees of points by Borůvka's rounds on a k-d tree: each component needs its nearest point outside.

In two and three dimensions, many points first consider those in the cells of a grid around them. The reach of a point
is the radius within which all others are known. So the lightest known edge out of a component is its lightest edge, if
all its points reach that far. Points that don't reach that far query the tree for twice as many neighbours. If a
component has too many of them, it is compared with each other component by bounds (`_across`), or its points query
trees without the component.
"""

from __future__ import annotations

import time
from collections.abc import Iterator
from typing import Any

import numpy as np
from numpy.typing import NDArray

from boruvka import _library
from boruvka._across import Across
from boruvka._edges import forest_indices
from boruvka._grid import Grid, fitting_grid
from boruvka._points import PIECE, Endpoints, Indices, Numbers, Space, Trees, pieces, reached

# how many neighbours a point queries first, counting itself, and at most in the tree of all points
_FIRST, _MOST = 8, 64
# how many numbers are computed in the first piece; later pieces take about so many seconds, and Ctrl-C takes effect in
# between
_FIRST_PIECE, _SECONDS = 1 << 15, 0.1
# how many pairs of near points are computed at a time
_NEAR = 1 << 15
# equal points are looked for if more than so many share a first coordinate (a few in a leaf of a tree do no harm)
_SHARED = 16
# with more components, bounds between all pairs of them take too long
_COMPONENTS = 1024
# The relative difference of lengths from a tree and from `Space.norms` is below this. Each of d terms and sums, and
# each of two powers, is rounded by a few units of 2^-53; the logarithm of a sum that is raised to 1/p is at most 2^10.
_MARGIN = 2.0**-40


def paced(points: Indices, width: int) -> Iterator[Indices]:
    """The points in pieces that take about as long as one another, so that Ctrl-C takes effect soon."""
    size, start = max(_FIRST_PIECE // width, 1), 0
    while start < len(points):
        begun = time.thread_time()
        yield points[start : start + size]
        start += size
        fitting = size * _SECONDS / max(time.thread_time() - begun, 1e-6)
        size = max(int(min(fitting, PIECE // width, 8 * size)), 1)


def by_rounds(space: Space, trees: Trees, nearest: int | None) -> Endpoints:
    """The edges of the tree: rounds over the distinct points, and for each other point an edge to the first equal one.

    The core distances for `nearest` are stored in `space.core`.
    """
    first, copies, originals = _once(space)
    columns = space.columns.take(first, axis=1)
    grid = fitting_grid(columns)
    if nearest and (grid or len(copies)):
        space.core = core_by_trees(space, trees, nearest)
    # (so that near points are near in memory, and are queried one after another)
    first = first[grid.order if grid else trees(columns.T.copy()).indices]
    rounds = Rounds(space, first, trees)
    if grid:
        rounds.look_around(grid)
    else:
        rounds.look_first(nearest if space.core is None else None)
    if nearest and space.core is None:
        space.core = np.empty(len(space))
        space.core[first] = rounds.core
    one, other = rounds.tree()
    return np.concatenate([first[one], copies]), np.concatenate([first[other], originals])


def core_by_trees(space: Space, trees: Trees, nearest: int) -> Numbers:
    """The distance of each point to its `nearest`-th nearest point, counting itself."""
    rows = space.columns.T.copy()
    tree, core = trees(rows), np.empty(len(rows))
    for some in paced(tree.indices, 8):
        core[some] = space.lengths(some, tree.query(rows[some], [nearest], p=space.p)[1][:, 0])
    return core


def _once(space: Space) -> tuple[Indices, Indices, Indices]:
    """The first of each set of equal points; the other points, and for each of them the first equal one.

    Only if many points are equal.
    """
    none = np.empty(0, np.intp)
    sorted_numbers = np.sort(space.columns[0])
    if not (sorted_numbers[_SHARED:] == sorted_numbers[:-_SHARED]).any():
        return np.arange(len(space)), none, none
    order = np.lexsort(space.columns)
    is_new = np.ones(len(space), bool)
    is_new[1:] = (space.columns[:, order[1:]] != space.columns[:, order[:-1]]).any(axis=0)
    originals = order[is_new][np.cumsum(is_new) - 1]
    return order[is_new], order[~is_new], originals[~is_new]


class Rounds:
    """Rounds on points: `label` has the component of each, and `count` is the number of components.

    `reach` is the radius around each point within which all edges out of its component are known, and `low` the least
    reach in each component. `one`, `other` and `lengths` are a minimum spanning forest of the known edges between
    components, lightest first. `found` are known edges that aren't in it yet, and `proved` the edges of the tree so
    far.
    """

    def __init__(self, space: Space, chosen: Indices, trees: Trees) -> None:
        self.points = space.chosen(chosen)
        self.core = self.points.core
        self.trees, self.p = trees, space.p
        self.rows = self.points.columns.T.copy()
        self.whole = trees(self.rows)
        n = self.count = len(self.rows)
        self.label = np.arange(n, dtype=np.int32)
        self.reach, self.low = np.zeros(n), np.zeros(n)
        self.asked = np.zeros(n, np.int32)
        self.one = self.other = np.empty(0, np.int32)
        self.lengths = np.empty(0)
        self.found: list[tuple[NDArray[Any], ...]] = []
        self.proved: list[Endpoints] = []
        self.across: Across | None = None

    def tree(self) -> Endpoints:
        """The edges of the tree."""
        self.sort_edges()
        self.low = self.reach
        while self.count > 1:
            heights = self.merge()
            if self.count > 1:
                self.look_further(heights)
        one, other = zip(*self.proved) if self.proved else ([self.one], [self.one])
        return np.concatenate(one), np.concatenate(other)

    def look_around(self, grid: Grid) -> None:
        """Note the edges between all points that are less than a cell's side apart."""
        for one, other in grid.pairs(_NEAR):
            lengths = self.points.lengths(one, other)
            (near,) = np.nonzero(lengths < grid.reach)
            one, other = one[near], other[near]
            self.found.append((one.astype(np.int32), other.astype(np.int32), reached(lengths[near], self.core, one, other)))
        # (as if they had queried few neighbours: next they query _FIRST)
        self.know(np.arange(len(self.rows)), np.full(len(self.rows), grid.reach), _FIRST // 2)

    def look_first(self, nearest: int | None) -> None:
        """Query the neighbours of all points, and their core distances if `nearest` is given."""
        n = len(self.rows)
        count = min(_FIRST, n)
        near, reach, core = np.empty((n, count), np.int32), np.empty(n), np.empty(n if nearest else 0)
        for some in paced(np.arange(n), max(count, 8)):
            lengths, others = self.whole.query(self.rows[some], [*range(1, count + 1), nearest or count], p=self.p)
            near[some], reach[some] = others[:, :count], lengths[:, count - 1]
            if nearest:
                core[some] = self.points.lengths(some, others[:, -1])
        if nearest:
            self.core = core
        # (if there are no more points than neighbours, all are known)
        self.know(np.arange(n), np.full(n, np.inf) if n <= count else reach, _FIRST)
        for some in pieces(np.arange(n), count * count):
            others = near[some]
            # (an edge that both endpoints found is noted by the first; the index n is no neighbour)
            is_twice = (others < some[:, None]) & (near[others % n] == some[:, None, None]).any(axis=2)
            self.note(some, np.where(is_twice, n, others))

    def merge(self) -> Numbers:
        """Merge components along edges that are surely their lightest, until there is none; return the lightest known
        heights.
        """
        while True:
            first = self.first_edges()
            heights = np.append(self.lengths, np.inf)[first]
            taken = np.zeros(len(self.lengths) + 1, bool)
            taken[first[self.low >= heights]] = True
            (taken,) = np.nonzero(taken[:-1])
            if not len(taken):
                return heights
            self.take(taken)

    def first_edges(self) -> Indices:
        """The index of the first known edge out of each component; the number of known edges if there is none."""
        last = len(self.lengths)
        found = [np.full(self.count, last), np.full(self.count, last)]
        for first, endpoints in zip(found, (self.one, self.other)):
            # (if an entry is written several times, the last one stays)
            first[self.label[endpoints[::-1]]] = np.arange(last)[::-1]
        return np.minimum(*found)

    def take(self, taken: Indices) -> None:
        """Add these edges to the tree, and merge the components that they join."""
        self.proved.append((self.one[taken], self.other[taken]))
        links = np.zeros(len(taken), _library.LINK)
        links["low"], links["high"] = self.label[self.one[taken]] + 1, self.label[self.other[taken]] + 1
        least = _library.labels(self.count, links) - 1
        is_first = least == np.arange(self.count, dtype=np.uint32)
        merged = (np.cumsum(is_first, dtype=np.int32) - 1)[least]
        self.count = int(np.count_nonzero(is_first))
        self.label = merged[self.label]
        low = np.full(self.count, np.inf)
        np.minimum.at(low, merged, self.low)
        self.low = low
        is_open = self.label[self.one] != self.label[self.other]
        self.one, self.other, self.lengths = self.one[is_open], self.other[is_open], self.lengths[is_open]

    def look_further(self, heights: Numbers) -> None:
        """Extend the reach of short points: those that don't reach as far as the lightest known edge out of their
        component.

        The component with the most short points is left out.
        """
        short = np.flatnonzero(self.reach < heights[self.label])
        counts = np.bincount(self.label[short], minlength=self.count)
        largest = counts.argmax()
        short = short[self.label[short] != largest]
        heights = self.look_across(short, counts, heights)
        for asked in np.unique(self.asked[short]).tolist():
            some = short[(self.asked[short] == asked) & (self.reach[short] < heights[self.label[short]])]
            apart = self.are_too_many(some, counts)
            self.ask(some[~apart], 2 * asked)
            self.ask_apart(some[apart], 1 if self.core is None else 2 * asked)
        self.sort_edges()
        # (all other points reach as far as their component's lightest known edge)
        self.low = np.where(np.arange(self.count) == largest, self.low, heights)
        np.minimum.at(self.low, self.label[short], self.reach[short])

    def are_too_many(self, points: Indices, counts: Indices) -> NDArray[np.bool_]:
        """Whether each of these points, which queried equally many neighbours, is in a component with too many short
        points to query more.
        """
        if not len(points):
            return np.zeros(0, bool)
        asked = self.asked[points[0]]
        apart = (counts[self.label[points]] > 4 * asked) | (asked > _MOST)
        # (trees without components have to be built from all points)
        if asked < _FIRST or np.count_nonzero(apart) * asked <= len(self.rows):
            apart[:] = False
        found: NDArray[np.bool_] = apart
        return found

    def look_across(self, short: Indices, counts: Indices, heights: Numbers) -> Numbers:
        """Compare components that have too many short points with all others, if there are few; return the lightest
        known heights.
        """
        if self.count > _COMPONENTS:
            return heights
        wide = np.zeros(self.count, bool)
        for asked in np.unique(self.asked[short]).tolist():
            some = short[self.asked[short] == asked]
            wide[self.label[some[self.are_too_many(some, counts)]]] = True
        if not wide.any():
            return heights
        # (components only grow, so bounds between groups stay valid)
        self.across = self.across or Across(self.points, self.core, self.label, self.count)
        heights, is_open = self.across.lightest(self.label, wide, heights)
        if self.across.found:
            one, other, lengths = (np.array(it) for it in zip(*self.across.found))
            self.found.append((one.astype(np.int32), other.astype(np.int32), lengths))
            self.across.found = []
        done = short[wide[self.label[short]] & ~is_open[short]]
        self.reach[done] = np.maximum(self.reach[done], heights[self.label[done]])
        return heights

    def ask(self, points: Indices, count: int) -> None:
        """Query `count` neighbours of points, counting themselves."""
        for some in paced(points, count):
            lengths, near = self.whole.query(self.rows[some], range(1, count + 1), p=self.p)
            self.know(some, lengths[:, -1], count)
            self.note(some, near)

    def ask_apart(self, points: Indices, count: int) -> None:
        """Query `count` neighbours of points outside their components.

        Two components differ in a bit of their numbers. So one tree for each bit and each of its values is enough.
        """
        reach = np.full(len(points), np.inf)
        for bit in range((self.count - 1).bit_length() if len(points) else 0):
            side = self.label >> bit & 1
            for here in (0, 1):
                (mine,), (others,) = np.nonzero(side[points] == here), np.nonzero(side != here)
                if not len(mine):
                    continue
                tree = self.trees(self.rows[others])
                others = np.append(others, len(self.rows))
                for some in paced(mine, count):
                    lengths, near = tree.query(self.rows[points[some]], range(1, count + 1), p=self.p)
                    reach[some] = np.minimum(reach[some], lengths[:, -1])
                    self.note(points[some], others[near])
        self.know(points, reach, count)

    def know(self, points: Indices, reach: Numbers, count: int) -> None:
        """Set the reach of points that queried `count` neighbours."""
        self.reach[points] = reach if self.core is None else np.maximum(reach, self.core[points])
        self.asked[points] = np.maximum(self.asked[points], count)

    def note(self, points: Indices, near: Indices) -> None:
        """Append the edges from points to those near them, if they lead to another component."""
        one, other = np.repeat(points.astype(np.int32), near.shape[1]), near.ravel()
        # (if a tree has fewer points, the missing neighbours have the index len(self.rows))
        is_there = other < len(self.rows)
        one, other = one[is_there], other[is_there].astype(np.int32)
        apart = self.label[one] != self.label[other]
        one, other = one[apart], other[apart]
        heights = reached(self.points.lengths(one, other), self.core, one, other)
        # (once is enough, if the other endpoint surely noted the edge; its reach is a length from a tree, so there is a margin)
        is_noted = (one < other) | (heights >= self.reach[other] * (1 - _MARGIN))
        self.found.append((one[is_noted], other[is_noted], heights[is_noted]))

    def sort_edges(self) -> None:
        """Reduce the known and the found edges to one forest."""
        edges = zip((self.one, self.other, self.lengths), *self.found)
        one, other, lengths = (np.concatenate(it) for it in edges)
        self.found = []
        index = forest_indices(self.count, self.label[one], self.label[other], lengths)
        self.one, self.other, self.lengths = one[index], other[index], lengths[index]
