"""Minimum spanning trees of points, exact in any dimension.

A few points are compared pair by pair. If a k-d tree separates near points from far ones, Borůvka's rounds use it
(`_rounds`). Otherwise Prim's algorithm goes row by row (`_rows`): without scipy, in many dimensions, or if powers of
distances overflow or underflow.

`Space.norms` computes every length that is compared with another. A k-d tree adds coordinates in another order, so its
lengths differ in their last bits. They only decide which pairs are considered, with a margin for that difference.
"""

from __future__ import annotations

import math
from collections.abc import Callable, Iterable, Iterator
from copy import copy
from typing import Any

import numpy as np
from numpy.typing import NDArray

Numbers = NDArray[np.float64]
Indices = NDArray[np.intp]
Endpoints = tuple[Indices, Indices]
Trees = Callable[[Numbers], Any]

# up to this many points, all pairs are compared
FEW = 200
# how many numbers are computed at a time
PIECE = 1 << 20
# in more dimensions the cells of a k-d tree exclude too little
_MOST_DIMENSIONS = 32
# in so few dimensions, or for so few points, queries in a tree are always faster than rows
_FEW_DIMENSIONS, _FEW_POINTS = 6, 2000
# otherwise a sample of points decides: its size, and how many neighbours of each it considers
_SAMPLE, _NEIGHBOURS = 24, 8


class Space:
    """Points under the Minkowski distance of exponent p, one per column. No edge of a point is below its height in
    `core`.

    `is_tame` says that the powers of all distances are normal doubles. For that, coordinates are multiplied by 2^scale.
    """

    def __init__(self, points: Numbers, p: float) -> None:
        sizes = np.abs(points)
        most = math.frexp(sizes.max(initial=0.0))[1]
        least = math.frexp(sizes.min(initial=np.inf, where=sizes > 0))[1]
        # two different numbers differ by at least the last bit of the smaller one
        self.is_tame = (least - most - 53) * (p if np.isfinite(p) else 1) > -950
        self.scale = -most if self.is_tame else 0
        columns: Numbers = np.ascontiguousarray(points.T)
        self.columns = np.ldexp(columns, self.scale) if self.scale else columns
        self.p = p
        self.core: Numbers | None = None

    def __len__(self) -> int:
        return self.columns.shape[1]

    def chosen(self, points: Indices) -> Space:
        """Some of the points, in this order."""
        found = copy(self)
        # (`take` returns contiguous columns; later calls would copy others each time)
        found.columns = self.columns.take(points, axis=1)
        found.core = None if self.core is None else self.core[points]
        return found

    def lengths(self, one: Indices, other: Indices) -> Numbers:
        """The distances between points, in the unit of the columns."""
        # (`take` makes each coordinate contiguous)
        return self.norms(self.columns.take(one, axis=1) - self.columns.take(other, axis=1))

    def heights(self, one: Indices, other: Indices) -> Numbers:
        """The heights of edges, in the unit of the points given."""
        found = np.empty(len(one))
        for some in pieces(np.arange(len(one)), len(self.columns)):
            found[some] = reached(self.lengths(one[some], other[some]), self.core, one[some], other[some])
        with np.errstate(over="ignore"):
            return np.ldexp(found, -self.scale)

    def norms(self, steps: Numbers) -> Numbers:
        """The lengths of vectors, which are columns. The vectors are overwritten.

        A length depends on its vector alone: not on the number of vectors, nor on how they lie in memory.
        """
        if self.p == 2 and self.is_tame:
            return self.roots(added(np.multiply(steps, steps, out=steps), steps.shape[1:]))
        return self.roots(self.powers(steps, steps.shape[1:]))

    def square(self) -> Numbers:
        """The values of `powers` for the edges between all points, a row for each point."""
        steps = (np.subtract.outer(it, it) for it in self.columns)
        return self.powers(steps, (len(self), len(self)))

    def roots(self, powers: Numbers) -> Numbers:
        """The lengths, from the values of `powers`, which are overwritten."""
        return np.sqrt(powers, out=powers) if self.p == 2 and self.is_tame else powers

    def powers(self, rows: Iterable[Numbers], shape: tuple[int, ...]) -> Numbers:
        """The sums of powers of vectors, coordinate by coordinate, in the order of lengths.

        `roots` turns them into lengths. `rows` is overwritten.
        """
        if self.p == 2 and self.is_tame:
            return added((np.multiply(it, it, out=it) for it in rows), shape)
        if self.p == 1:
            return added((np.abs(it, out=it) for it in rows), shape)
        steps = [np.abs(it, out=it) for it in rows]
        greatest: Numbers = np.max(steps, axis=0) if steps else np.zeros(shape)
        if self.p == np.inf:
            return greatest
        with np.errstate(over="ignore", invalid="ignore"):
            parts = (np.divide(it, greatest, out=it, where=greatest > 0) ** self.p for it in steps)
            return np.where(np.isfinite(greatest), greatest * added(parts, shape) ** (1 / self.p), np.inf)


def added(rows: Iterable[Numbers], shape: tuple[int, ...]) -> Numbers:
    """The sum of rows, one after another. (`sum` groups them by how they lie in memory, so it rounds differently.)"""
    total: Numbers = np.zeros(shape)
    for row in rows:
        total += row
    return total


def reached(lengths: Numbers, core: Numbers | None, one: Indices, other: Indices | int) -> Numbers:
    """The heights of edges of these lengths: each is at least the core distances of its endpoints."""
    return lengths if core is None else np.maximum(lengths, np.maximum(core[one], core[other]))


def pieces(points: NDArray[Any], width: int) -> Iterator[NDArray[Any]]:
    """The points in pieces, so that one has about PIECE numbers if each point has `width`."""
    size = max(PIECE // max(width, 1), 1)
    return (points[start : start + size] for start in range(0, len(points), size))


def tree_of_points(points: Numbers, p: float, nearest: int | None) -> tuple[Indices, Indices, Numbers]:
    """The edges of a minimum spanning tree of points and their heights, in no particular order.

    If `nearest` is given, the height of an edge is the greatest of its length and of the core distances of its
    endpoints. A point's core distance is the distance to its `nearest`-th nearest point, counting itself.
    """
    from boruvka._rounds import by_rounds
    from boruvka._rows import by_rows

    # (a length that overflows is infinite, and is chosen only if there is no other)
    with np.errstate(over="ignore"):
        space = Space(points, p)
        if len(space.columns) == 1 and not nearest:
            order = np.argsort(space.columns[0], kind="stable")
            one, other = order[:-1], order[1:]
        else:
            trees = trees_for(space)
            one, other = by_rounds(space, trees, nearest) if trees else by_rows(space, nearest)
        return one, other, space.heights(one, other)


def heights_of_pairs(points: Numbers, p: float, nearest: int | None, positions: Indices) -> Numbers:
    """The heights of the edges between a few points, by their positions in a square of all pairs."""
    with np.errstate(over="ignore"):
        space = Space(points, p)
        square = space.square()
        if nearest and nearest > 1:
            core = np.partition(square, nearest - 1, axis=1)[:, nearest - 1]
            np.maximum(square, core, out=square)
            np.maximum(square, core[:, None], out=square)
        heights = space.roots(square.take(positions))
        return np.ldexp(heights, -space.scale) if space.scale else heights


def trees_for(space: Space) -> Trees | None:
    """A function that makes a k-d tree of rows; None if trees don't help."""
    if not space.is_tame or not 0 < len(space.columns) <= _MOST_DIMENSIONS or len(space) < 2:
        return None
    try:
        from scipy.spatial import cKDTree
    except ImportError:
        return None

    def trees(rows: Numbers) -> Any:
        # (an unbalanced tree is built faster, and its queries are as fast)
        return cKDTree(rows, leafsize=points_of_a_leaf(rows.shape[1]), balanced_tree=False, compact_nodes=False)

    return trees if are_worth_it(space, trees) else None


def points_of_a_leaf(dimensions: int) -> int:
    """The greatest number of points in a leaf of a k-d tree. (In more dimensions a query visits more leaves.)"""
    return 16 if dimensions <= 4 else 48


def are_worth_it(space: Space, trees: Trees) -> bool:
    """Whether queries in a tree take less time than rows, estimated from a sample of points.

    The sample is the same in each call, so the result is reproducible.
    """
    dimensions, n = space.columns.shape
    if dimensions <= _FEW_DIMENSIONS or n <= _FEW_POINTS:
        return True
    share = share_visited(space, trees)
    # nanoseconds per point: of a query, by the points that it visits, and of a row, by the points that it goes over
    query = 5_000 + share * n * 1.2 * dimensions
    row = 30_000 + n * (3 + 0.65 * dimensions)
    return query <= row


def share_visited(space: Space, trees: Trees) -> float:
    """The share of a tree's leaves that a query for a few neighbours visits, on average over a sample."""
    dimensions, n = space.columns.shape
    rows = space.columns.T.copy()
    leaves = rows[trees(rows).indices]
    starts = np.arange(0, n, points_of_a_leaf(dimensions))
    low, high = np.minimum.reduceat(leaves, starts), np.maximum.reduceat(leaves, starts)
    sample, visited = rows[:: n // _SAMPLE], 0
    for it in sample:
        reach = np.partition(space.norms(space.columns - it[:, None]), _NEIGHBOURS - 1)[_NEIGHBOURS - 1]
        gaps = np.maximum(np.maximum(low - it, it - high), 0)
        visited += int(np.count_nonzero(space.norms(gaps.T) <= reach))
    return visited / len(sample) / len(starts)
