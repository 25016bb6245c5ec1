"""Minimum spanning trees of points by Prim's algorithm: each point that joins the tree is compared with all points
outside it.
"""

from __future__ import annotations

import numpy as np
from numpy.typing import NDArray

from boruvka._points import Endpoints, Indices, Numbers, Space, pieces, reached

# how many points' distances to all others are computed at a time
_BLOCK = 64


def by_rows(space: Space, nearest: int | None) -> Endpoints:
    """The edges of the tree. The core distances for `nearest` are stored in `space.core`."""
    if nearest:
        space.core = core_by_rows(space, nearest)
    rest = Rest(space)
    one, other = np.zeros((2, max(len(space) - 1, 0)), np.intp)
    here = 0
    for at in range(len(one)):
        rest.look_from(here)
        one[at], here = rest.take_nearest()
        other[at] = here
    return one, other


def tree_of_distances(square: Numbers, nearest: int | None) -> tuple[Indices, Indices, Numbers]:
    """The edges of a minimum spanning tree and their heights, from distances that are symmetric and 0 on the diagonal.

    The heights are those of `tree_of_points`. The matrix is overwritten.
    """
    n = len(square)
    if nearest:
        core = np.partition(square, nearest - 1, axis=1)[:, nearest - 1]
        np.maximum(square, core, out=square)
        np.maximum(square, core[:, None], out=square)
    best, ends = np.full(n, np.inf), np.zeros(n, np.intp)
    is_left = np.ones(n, bool)
    one, other = np.zeros((2, n - 1), np.intp)
    here = 0
    for at in range(n - 1):
        is_left[here], best[here] = False, np.inf
        is_nearer = is_left & (square[here] < best)
        np.copyto(best, square[here], where=is_nearer)
        ends[is_nearer] = here
        # (distances are finite, so this is a point outside the tree)
        here = int(best.argmin())
        one[at], other[at] = ends[here], here
    return one, other, square[one, other]


def core_by_rows(space: Space, nearest: int) -> Numbers:
    """The distance of each point to its `nearest`-th nearest point, counting itself."""
    if not has_products(space):
        lengths = (space.norms(space.columns - space.columns[:, [it]]) for it in range(len(space)))
        return np.array([np.partition(it, nearest - 1)[nearest - 1] for it in lengths])
    products = Products(space)
    core = np.empty(len(space))
    for start in range(0, len(space), _BLOCK):
        some = np.arange(start, min(start + _BLOCK, len(space)))
        core[some] = products.core_of(some, nearest)
    return core


def has_products(space: Space) -> bool:
    """Whether matrix products give squares of distances: for enough dimensions, and if the squares are normal doubles."""
    return space.p == 2 and space.is_tame and len(space.columns) > 4


class Products:
    """Squares of distances by matrix products.

    `whole` are the points with their mean at 0, and `halves` are half the squares of their lengths. Half the square of
    a distance is the sum of two halves minus a product. `slack` is an upper bound for the difference between this and
    the square of a distance that `Space.norms` computes.
    """

    def __init__(self, space: Space) -> None:
        self.space = space
        self.whole = space.columns - space.columns.mean(axis=1, keepdims=True)
        self.halves = np.einsum("ij,ij->j", self.whole, self.whole) / 2
        self.slack = (len(self.whole) + 8) * 2.0**-50 * self.halves.max(initial=0.0)

    def core_of(self, some: Indices, nearest: int) -> Numbers:
        """The core distances of these points. Products select the lengths that are computed."""
        squares = self.whole[:, some].T @ self.whole
        np.subtract(self.halves, squares, out=squares)
        bars = np.partition(squares, nearest - 1, axis=1)[:, nearest - 1] + 4 * self.slack
        row, other = np.nonzero(squares <= bars[:, None])
        lengths = np.concatenate([self.space.lengths(some[it], others) for it, others in _together(row, other, len(self.whole))])
        order = np.lexsort((lengths, row))
        # (each row has at least `nearest` lengths, in ascending order now)
        found: Numbers = lengths[order][np.searchsorted(row, np.arange(len(some))) + nearest - 1]
        return found


def _together(row: Indices, other: Indices, width: int) -> list[tuple[Indices, Indices]]:
    return list(zip(pieces(row, width), pieces(other, width)))


class Rest:
    """The points outside the tree, the distance of each to the tree, and the point of the tree that is nearest to it.

    With products, `columns` have their mean at 0, `half` is half the square of each length, and a point is nearer than
    before only if a product exceeds its `bar`.
    """

    def __init__(self, space: Space) -> None:
        n = len(space)
        self.space, self.left = space, max(n - 1, 0)
        self.points = np.arange(1, n)
        self.best, self.nearest = np.full(self.left, np.inf), np.zeros(self.left, np.intp)
        self.columns = space.columns[:, 1:].copy()
        self.each = [self.points, self.best, self.nearest]
        self.products = Products(space) if has_products(space) else None
        if self.products:
            self.columns = self.products.whole[:, 1:].copy()
            self.half, self.bar = self.products.halves[1:].copy(), np.full(self.left, -np.inf)
            self.each += [self.half, self.bar]

    def look_from(self, here: int) -> None:
        """Update the points outside that are nearer to this point of the tree than to all others in it."""
        near = self.perhaps_nearer(here)
        for some in pieces(near, len(self.columns)):
            lengths = self.space.norms(self.steps(some, here))
            lengths = reached(lengths, self.space.core, self.points[some], here)
            is_nearer = lengths < self.best[some]
            some, lengths = some[is_nearer], lengths[is_nearer]
            self.best[some], self.nearest[some] = lengths, here
            if self.products:
                self.bar[some] = self.half[some] - lengths * lengths / 2

    def perhaps_nearer(self, here: int) -> Indices:
        """The points outside that may be nearer to this point of the tree than to all others in it."""
        if not self.products:
            return np.arange(self.left)
        products = self.products.whole[:, here] @ self.columns[:, : self.left]
        products -= self.bar[: self.left]
        near: Indices = np.flatnonzero(products > self.products.halves[here] - self.products.slack)
        if self.space.core is None:
            return near
        # (no edge is below the core distances of its endpoints)
        is_below: NDArray[np.bool_] = np.maximum(self.space.core[self.points[near]], self.space.core[here]) < self.best[near]
        return np.compress(is_below, near)

    def steps(self, some: Indices, here: int) -> Numbers:
        """The vectors from a point to some of the points outside."""
        if not self.products and len(some) == self.left:
            others = self.columns[:, : self.left]
        else:
            others = self.space.columns.take(self.points[some], axis=1)
        found: Numbers = others - self.space.columns[:, [here]]
        return found

    def take_nearest(self) -> tuple[int, int]:
        """Move the point that is nearest to the tree into it; return its neighbour in the tree, and the point."""
        at = int(self.best[: self.left].argmin())
        found = int(self.nearest[at]), int(self.points[at])
        self.left -= 1
        for it in self.each:
            it[at] = it[self.left]
        self.columns[:, at] = self.columns[:, self.left]
        return found
