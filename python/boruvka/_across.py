"""Which points of two groups can be near each other, by bounds along the line between the centres of the groups.

An edge between two points is at least as long as its projection on a direction: this holds for the Minkowski distance
of p if the direction has length 1 under that of q, where 1/p + 1/q = 1 (Hölder's inequality). So two groups that are
separated along the line between their centres are at least as far apart as their ends on that line.
"""

from __future__ import annotations

import numpy as np
from numpy.typing import NDArray

from boruvka._grid import pairs_of
from boruvka._points import Indices, Numbers, Space, pieces, reached

# Bounds have to separate enough points, because trees are faster otherwise. A point may be compared with at most _PAIRS
# times the square of the dimensions other points. A comparison of two groups is worth _WORTH coordinates.
_PAIRS, _WORTH = 4, 32
# how many points at each of two ends are compared first
_ENDS = 32
# how many pairs of points are computed at a time
_NEAR = 1 << 15


class Across:
    """Points in a few groups, each within a component. `found` are the lightest edges between two groups that were needed."""

    def __init__(self, space: Space, core: Numbers | None, group: NDArray[np.int32], count: int) -> None:
        self.space, self.core, self.count = space, core, count
        self.order = np.argsort(group, kind="stable")
        self.starts = np.searchsorted(group[self.order], np.arange(count + 1))
        columns = space.columns.take(self.order, axis=1)
        # (this makes rounding smaller for points far from 0)
        self.columns = columns - columns.mean(axis=1, keepdims=True)
        sums = np.add.reduceat(self.columns, self.starts[:-1], axis=1)
        self.centres = sums / np.diff(self.starts)
        # An upper bound of the rounding of a bound: each coordinate of an edge is rounded by at most 2^-52 of the
        # greatest, and so are each product and sum.
        dimensions = len(columns)
        self.slack = (dimensions + 8) * dimensions * 2.0**-50 * np.abs(self.columns).max(initial=0.0)
        self.gaps = self.least_gaps()
        self.found: list[tuple[int, int, float]] = []

    def members(self, it: int) -> slice:
        """The slice of `order` that has the points of a group."""
        return slice(self.starts[it], self.starts[it + 1])

    def directions(self, it: int) -> Numbers:
        """The directions from a group's centre to all others, one per column; 0 if two centres are equal.

        They are the directions on which the projection of the edge between two centres is as long as the edge.
        """
        steps: Numbers = self.centres - self.centres[:, [it]]
        sizes, p = np.abs(steps), self.space.p
        greatest = sizes.max(axis=0)
        np.divide(sizes, greatest, out=sizes, where=greatest > 0)
        if p == np.inf:
            sizes = (np.arange(len(sizes))[:, None] == sizes.argmax(axis=0)) * (greatest > 0)
        else:
            sizes = sizes ** (p - 1) if p > 1 else (sizes > 0) * 1.0
            lengths = (sizes ** (p / (p - 1))).sum(axis=0) ** (1 - 1 / p) if p > 1 else 1.0
            # (shortened by more than rounding, so that bounds are never too high)
            np.divide(sizes * (1 - 2.0**-40), lengths, out=sizes, where=greatest > 0)
        return np.copysign(sizes, steps)

    def least_gaps(self) -> Numbers:
        """A lower bound of the distance between each two groups."""
        tops = np.full((self.count, self.count), -np.inf)
        for it in range(self.count):
            directions = self.directions(it).T
            for some in pieces(np.arange(self.starts[it], self.starts[it + 1]), self.count):
                np.maximum(tops[it], (directions @ self.columns[:, some[0] : some[-1] + 1]).max(axis=1), out=tops[it])
        found: Numbers = -tops - tops.T - self.slack
        return found

    def lightest(self, label: NDArray[np.int32], wide: NDArray[np.bool_], heights: Numbers) -> tuple[Numbers, NDArray[np.bool_]]:
        """The heights of the lightest edges out of each component, after a search for all edges lighter than the known
        ones.

        This holds for the components that are `wide`, except for the points that the second result marks: too many
        points are near them.
        """
        heights, is_open = heights.copy(), np.zeros(len(self.order), bool)
        component = label[self.order[self.starts[:-1]]]
        asks = np.where(wide, heights, -np.inf)[component]
        is_needed = (component[:, None] != component) & (self.gaps < np.maximum(asks[:, None], asks))
        one, other = np.nonzero(np.triu(is_needed, 1))
        if len(one) * _WORTH > self.columns.size:
            is_open[:] = True
            return heights, is_open
        for at in np.argsort(self.gaps[one, other], kind="stable"):
            groups = int(one[at]), int(other[at])
            pair = component[list(groups)]
            height = heights[pair[wide[pair]]].max()
            if self.gaps[groups] < height:
                heights[pair] = np.minimum(heights[pair], self.lightest_between(*groups, height, is_open))
        return heights, is_open

    def lightest_between(self, one: int, other: int, height: float, is_open: NDArray[np.bool_]) -> float:
        """The height of the lightest edge between two groups, or a greater one if there is none lighter than `height`.

        If too many points are near the other group, they are marked in `is_open`, and a lighter edge may exist.
        """
        direction = self.directions(one)[:, other]
        mine, others = self.order[self.members(one)], self.order[self.members(other)]
        here, there = direction @ self.columns[:, self.members(one)], direction @ self.columns[:, self.members(other)]
        # (the points at the ends give an upper bound for the nearest ones)
        ends = np.argsort(-here)[:_ENDS], np.argsort(there)[:_ENDS]
        best = self.least(np.repeat(mine[ends[0]], len(ends[1])), np.tile(others[ends[1]], len(ends[0])), height)
        height = min(height, best)
        near, near_other = there.min() - here < height + self.slack, there - here.max() < height + self.slack
        if self.core is not None:
            near, near_other = near & (self.core[mine] < height), near_other & (self.core[others] < height)
        mine, here, others, there = mine[near], here[near], others[near_other], there[near_other]
        order = np.argsort(there)
        others, counts = others[order], np.searchsorted(there[order], here + height + self.slack)
        if counts.sum() > _PAIRS * len(self.columns) ** 2 * (len(mine) + len(others)):
            is_open[mine] = is_open[others] = True
            return best
        for some, their in pairs_of(np.zeros(len(counts), np.intp), counts, _NEAR):
            best = min(best, self.least(mine[some], others[their], min(height, best)))
        return best

    def least(self, one: Indices, other: Indices, height: float) -> float:
        """The least height of these edges, infinite if there are none. It is appended to `found` if it is below `height`."""
        if not len(one):
            return np.inf
        heights = reached(self.space.lengths(one, other), self.core, one, other)
        at = int(heights.argmin())
        if heights[at] < height:
            self.found.append((int(one[at]), int(other[at]), float(heights[at])))
        return float(heights[at])
