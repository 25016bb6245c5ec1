"""Near pairs of points in few dimensions, found by the cells of a grid.

Points are sorted by their cells, row by row. So the points in the cells around a cell are in a few runs, and the
earlier point of each pair finds the later one. A point outside the cells around another is at least a cell's side away
from it.
"""

from __future__ import annotations

import math
from collections.abc import Iterator
from itertools import product

import numpy as np
from numpy.typing import NDArray

Numbers = NDArray[np.float64]
Indices = NDArray[np.intp]

# by dimension: how many other points are in the cells around a point, on average, if each pair counts once
_PAIRS = {2: 10.0, 3: 14.0}
# fewer points aren't worth a grid; how many points determine the side of its cells, in how many steps
_FEW, _SAMPLE, _TRIES = 1 << 12, 1 << 14, 9


class Grid:
    """Points, which are columns, in cells. `order` sorts the points by their cells."""

    def __init__(self, columns: Numbers, side: float) -> None:
        cells = [np.floor((it - it.min()) / side).astype(np.int64) for it in columns]
        # (each row has an additional cell at its end, so that the ends of rows aren't neighbours)
        widths = [int(it.max()) + 2 for it in cells]
        steps = [math.prod(widths[:axis]) for axis in range(len(widths))]
        keys = sum(step * it for step, it in zip(steps, cells))
        self.order: Indices = np.argsort(keys, kind="stable")
        self.keys = keys[self.order]
        # for each row of cells after a cell's own that is next to it: how much larger its keys are
        around = (sum(step * it for step, it in zip(steps[1:], by)) for by in product((-1, 0, 1), repeat=len(steps) - 1))
        self.offsets = [it for it in around if it > 0]
        # (the cell of a point is computed with rounding)
        self.reach = side * (1 - 2.0**-20)

    def runs(self) -> list[tuple[Indices, Indices]]:
        """The starts and the ends of the runs of other points that each point finds, in the order of cells."""
        is_first = np.ones(len(self.keys), bool)
        is_first[1:] = self.keys[1:] != self.keys[:-1]
        cells, counts = self.keys[is_first], np.diff(np.append(np.flatnonzero(is_first), len(self.keys)))
        own = np.arange(1, len(self.keys) + 1)
        found = [(own, np.repeat(np.searchsorted(self.keys, cells + 1, "right"), counts))]
        for offset in self.offsets:
            starts, ends = np.searchsorted(self.keys, cells + offset - 1), np.searchsorted(self.keys, cells + offset + 1, "right")
            found.append((np.repeat(starts, counts), np.repeat(ends, counts)))
        return found

    def pairs(self, most: int) -> Iterator[tuple[Indices, Indices]]:
        """The positions of near points in the order of cells, in pieces of about `most` pairs."""
        for start, end in self.runs():
            yield from pairs_of(start, end, most)


def pairs_of(start: Indices, end: Indices, most: int) -> Iterator[tuple[Indices, Indices]]:
    """Each position i with all positions from start[i] to end[i] - 1, in pieces of about `most` pairs."""
    counts = end - start
    before = np.append(0, np.cumsum(counts))
    bounds = [*np.searchsorted(before, np.arange(0, before[-1], most)).tolist(), len(counts)]
    for low, high in zip(bounds, bounds[1:]):
        here = counts[low:high]
        one = np.repeat(np.arange(low, high), here)
        yield one, np.arange(before[low], before[high]) + np.repeat(start[low:high] - before[low:high], here)


def fitting_grid(columns: Numbers) -> Grid | None:
    """A grid whose cells have about as many points as is fastest; None if there is none."""
    dimensions, n = columns.shape
    if dimensions not in _PAIRS or n < _FEW:
        return None
    sample = columns[:, np.random.default_rng(0).choice(n, min(n, _SAMPLE), replace=False)]
    target = _PAIRS[dimensions] * sample.shape[1] ** 2 / n
    side = float(np.ptp(sample, axis=1).max()) / n ** (1 / dimensions)
    for _ in range(_TRIES):
        if not side > 0 or np.ptp(columns, axis=1).max() / side > 2.0**20:
            return None
        count = sum(int((end - start).sum()) for start, end in Grid(sample, side).runs())
        if target / 1.2 < count < target * 1.2:
            return Grid(columns, side)
        side *= min(max((target / max(count, 1)) ** (1 / dimensions), 0.1), 10)
    return None
