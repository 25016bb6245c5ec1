"""Minimum spanning trees of given distances: of all pairs, as a row or as a square matrix, or of the entries of a
sparse matrix.
"""

from __future__ import annotations

from itertools import product
from typing import Any

import numpy as np
from numpy.typing import NDArray

from boruvka import _library
from boruvka._arrays import as_array, expect_no_rounding, integer
from boruvka._entries import expect_no_filling
from boruvka._forest import minimum_spanning_forest
from boruvka._result import Forest
from boruvka._rows import tree_of_distances
from boruvka._weights import why_not_numbers

# how much the distances (i, j) and (j, i) may differ: relative to the greatest of all, as matrix products round, and to themselves
_ROUNDING, _NEARLY = 1e-7, 1e-5
# how many rows and columns of a matrix are compared at a time
_BLOCK = 256


def numbers_of(y: Any) -> NDArray[np.float64]:
    """Points or distances as doubles. Raise an error if an entry is masked, or would be rounded."""
    given = as_array(y, "y", "these points")
    if given.dtype.kind not in "biuf" or given.dtype.itemsize > 8:
        how = ": .astype(float) converts them" if given.dtype == object and " because " not in why_not_numbers(given, "y", "biuf") else ""
        raise TypeError(f"{why_not_numbers(given, 'y', 'biuf')}, but has to be real numbers of up to 64 bits{how}")
    numbers = given.astype(np.float64, copy=False)
    expect_no_rounding(y, given, numbers, "y")
    return numbers


def tree_of_pairs(distances: NDArray[np.float64]) -> Forest:
    """The tree of the distances between all pairs."""
    n = _points_of_pairs(distances)
    return minimum_spanning_forest(n, *pairs_of(n), distances)


def _points_of_pairs(distances: NDArray[np.float64]) -> int:
    """The number of points that have these distances between all pairs. Raise a ValueError if there is none."""
    if not len(distances):
        raise ValueError("y is empty: a single point is a row, [[x, y]]")
    if not np.isfinite(distances).all() or (distances < 0).any():
        at = (~np.isfinite(distances) | (distances < 0)).argmax()
        raise ValueError(f"y[{at}] is {distances[at]}, but a distance is finite and not negative")
    n = (1 + int(round((1 + 8 * len(distances)) ** 0.5))) // 2
    if n * (n - 1) // 2 != len(distances):
        raise ValueError(f"y has {len(distances)} entries, but no number of points has so many pairs: pass points in one dimension as y[:, None]")
    return n


def tree_of_precomputed(y: Any, p: float, min_samples: int | None) -> Forest:
    """The tree of distances: a square matrix, a sparse matrix, or those of all pairs in one dimension."""
    if p != 2:
        raise ValueError(f"p is {p}, but only the metric 'minkowski' has an exponent")
    if hasattr(y, "tocoo"):
        if min_samples is not None:
            raise TypeError("y is a sparse matrix, but min_samples needs the distances of all pairs: pass a square array of them")
        return tree_of_entries(y)
    given = numbers_of(y)
    if given.ndim == 1 and min_samples is None:
        return tree_of_pairs(given)
    if given.ndim == 1:
        n = _points_of_pairs(given)
        square, (low, high) = np.zeros((n, n)), pairs_of(n)
        square[low, high] = square[high, low] = given
    else:
        square = expect_distances(given)
    n = len(square)
    one, other, lengths = tree_of_distances(square, checked_min_samples(min_samples, n))
    tree = minimum_spanning_forest(n, one, other, lengths)
    return tree._replace(index=index_of_pair(n, tree.u, tree.v))


def expect_distances(given: NDArray[np.float64]) -> NDArray[np.float64]:
    """The distances of a square matrix: the lesser of (i, j) and (j, i).

    Raise a ValueError if it isn't symmetric up to rounding.
    """
    if given.ndim != 2 or given.shape[0] != given.shape[1] or not len(given):
        raise ValueError(f'y has the shape {given.shape}, but metric="precomputed" takes a square matrix of distances, or those of all pairs in one dimension')
    least, greatest = np.empty_like(given), given.max()
    if (given.diagonal() > _ROUNDING * greatest).any():
        row = int((given.diagonal() > _ROUNDING * greatest).argmax())
        raise ValueError(f'y[{row}, {row}] is {given[row, row]}, but the distance of a point to itself is 0: metric="precomputed" takes distances, not points or similarities')
    # (a block and its mirror image fit into a processor's cache)
    blocks = [slice(start, start + _BLOCK) for start in range(0, len(given), _BLOCK)]
    for rows, columns in product(blocks, blocks):
        np.minimum(given[rows, columns], given[columns, rows].T, out=least[rows, columns])
        _expect_same_both_ways(given, rows, columns, least[rows, columns], greatest)
    np.fill_diagonal(least, 0)
    return least


def _expect_same_both_ways(given: NDArray[np.float64], rows: slice, columns: slice, least: NDArray[np.float64], greatest: float) -> None:
    """Raise a ValueError if an entry of a block isn't a distance, or differs from the lesser of both directions by more
    than rounding.
    """
    block = given[rows, columns]
    if not 0 <= block.min() <= block.max() < np.inf:
        row, column = np.unravel_index((~np.isfinite(block) | (block < 0)).argmax(), block.shape)
        raise ValueError(f"y[{rows.start + row}, {columns.start + column}] is {block[row, column]}, but a distance is finite and not negative")
    is_wrong = block - least > _ROUNDING * greatest + _NEARLY * least
    if is_wrong.any():
        row, column = np.add(np.unravel_index(is_wrong.argmax(), block.shape), (rows.start, columns.start))
        raise ValueError(f"y[{row}, {column}] is {given[row, column]}, but y[{column}, {row}] is {given[column, row]}: a distance is the same in both directions, and numpy.minimum(y, y.T) makes it so")


def checked_min_samples(min_samples: int | None, n: int) -> int | None:
    """`min_samples`, if it is None or possible for n points."""
    if min_samples is not None and not 1 <= integer(min_samples, "min_samples") <= n:
        raise ValueError(f"min_samples is {min_samples}, but has to be from 1 to {n}, the number of points")
    return min_samples


def tree_of_entries(matrix: Any) -> Forest:
    """The forest of the entries of a sparse matrix."""
    if len(matrix.shape) != 2 or matrix.shape[0] != matrix.shape[1]:
        raise ValueError(f"y has the shape {matrix.shape}, but a sparse matrix of distances is square: pass points as y.toarray()")
    expect_no_filling(matrix, "y")
    entries = matrix.tocoo()
    distances = numbers_of(entries.data)
    once = matrix.tocsr(copy=True)
    once.sum_duplicates()
    if once.nnz != entries.nnz:
        raise ValueError(f"y stores {entries.nnz} entries at {once.nnz} positions: y.sum_duplicates() adds those at the same position")
    is_wrong = ~np.isfinite(distances) | (distances < 0)
    if is_wrong.any():
        row, column = (it[is_wrong.argmax()] for it in (entries.row, entries.col))
        raise ValueError(f"y[{row}, {column}] is {distances[is_wrong.argmax()]}, but a distance is finite and not negative")
    return minimum_spanning_forest(entries.shape[0], entries.row, entries.col, distances)


def index_of_pair(n: int, u: NDArray[np.intp], v: NDArray[np.intp]) -> NDArray[np.intp]:
    """The index of the distance between u and v, with u < v, among those of all pairs."""
    return u * n - u * (u + 1) // 2 + v - u - 1


def pairs_of(n: int) -> tuple[NDArray[np.int32], NDArray[np.int32]]:
    """The endpoints of all pairs, in the order of their distances."""
    if n * (n - 1) // 2 > _library.MAX_LINKS:
        raise ValueError(f"{n} points have more than 2^30 pairs")
    first = np.arange(n, dtype=np.int64)
    low = np.repeat(first.astype(np.int32), n - 1 - first)
    high = np.arange(len(low), dtype=np.int32)
    high -= np.repeat((index_of_pair(n, first, first + 1) - first - 1).astype(np.int32), n - 1 - first)
    return low, high
