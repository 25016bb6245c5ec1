"""Minimum spanning forests of edges that come in chunks.

If A and B are lists of edges, the forest of A and B together is the forest of A's forest and B: this is proved for the
library's forest. So the edges that are stored may be reduced to their forest at any time.
"""

from __future__ import annotations

import numbers
from array import array
from collections.abc import Iterable, Iterator, Sequence
from contextlib import contextmanager
from typing import Any, SupportsIndex, Union

import numpy as np
from numpy.typing import ArrayLike, NDArray

from boruvka._arrays import boolean
from boruvka._edges import columns, indices_of_checked, number_of_vertices, pairs_of_vertices
from boruvka._result import Forest
from boruvka._weights import ordered

# how many edges are stored at most: so many per vertex, or so many for a small graph
_PER_VERTEX = 8
_AT_LEAST = 1 << 16
# up to this every integer is a double; and the last integer before 2^63 that is one
_ALL_DOUBLES = 1 << 53
_LAST_DOUBLE = (1 << 63) - (1 << 10)


#: columns u, v and w, or a forest of them
Chunk = Union[Forest, Sequence[ArrayLike]]


def forest_of_chunks(n: SupportsIndex, chunks: Iterable[Chunk], *, maximum: bool = False) -> Forest:
    """Find the minimum spanning forest of edges that come in chunks, in memory for few of them.

    The result is the forest of all chunks put together. Chunks may come from files, a database or a generator. A forest
    may replace the edges of which it is the forest, so forests of parts can be merged.

    Parameters
    ----------
    n : int
        The number of vertices, at most 2^26. They are 0 to n - 1.
    chunks : iterable of (u, v, w) or Forest
        Each chunk is a tuple or list of three columns of one length: endpoints and weights, as
        `minimum_spanning_forest` takes them. Or it is a forest, whose vertices have no names. A chunk may have no
        edges, and there may be no chunks.
    maximum : bool, optional
        Whether to find the forest of greatest total weight instead.

    Returns
    -------
    Forest
        Its `index` has the shape (k, 2): `chunk, row = forest.index.T` are the chunk and the row of each edge, both
        counted from 0. If the chunk is a forest, the row is the position in it. The dtype of `w` holds the weights of
        all chunks.

    Raises
    ------
    ValueError, TypeError, MemoryError
        As `minimum_spanning_forest` does; an error in a chunk begins with the chunk, as in `chunk 3: `. Also a
        TypeError if a chunk is neither a Forest nor a tuple or list of three columns. Also a ValueError if one chunk
        has floats, and another has a whole number that isn't a double; or if a Forest has names or another `maximum`.
        Errors of `chunks` itself are passed on.

    Notes
    -----
    Ties: as in `minimum_spanning_forest`. Among edges that are equal in all three columns, the first row of the first
    chunk counts.

    Dtypes: `w` has numpy's common dtype of the chunks that have edges, but int64 where that would turn whole numbers
    into floats. No weight changes its value.

    Cost: at most 8 n edges are stored, or 65,536 if that is more. Each takes 8 bytes and those of its weight, and about
    20 more while they are reduced to their forest, or 28 if weights aren't int64. In addition there is one chunk. It is
    copied, so its arrays may be reused for the next one. The time is at most 1.5 times that of one call. A chunk should
    have thousands of edges, because each adds up to 0.1 ms. It is worth reducing parts only if they have at least ten
    edges per vertex: otherwise most of their edges are in their forest.

    Examples
    --------
    >>> from boruvka import forest_of_chunks
    >>> monday = [0, 1, 2], [1, 2, 3], [1.5, 0.5, 2.5]
    >>> tuesday = [3, 0], [0, 2], [3.5, 1.0]
    >>> forest = forest_of_chunks(4, [monday, tuesday])
    >>> forest.w
    array([0.5, 1. , 2.5])
    >>> forest.index.tolist()
    [[0, 1], [1, 1], [0, 2]]
    """
    stored = _Stored(number_of_vertices(n), boolean(maximum, "maximum"))
    if not isinstance(chunks, Iterable) or isinstance(chunks, Forest) or hasattr(chunks, "columns"):
        given = "a frame" if hasattr(chunks, "columns") else f"{chunks!r:.80}"
        raise TypeError(f"chunks is {given}, but has to be an iterable of (u, v, w): [(u, v, w)] has one chunk")
    number = 0
    for chunk in chunks:
        stored.add(number, chunk)
        number += 1
        # (so that its memory can be reused for the next chunk)
        del chunk
    return stored.forest()


class _Stored:
    """Edges whose forest is that of all edges that were added: first those of a forest, then rows of chunks."""

    def __init__(self, n: int, maximum: bool) -> None:
        self.n, self.maximum = n, maximum
        self.most = max(_PER_VERTEX * n, _AT_LEAST)
        self.count = 0
        # their capacity may be larger than `count`
        self.u: NDArray[np.uint32] = np.empty(0, np.uint32)
        self.v: NDArray[np.uint32] = np.empty(0, np.uint32)
        self.w: NDArray[Any] = np.empty(0)
        # the chunk and the row of each edge of the forest; and for each run of rows its first index here, its chunk and
        # its first row
        self.index: NDArray[np.int64] = np.empty((0, 2), np.int64)
        self.runs = array("q")
        # the first chunk of floats; and the chunk, the row and the value of the first integer that isn't a double
        self.floats: int | None = None
        self.no_double: tuple[int, int, int] | None = None

    def add(self, number: int, chunk: Chunk) -> None:
        """Add the edges of the chunk with this number."""
        with _naming_chunk(number):
            tails, heads, weights = columns(*self._columns_of(chunk))
            u, v = pairs_of_vertices(self.n, tails, heads)
            ordered(weights)
            if len(weights):
                self._widen_for(number, weights)
        row = 0
        while row < len(weights):
            if self.count == self.most:
                self._reduce()
            self._grow(len(weights) - row)
            added = min(len(weights) - row, len(self.w) - self.count)
            for column, given in ((self.u, u), (self.v, v), (self.w, weights)):
                column[self.count : self.count + added] = given[row : row + added]
            self.runs.extend((self.count, number, row))
            self.count, row = self.count + added, row + added

    def _columns_of(self, chunk: Chunk) -> Sequence[Any]:
        """u, v and w of a chunk, or of a forest of other edges."""
        if isinstance(chunk, Forest):
            if chunk.maximum != self.maximum:
                kind, other = ("maximum", "minimum") if chunk.maximum else ("minimum", "maximum")
                raise ValueError(f"it is a {kind} forest, which lacks edges that a {other} forest may need: find both with the same `maximum`")
            if chunk.names is not None:
                raise ValueError(
                    "it is a forest with names, which may number the same vertices differently: "
                    "boruvka.from_edges takes pandas.concat([it.to_frame() for it in forests])"
                )
            return chunk.u, chunk.v, chunk.w
        if hasattr(chunk, "columns"):
            raise TypeError('it is a frame, but has to be a tuple or list (u, v, w): pass (frame["u"], frame["v"], frame["w"])')
        if not isinstance(chunk, (tuple, list)):
            raise TypeError(f"it is a {type(chunk).__name__}, but has to be a Forest, or a tuple or list (u, v, w)")
        if len(chunk) != 3:
            raise TypeError(f"it has the length {len(chunk)}, but needs three columns: u, v and w")
        if all(isinstance(it, numbers.Number) for it in chunk):
            raise TypeError("it has numbers instead of columns, so it may be a column: [(u, v, w)] has one chunk")
        return chunk

    def forest(self) -> Forest:
        """The forest of all edges that were added."""
        if self.runs:
            self._reduce()
        one, other = (it[: self.count].astype(np.intp) for it in (self.u, self.v))
        return Forest(np.minimum(one, other), np.maximum(one, other), self.w[: self.count].copy(), self.index, self.n, self.maximum)

    def _reduce(self) -> None:
        """Remove the edges that aren't in the forest of the stored ones."""
        index = indices_of_checked(self.n, self.u[: self.count], self.v[: self.count], ordered(self.w[: self.count], self.maximum))
        self.count = len(index)
        for it in (self.u, self.v, self.w):
            it[: self.count] = it[index]
        found = np.empty((self.count, 2), np.int64)
        is_old = index < len(self.index)
        found[is_old] = self.index[index[is_old]]
        new = index[~is_old]
        starts, chunks, rows = np.array(self.runs, np.int64).reshape(-1, 3).T
        run = np.searchsorted(starts, new, side="right") - 1
        found[~is_old] = np.stack([chunks[run], rows[run] + new - starts[run]], axis=1)
        self.index, self.runs = found, array("q")

    def _grow(self, count: int) -> None:
        """Make the capacity large enough for `count` more edges, but not for more than `most` edges in all."""
        size = min(self.count + count, self.most)
        if size > len(self.w):
            size = min(max(size, 2 * len(self.w)), self.most)
            # (one by one, so that each old column is freed before the next is allocated)
            self.u = _grown(self.u, size)
            self.v = _grown(self.v, size)
            self.w = _grown(self.w, size)

    def _widen_for(self, number: int, weights: NDArray[Any]) -> None:
        """Convert the stored weights to a dtype that holds these weights too. A ValueError if it would round a weight
        of any chunk.

        Chunks whose edges are no longer stored count as well.
        """
        if weights.dtype.kind == "f":
            self.floats = number if self.floats is None else self.floats
        elif self.no_double is None:
            row = _no_double(weights)
            self.no_double = None if row is None else (number, row, int(weights[row]))
        if self.floats is not None and self.no_double is not None:
            chunk, row, weight = self.no_double
            raise ValueError(f"w[{row}] of chunk {chunk} is {weight}, which would be rounded, because chunk {self.floats} has floats: use one dtype")
        dtype = weights.dtype if not len(self.w) else _common(self.w.dtype, weights.dtype)
        self.w = self.w.astype(dtype.newbyteorder("="), copy=False)


@contextmanager
def _naming_chunk(number: int) -> Iterator[None]:
    """Make errors begin with the chunk."""
    try:
        yield
    except TypeError as error:
        raise TypeError(f"chunk {number}: {error}") from error
    except ValueError as error:
        raise ValueError(f"chunk {number}: {error}") from error


def _grown(column: NDArray[Any], size: int) -> NDArray[Any]:
    larger = np.empty(size, column.dtype)
    larger[: len(column)] = column
    return larger


def _common(one: np.dtype[Any], other: np.dtype[Any]) -> np.dtype[Any]:
    """A dtype for the weights of both."""
    both = np.promote_types(one, other)
    # (no weight is above 2^63 - 1, so int64 holds those of uint64 too)
    return np.dtype(np.int64) if both.kind == "f" and "f" not in (one.kind, other.kind) else both


def _no_double(weights: NDArray[Any]) -> int | None:
    """The row of the first of these integers that isn't a double; None if all are."""
    if weights.dtype.itemsize < 8 or -_ALL_DOUBLES <= int(weights.min()) <= int(weights.max()) <= _ALL_DOUBLES:
        return None
    rows = np.flatnonzero(np.minimum(weights, _LAST_DOUBLE).astype(np.float64).astype(weights.dtype) != weights)
    return int(rows[0]) if len(rows) else None
