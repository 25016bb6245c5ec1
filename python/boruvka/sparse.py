"""Minimum spanning forests of scipy's sparse matrices. This module needs scipy."""

from __future__ import annotations

from typing import Any

import numpy as np
from numpy.typing import ArrayLike
from scipy.sparse import csr_matrix, issparse, spmatrix
from scipy.sparse.csgraph import csgraph_from_dense, csgraph_from_masked

from boruvka._arrays import is_masked
from boruvka._edges import forest_indices
from boruvka._entries import expect_no_filling

__all__ = ["minimum_spanning_tree"]


def minimum_spanning_tree(csgraph: spmatrix | ArrayLike, overwrite: bool = False, *, maximum: bool = False) -> csr_matrix:
    """Find the minimum spanning forest of a matrix, as `scipy.sparse.csgraph.minimum_spanning_tree` does.

    Parameters
    ----------
    csgraph : array_like or sparse matrix, shape (n, n)
        Entry (i, j) is the weight of an edge between the vertices i and j, and so is entry (j, i): the better of them
        counts. In a sparse matrix every entry that it stores is an edge; a stored 0 is an edge of weight 0. In a dense
        array zeros, infinities and NaNs are no edges. In a masked array exactly the masked entries are no edges.
        Weights are converted to doubles.
    overwrite : bool, optional
        Without effect: csgraph is never written.
    maximum : bool, optional
        Whether to find the forest of greatest total weight instead.

    Returns
    -------
    csr_matrix of doubles, shape (n, n)
        The entries of the forest's edges, at the same positions as in csgraph. As in scipy, an edge that a sparse
        matrix stores as 0 counts, but isn't in the result. `minimum_spanning_forest` returns such edges.

    Raises
    ------
    ValueError
        If csgraph isn't square, or has a NaN that is stored in a sparse matrix or not masked in a masked array. If
        scipy finds that a sparse matrix isn't well formed. If a bsr_matrix or dia_matrix stores a 0 off the main
        diagonal, which may only fill the format. If the columns of a frame have the labels of its rows, but in another
        order. If csgraph is a list of rows with masked entries.
    TypeError
        If weights aren't real numbers, or `maximum` is neither True nor False.

    Notes
    -----
    The total weight is scipy's. Among edges of equal weight another may be chosen: the one that
    `boruvka.minimum_spanning_forest` chooses if entry (i, j) is the edge with u = i, v = j, in the order of the rows.

    Cost: that of `minimum_spanning_forest`, and 5 more bytes per entry. A csr_matrix of doubles isn't copied.

    Examples
    --------
    >>> from boruvka.sparse import minimum_spanning_tree
    >>> minimum_spanning_tree([[0, 8, 0, 3], [0, 0, 2, 5], [0, 0, 0, 6], [0, 0, 0, 0]]).toarray()
    array([[0., 0., 0., 3.],
           [0., 0., 2., 5.],
           [0., 0., 0., 0.],
           [0., 0., 0., 0.]])
    """
    graph = _as_csr(csgraph)
    graph.check_format()
    n = graph.shape[0]
    rows = np.repeat(np.arange(n, dtype=np.int32), np.diff(graph.indptr))
    if np.isnan(graph.data).any():
        entry = np.isnan(graph.data).argmax()
        raise ValueError(f"csgraph[{rows[entry]}, {graph.indices[entry]}] is NaN")
    taken = np.zeros(len(rows), bool)
    taken[forest_indices(n, rows, graph.indices, graph.data, maximum)] = True
    taken &= graph.data != 0
    starts = np.zeros(n + 1, graph.indptr.dtype)
    np.cumsum(np.bincount(rows[taken], minlength=n), out=starts[1:])
    return csr_matrix((graph.data[taken], graph.indices[taken], starts), shape=graph.shape)


def _as_csr(csgraph: Any) -> csr_matrix:
    """The graph as a csr_matrix, with the edges that scipy's functions for graphs find in it."""
    shape = csgraph.shape if issparse(csgraph) else np.shape(csgraph)
    if len(shape) != 2 or shape[0] != shape[1]:
        raise ValueError(f"csgraph has the shape {shape}, but the matrix of a graph is square")
    dtype = csgraph.dtype if issparse(csgraph) else np.asarray(csgraph).dtype
    if dtype.kind not in "biuf":
        raise TypeError(f"csgraph has the dtype {dtype}, but weights are real numbers")
    if issparse(csgraph):
        expect_no_filling(csgraph, "csgraph")
        return csr_matrix(csgraph, dtype=np.float64)
    if hasattr(csgraph, "columns") and hasattr(csgraph, "index"):
        rows, others = list(csgraph.index), list(csgraph.columns)
        if rows != others and not {*rows}.isdisjoint(others):
            raise ValueError("csgraph is a frame whose columns have the labels of its rows in another order: csgraph.reindex(columns=csgraph.index) sorts them, and .to_numpy() ignores labels")
    if isinstance(csgraph, np.ma.MaskedArray):
        return csgraph_from_masked(csgraph)
    if is_masked(csgraph):
        raise ValueError("rows of csgraph have masked entries, and numpy would ignore the masks: in numpy.ma.array(csgraph) masked entries are no edges, and zeros are edges")
    return csgraph_from_dense(csgraph)
