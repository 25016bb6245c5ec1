"""Minimum spanning forests of edges in arrays."""

from __future__ import annotations

from collections.abc import Sequence
from typing import Any, SupportsIndex, overload

import numpy as np
from numpy.typing import NDArray

from boruvka._arrays import boolean
from boruvka._edges import Column, edges_of, indices_of_checked, number_of_threads, pairs_of_vertices
from boruvka._result import Forest
from boruvka._weights import ordered

__all__ = ["minimum_spanning_forest"]


@overload
def minimum_spanning_forest(
    u: Column, v: Column, w: Column, /, *, n: SupportsIndex | None = None, maximum: bool = False, threads: SupportsIndex = 1
) -> Forest: ...
@overload
def minimum_spanning_forest(
    n: SupportsIndex | None, u: Column, v: Column, w: Column, /, *, maximum: bool = False, threads: SupportsIndex = 1
) -> Forest: ...
@overload
def minimum_spanning_forest(edges: Column, w: Column, /, *, n: SupportsIndex | None = None, maximum: bool = False, threads: SupportsIndex = 1) -> Forest: ...
@overload
def minimum_spanning_forest(n: SupportsIndex | None, edges: Column, w: Column, /, *, maximum: bool = False, threads: SupportsIndex = 1) -> Forest: ...
@overload
def minimum_spanning_forest(n: SupportsIndex | None, /, *, u: Column, v: Column, w: Column, maximum: bool = False, threads: SupportsIndex = 1) -> Forest: ...
@overload
def minimum_spanning_forest(*, n: SupportsIndex | None = None, u: Column, v: Column, w: Column, maximum: bool = False, threads: SupportsIndex = 1) -> Forest: ...
def minimum_spanning_forest(*edges: Any, n: Any = None, u: Any = None, v: Any = None, w: Any = None, maximum: bool = False, threads: SupportsIndex = 1) -> Forest:
    """Find the minimum spanning forest of an undirected graph.

    It is the set of edges of least total weight that connects all vertices that the graph connects. Edge i of the m
    edges joins the vertices u[i] and v[i], and has the weight w[i]. Loops and parallel edges are allowed.

    Call it as (n, u, v, w), (u, v, w), (n, edges, w) or (edges, w), where `edges` has u and v as its two columns. Each
    of n, u, v and w may also be passed by name.

    Parameters
    ----------
    n : int, optional
        The number of vertices, at most 2^26. They are 0 to n - 1. By default n is the greatest endpoint plus 1.
    u, v : array_like of whole numbers, shape (m,)
        The endpoints of each edge, in either order. m is at most 2^30.
    w : array_like of whole numbers or floats of up to 64 bits, shape (m,)
        The weights. They may be negative or infinite. -0.0 equals 0.0.
    maximum : bool, optional
        Whether to find the forest of greatest total weight instead. Then the heaviest edge comes first.
    threads : int, optional
        The greatest number of threads to use. The forest is the same for any number. At most one thread is used per
        processor of this process.

    Returns
    -------
    Forest
        The edges in ascending order of (w, u, v), with u < v, as arrays u, v, w and index. `index` has the index of
        each edge among the edges given: `w[index]` has the weights of the forest.

    Raises
    ------
    ValueError
        If an endpoint isn't from 0 to n - 1, a weight is NaN or above 2^63 - 1, n is negative or above 2^26, m is above
        2^30, an array has masked entries or doesn't have one dimension, the arrays differ in length, or `threads` is
        below 1. If numpy would round a weight of a list, because other weights are floats.
    TypeError
        If n, `threads` or an endpoint isn't a whole number, `maximum` is neither True nor False, or a weight is neither
        a whole number nor a float of up to 64 bits.
    MemoryError
        If there isn't enough memory for the forest.

    Notes
    -----
    Ties: among edges of equal weight, the one with the lower (u, v) counts first; among edges that are equal in all
    three, the one given first. In that order there is exactly one minimum spanning forest.

    Components: `forest.labels(clusters=forest.components)` numbers them.

    Cost: about the time of sorting the weights once, whatever the edges are. Memory is about 20 bytes per edge in
    addition to the arrays given and the result, and up to 36 if most edges are in the forest. The endpoints are copied,
    8 bytes per edge, unless an array of int32 or uint32 is read-only and owns its memory. Weights other than int64 are
    copied too, 8 bytes per edge. The arrays given are never written.

    Threads: if there are fewer than 16 edges per vertex, one thread is used. Otherwise each thread has a part of the
    edges, of at least 6 edges per vertex, and one of them merges the forests of the parts. With 16 edges per vertex the
    gain is small; with 24 or more, four threads take about half the time if four processors are idle. Memory is that of
    one thread plus at most 4 bytes per edge.

    Other threads: any number of threads may call at once. If another thread writes the endpoints during a call, the
    result is the forest of some state of each endpoint, or a ValueError. If another thread writes the weights during a
    call, the result may be wrong. A child that was forked from a process with threads must not call.

    Examples
    --------
    A square with one diagonal:

    >>> from boruvka import minimum_spanning_forest
    >>> forest = minimum_spanning_forest(4, [0, 1, 2, 3, 0], [1, 2, 3, 0, 2], [1.5, 0.5, 2.5, 3.5, 1.0])
    >>> forest.u, forest.v
    (array([1, 0, 2]), array([2, 2, 3]))
    >>> forest.w
    array([0.5, 1. , 2.5])
    >>> forest.index
    array([1, 4, 2])
    """
    count, *given = edges_of(edges, n, u, v, w)
    return forest_of(count, given, maximum, number_of_threads(threads))


def forest_of(n: int, edges: Sequence[NDArray[Any]], maximum: bool, threads: int = 1, weight: str = "w") -> Forest:
    """The forest of three columns. Errors call the third one `weight`."""
    tails, heads, weights = edges
    u, v = pairs_of_vertices(n, tails, heads)
    index = indices_of_checked(n, u, v, ordered(weights, boolean(maximum, "maximum"), weight), threads)
    one, other = tails.take(index).astype(np.intp), heads.take(index).astype(np.intp)
    return Forest(np.minimum(one, other), np.maximum(one, other), weights.take(index), index, n, maximum)
