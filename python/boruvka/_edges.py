"""Edges as callers pass them, as columns that the library takes, and the library's call on them."""

from __future__ import annotations

import numbers
from collections.abc import Sequence
from typing import Any, Protocol, Union

import numpy as np
from numpy.typing import NDArray

from boruvka import _library
from boruvka._arrays import column, expect_one_index, as_array, boolean, integer
from boruvka._threads import indices_by_threads
from boruvka._weights import ordered, why_not_numbers


class _HasArray(Protocol):
    def __array__(self) -> Any: ...


#: an array or a list, and no single number
Column = Union[Sequence[Any], _HasArray]


def edges_of(given: Sequence[Any], n: Any, u: Any, v: Any, w: Any) -> tuple[int, NDArray[Any], NDArray[Any], NDArray[Any]]:
    """The number of vertices and the columns of the edges, by position or by name."""
    n, u, v, w = _in_order(list(given), n, u, v, w)
    tails, heads, weights = columns(u, v, w)
    return _as_many_as_needed(tails, heads) if n is None else number_of_vertices(n), tails, heads, weights


def _in_order(given: list[Any], n: Any, u: Any, v: Any, w: Any) -> list[Any]:
    """n, which may be None, u, v and w."""
    if given:
        _expect_no_graph(given[0], len(given))
    if len(given) > 4:
        raise TypeError(f"{len(given)} arguments are passed, but a forest needs n, u, v and w")
    has_n = len(given) == 4 or bool(given) and (given[0] is None or isinstance(given[0], numbers.Number))
    if has_n and n is not None or u is not None and len(given) > has_n:
        raise TypeError(f"{'n' if has_n and n is not None else 'u'} is passed twice, by name and by position")
    if has_n:
        n = given.pop(0)
    given += [it for it in (u, v, w) if it is not None]
    if given and isinstance(given[-1], numbers.Number) and (isinstance(n, (Sequence, np.ndarray)) or len(given) == 3 and _is_table(given[0])):
        raise TypeError(f"the last argument is {given[-1]!r:.80}: n comes first, as in minimum_spanning_forest(n, u, v, w), or is passed by name, n={given[-1]!r:.40}")
    if n is not None:
        integer(n, "n", ": the number of vertices")
    if len(given) == 2:
        given = [*_two_columns(given[0]), given[1]]
    if len(given) != 3 or any(it is None for it in given):
        raise TypeError(f"a forest needs n, u, v and w; n may be left out, and one array of two columns may replace u and v{_hint(given)}")
    return [n, *given]


def _expect_no_graph(first: Any, count: int) -> None:
    """Raise a TypeError if another function is meant for this argument."""
    if hasattr(first, "adjacency"):
        raise TypeError('a graph of networkx is for networkx.minimum_spanning_tree(G, backend="boruvka")')
    if hasattr(first, "get_edgelist"):
        raise TypeError('a graph of igraph has no columns: minimum_spanning_forest(g.vcount(), g.get_edgelist(), g.es["weight"]) takes its edges')
    if hasattr(first, "tocsr"):
        raise TypeError("a sparse matrix is for boruvka.sparse.minimum_spanning_tree")
    if count == 1 and (hasattr(first, "columns") or isinstance(first, dict)):
        raise TypeError(f"a {'frame' if hasattr(first, 'columns') else 'dict'} is for boruvka.from_edges")


def _hint(given: list[Any]) -> str:
    """What a single table may have been meant as."""
    if len(given) != 1 or not _is_table(given[0]):
        return ""
    if len(given[0][0]) == 3 and len(given[0]) != 3:
        return ": rows of three are for boruvka.from_edges(numpy.array(rows), 0, 1, weight=2)"
    return ": a matrix of weights is for boruvka.sparse.minimum_spanning_tree" if len(given[0]) == len(given[0][0]) else ""


def _is_table(given: Any) -> bool:
    """Whether this looks like rows of columns."""
    has_rows = isinstance(given, (list, tuple)) and len(given) > 0 and isinstance(given[0], (list, tuple, np.ndarray))
    return has_rows or isinstance(given, np.ndarray) and given.ndim == 2 and len(given) > 0


def _two_columns(given: Any) -> tuple[NDArray[Any], NDArray[Any]]:
    edges = as_array(given, "edges", "these edges")
    if edges.ndim != 2 or edges.shape[1] != 2:
        how = "edges.T has two" if edges.ndim == 2 and edges.shape[0] == 2 else "if they are u and v, w is missing"
        raise TypeError(f"edges have the shape {edges.shape}, but need two columns; {how}")
    return edges[:, 0], edges[:, 1]


def _as_many_as_needed(tails: NDArray[Any], heads: NDArray[Any]) -> int:
    """The least possible number of vertices, if these are endpoints. (`vertices` reports what is wrong with them.)"""
    if not len(tails) or not len(heads) or tails.dtype.kind not in "iu" or heads.dtype.kind not in "iu":
        return 0 if not len(tails) else _library.MAX_VERTICES
    most = max(int(tails.max()), int(heads.max()), -1)
    if most >= _library.MAX_VERTICES:
        name, endpoints = ("u", tails) if tails.max() == most else ("v", heads)
        raise ValueError(f"{name}[{endpoints.argmax()}] is {most}, but vertices are below 2^26: boruvka.from_edges takes any names")
    return most + 1


def number_of_vertices(n: Any) -> int:
    """n, if there can be so many vertices."""
    count = integer(n, "n", ": the number of vertices")
    if not 0 <= count <= _library.MAX_VERTICES:
        raise ValueError(f"n is {count}, but has to be from 0 to 2^26")
    return count


def number_of_threads(threads: Any) -> int:
    """The argument `threads`."""
    count = integer(threads, "threads")
    if count < 1:
        raise ValueError(f"threads is {count}, but has to be at least 1")
    return count


def columns(u: Any, v: Any, w: Any, weight: str = "w") -> tuple[NDArray[Any], NDArray[Any], NDArray[Any]]:
    """Three columns as arrays of one length. Errors call the third one `weight`."""
    expect_one_index({"u": u, "v": v, weight: w})
    tails, heads = column(u, "u"), column(v, "v")
    if isinstance(w, numbers.Number) or isinstance(w, np.ndarray) and w.ndim == 0:
        raise ValueError(f"{weight} is {w!r:.80}, but each edge needs a weight: numpy.full({len(tails)}, {w!r:.40}) gives all the same")
    weights = column(w, weight)
    if not len(tails) == len(heads) == len(weights):
        raise ValueError(f"u, v and {weight} differ in length: {len(tails)}, {len(heads)} and {len(weights)}")
    return tails, heads, weights


def forest_indices(n: int, tails: NDArray[Any], heads: NDArray[Any], weights: NDArray[Any], maximum: bool = False, threads: int = 1) -> NDArray[np.intp]:
    """The indices of the forest's edges among these, in ascending order of their keys."""
    u, v = pairs_of_vertices(number_of_vertices(n), tails, heads)
    return indices_of_checked(n, u, v, ordered(weights, boolean(maximum, "maximum")), threads)


def indices_of_checked(n: int, u: NDArray[np.uint32], v: NDArray[np.uint32], w: NDArray[np.int64], threads: int = 1) -> NDArray[np.intp]:
    """The same for columns that the library takes. The endpoints are checked, and no other thread writes them."""
    index = indices_by_threads(n, u, v, w, threads)
    if len(index) and index.max() >= len(w):
        raise ValueError("another thread wrote the weights during the call: pass a copy")
    return index.astype(np.intp)


def pairs_of_vertices(n: int, tails: NDArray[Any], heads: NDArray[Any]) -> tuple[NDArray[np.uint32], NDArray[np.uint32]]:
    """The endpoints of edges as C takes them."""
    if len(tails) > _library.MAX_LINKS:
        raise ValueError(f"there are {len(tails)} edges, but at most 2^30 are allowed")
    return vertices(n, tails, "u", heads), vertices(n, heads, "v", tails)


def vertices(n: int, endpoints: NDArray[Any], name: str, others: NDArray[Any]) -> NDArray[np.uint32]:
    """Endpoints as C takes them, in memory that no other thread writes. An endpoint that is no vertex is a ValueError.

    The library reads each endpoint twice. If another thread wrote it in between, the library could read or write
    outside of its arrays. So the endpoints are copied, and the copy is checked. `others` are the other endpoints of the
    edges.
    """
    if not len(endpoints):
        # (an empty list has the dtype of floats)
        return np.empty(0, np.uint32)
    if endpoints.dtype.kind not in "iu":
        raise TypeError(f"{why_not_numbers(endpoints, name, 'iu')}, but vertices are whole numbers{_remedy(endpoints)}")
    # (32-bit endpoints are checked after the copy, where a negative one is above all vertices; others are checked before it)
    is_checked = endpoints.dtype.itemsize == 4 or 0 <= endpoints.min() <= endpoints.max() < n
    checked = _own(endpoints)
    if not is_checked or checked.max() >= n:
        raise _no_vertex(n, endpoints if not is_checked or endpoints.dtype.kind == "u" else checked.view(np.int32), name, others)
    return checked


def _own(endpoints: NDArray[Any]) -> NDArray[np.uint32]:
    """A copy, or the array itself if it owns its memory and is read-only."""
    is_own = endpoints.base is None and not endpoints.flags.writeable and endpoints.flags.aligned and endpoints.flags.c_contiguous
    if is_own and endpoints.dtype in (np.dtype(np.int32), np.dtype(np.uint32)):
        return endpoints.view(np.uint32)
    return endpoints.astype(np.uint32, order="C")


def _no_vertex(n: int, endpoints: NDArray[Any], name: str, others: NDArray[Any]) -> ValueError:
    """An error for the first endpoint that is no vertex."""
    is_wrong = (endpoints < 0) | (endpoints >= n)
    if not is_wrong.any():
        return ValueError(f"another thread wrote {name} during the call: pass a copy")
    at = is_wrong.argmax()
    are_from_1 = others.dtype.kind in "iu" and max(endpoints.max(), others.max()) == n and min(endpoints.min(), others.min()) >= 1
    hint = ": are they numbered from 1?" if are_from_1 else ""
    return ValueError(f"{name}[{at}] is {endpoints[at]}, but a vertex is at least 0 and below n = {n}{hint}")


def _remedy(endpoints: NDArray[Any]) -> str:
    """How these entries become vertices."""
    if endpoints.dtype.kind not in "fb":
        return ": boruvka.from_edges takes names"
    return ": .astype(int) converts them" if np.isfinite(endpoints).all() and (endpoints == np.floor(endpoints)).all() else ""
