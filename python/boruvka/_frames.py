"""Forests of the edges in a table, whose vertices have names."""

from __future__ import annotations

import operator
import os
from collections.abc import Hashable, Iterable, KeysView, Mapping, Set, ValuesView
from typing import Any, SupportsIndex

import numpy as np
from numpy.typing import NDArray

from boruvka._arrays import expect_one_index
from boruvka._edges import columns
from boruvka._forest import forest_of
from boruvka._interchange import column_of, names_of
from boruvka._names import numbered
from boruvka._result import Forest

# how many column names an error lists
_SHOWN = 10


def from_edges(frame: Any, u: Hashable = "u", v: Hashable = "v", *, weight: Hashable = "w", maximum: bool = False) -> Forest:
    """Find the minimum spanning forest of the edges in a table. Vertices may have any names.

    Parameters
    ----------
    frame : DataFrame, dict or other table
        Each row is an edge. `frame[name]` has to return a column, as in pandas, polars, pyarrow and dask. A numpy array
        is also accepted: its columns are its fields, or are numbered from 0. So is an object that has `__dataframe__`
        or `__array__`.
    u, v, weight : optional
        The names of the columns that have the endpoints and the weights. `weight` is called as in networkx; the
        functions that take arrays call it `w`.
    maximum : bool, optional
        Whether to find the forest of greatest total weight instead.

    Returns
    -------
    Forest
        Its `names` are the names of the vertices in ascending order: numbers by their values, then texts by their code
        points, then all others. Names that Python calls equal, such as 1 and 1.0, are one vertex. `index` has the row
        of each edge.

    Raises
    ------
    KeyError
        If the frame has no column of that name.
    ValueError
        If a name is missing, a weight is NaN, the columns differ in length, or two columns have the same name. If a
        name is a float of 2^53 or more, which may stand for several whole numbers. If columns are Series of pandas with
        different indexes.
    TypeError
        If a name isn't hashable, weights aren't numbers, a column is a single value, or the frame has no columns. If
        times have two units, some have a time zone and some don't, some are dates without a time of day, or some are
        numpy's and some aren't.

    Warns
    -----
    UserWarning
        If two vertices are probably meant to be one: texts that differ only in outer spaces, or a text that is the text
        of a number, of bytes or of a time, as "1" and 1. If a vertex has the text of a missing entry, as "" and "nan".
        If names can't be ordered.

    Notes
    -----
    Ties: edges of equal weight count in the order of the names of their endpoints, so the order of the rows changes
    nothing. The exception are rows with equal weights and the same endpoints: the first of them counts. Sort the rows
    to choose it.

    Examples
    --------
    >>> import boruvka
    >>> roads = {"from": ["Ely", "Bath", "Ely"], "to": ["Bath", "York", "York"], "km": [226, 330, 235]}
    >>> forest = boruvka.from_edges(roads, "from", "to", weight="km")
    >>> forest.total, forest.path("Bath", "York")
    (461, ['Bath', 'Ely', 'York'])
    """
    for what, name in (("u", u), ("v", v), ("weight", weight)):
        if isinstance(name, (list, np.ndarray)) or hasattr(name, "iloc"):
            given = " ".join(f"{name!r:.80}".split())
            raise TypeError(f"{what} is {given}, but has to be the name of one column of the frame")
    if u == v:
        raise ValueError(f"u and v are both the column {u!r}: each edge would be a loop")
    one, other, weights = (_column(frame, it) for it in (u, v, weight))
    expect_one_index({u: one, v: other, weight: weights})
    names, (tails, heads) = numbered([(u, one), (v, other)])
    if len(tails) != len(heads):
        raise ValueError(f"the columns {u!r} and {v!r} differ in length: {len(tails)} and {len(heads)}")
    label = weight if isinstance(weight, str) else "w"
    forest = forest_of(len(names), columns(tails, heads, weights, label), maximum, weight=label)
    return forest._replace(names=names)


def _column(frame: Any, name: Hashable) -> Any:
    """The column of this name, of one dimension."""
    _expect_no_graph(frame)
    # (other objects with `__array__`, such as tensors, may be indexed by rows)
    has_columns = any(hasattr(frame, it) for it in ("__dataframe__", "columns", "keys"))
    if isinstance(frame, np.ndarray) or hasattr(frame, "__array__") and not has_columns:
        # (a column of an np.matrix would have two dimensions)
        return _of_array(np.asarray(frame) if isinstance(frame, np.matrix) or not isinstance(frame, np.ndarray) else frame, name)
    if isinstance(frame, (str, bytes, os.PathLike)):
        raise TypeError(f"a {type(frame).__name__} isn't a frame: pandas.read_csv reads one from a file, and boruvka.read_gr reads a .gr file")
    if isinstance(frame, (list, tuple)):
        raise TypeError(f"a {type(frame).__name__} isn't a frame: pass pandas.DataFrame(rows, columns=...), a dict of columns, or an array")
    if hasattr(frame, "__getitem__"):
        try:
            column = frame[name]
        except KeyError:
            labels = getattr(getattr(frame, "index", None), "names", ())
            how = "; frame.reset_index() makes columns of its index" if name is not None and name in labels else ""
            raise _no_column(name, frame.keys() if hasattr(frame, "keys") else (), how) from None
    elif hasattr(frame, "__dataframe__"):
        table = frame.__dataframe__()
        if name not in names_of(table):
            raise _no_column(name, names_of(table))
        column = column_of(table, name)
    else:
        raise TypeError(f"a {type(frame).__name__} isn't a frame: it has no columns, no __dataframe__ and no __array__")
    if getattr(column, "ndim", 1) != 1:
        raise ValueError(f"the column {name!r} has {column.ndim} dimensions{': do two columns have this name?' if hasattr(column, 'columns') else ', but needs one'}")
    if isinstance(column, (str, bytes)) or not (hasattr(column, "__iter__") or hasattr(column, "__array__") or hasattr(column, "__getitem__")):
        raise TypeError(f"the column {name!r} is {column!r:.80}, but has to be an array or a list")
    if isinstance(column, (KeysView, ValuesView)):
        raise TypeError(f"the column {name!r} is a {type(column).__name__}, but has to be an array or a list: list(column) makes a list")
    if isinstance(column, (Mapping, Set)):
        raise TypeError(f"the column {name!r} is a {type(column).__name__}, which has no order")
    return column


def _expect_no_graph(frame: Any) -> None:
    """Raise a TypeError for a graph or a forest, with the call that makes a frame of it."""
    if hasattr(frame, "adjacency"):
        raise TypeError("a graph of networkx isn't a frame: networkx.to_pandas_edgelist(G) makes one, with the columns source, target and its weights")
    if hasattr(frame, "get_edge_dataframe") or hasattr(frame, "get_edgelist"):
        raise TypeError("a graph of igraph isn't a frame: g.get_edge_dataframe() makes one, with the columns 'source' and 'target'")
    if isinstance(frame, Forest):
        raise TypeError("a Forest isn't a frame: forest.to_frame() makes one")


def _no_column(name: Hashable, columns: Iterable[Any], how: str = "") -> KeyError:
    existing = list(columns)
    names = [*map(repr, existing[: _SHOWN + 1])]
    shown = ", ".join(names[:_SHOWN]) + (", .." if len(names) > _SHOWN else "")
    alike = [it for it in existing if isinstance(it, str) and isinstance(name, str) and it.strip().lower() == name.strip().lower()]
    how = f"; did you mean {alike[0]!r}?" if alike else how
    return KeyError(f"the frame has no column {name!r}" + (f"; it has {shown}" if shown else "") + how)


def _of_array(table: NDArray[Any], name: Hashable) -> NDArray[Any]:
    if table.dtype.names:
        if name not in table.dtype.names:
            raise _no_column(name, table.dtype.names)
        return table[str(name)]
    if table.ndim != 2:
        raise TypeError(f"an array of the shape {table.shape} isn't a frame: it has to have columns, or fields with names")
    if not isinstance(name, SupportsIndex) or not 0 <= operator.index(name) < table.shape[1]:
        raise _no_column(name, range(table.shape[1]))
    return table[:, operator.index(name)]
