"""Minimum spanning forests of dask frames, partition by partition. This module needs dask."""

from __future__ import annotations

from collections.abc import Hashable
from typing import Any, SupportsIndex

from pandas.api.types import is_numeric_dtype

from boruvka._arrays import boolean, integer
from boruvka._edges import columns, forest_indices, number_of_vertices

__all__ = ["minimum_spanning_forest"]


def minimum_spanning_forest(
    frame: Any, n: SupportsIndex, u: Hashable = "u", v: Hashable = "v", w: Hashable = "w", *, maximum: bool = False, split_every: int = 4
) -> Any:
    """Find the rows of a dask frame that are in the minimum spanning forest of its edges.

    Each partition is reduced to its own forest by the worker that has it. Then `split_every` forests at a time are
    merged and reduced, until one is left. So no process holds all edges. Any scheduler of dask may be used.

    Parameters
    ----------
    frame : dask.dataframe.DataFrame
        Each row is an edge.
    n : int
        The number of vertices, at most 2^26. They are 0 to n - 1.
    u, v, w : optional
        The names of the columns that have the endpoints, as whole numbers, and the weights.
    maximum : bool, optional
        Whether to find the forest of greatest total weight instead.
    split_every : int, optional
        How many forests are merged at a time, at least 2.

    Returns
    -------
    dask.dataframe.DataFrame
        The rows of the forest, with all their columns and labels, as one partition, in the order of
        `boruvka.minimum_spanning_forest`. Among edges that are equal in all three columns, the first row of the first
        partition counts.

    Raises
    ------
    KeyError
        If the frame has no column of that name.
    ValueError, TypeError, MemoryError
        As `boruvka.minimum_spanning_forest` does. Also a TypeError if the frame isn't one of dask, or if a partition
        has dtypes other than those of the frame. Errors in rows are raised when the result is computed, and begin with
        the partition, as in `partition 3: `.

    Notes
    -----
    Vertices are numbers here. `boruvka.from_edges(frame)` takes a dask frame with names, but loads its three columns
    into memory.

    Cost: a partition should have at least ten edges per vertex. With fewer, most of its edges are in its forest, and
    are sent to another worker. A worker holds at most `split_every` forests at a time, of fewer than n rows each. On
    one machine this saves memory, not time: if the edges fit into memory, `boruvka.minimum_spanning_forest` is faster.

    Workers import this package. Worker processes must not be forked from a process with threads; dask's own are
    spawned.

    Examples
    --------
    >>> import pandas, dask.dataframe
    >>> from boruvka.dask import minimum_spanning_forest
    >>> roads = pandas.DataFrame({"u": [0, 1, 2, 3, 0], "v": [1, 2, 3, 0, 2], "w": [1.5, 0.5, 2.5, 3.5, 1.0]})
    >>> forest = minimum_spanning_forest(dask.dataframe.from_pandas(roads, npartitions=2), 4)
    >>> forest.compute()
       u  v    w
    1  1  2  0.5
    4  0  2  1.0
    2  2  3  2.5
    """
    count = number_of_vertices(n)
    if not (hasattr(frame, "map_partitions") and hasattr(frame, "columns")):
        raise TypeError(f"frame is a {type(frame).__name__}, but has to be a dask frame: boruvka.from_edges takes others")
    for it in (u, v, w):
        if it not in frame.columns:
            raise KeyError(f"the frame has no column {it!r}")
        if list(frame.columns).count(it) > 1:
            raise ValueError(f"the frame has {list(frame.columns).count(it)} columns {it!r}")
    for it in (u, v):
        kind = frame[it].dtype
        # (what an object column has is known when it is computed)
        if kind != object and not is_numeric_dtype(kind):
            raise TypeError(f"the column {it!r} has the dtype {kind}, but vertices are whole numbers here: boruvka.from_edges(frame) takes names")
    if integer(split_every, "split_every") < 2:
        raise ValueError(f"split_every is {split_every}, but has to be at least 2")
    options = {"n": count, "names": [u, v, w], "maximum": boolean(maximum, "maximum")}
    kinds = [str(frame[it].dtype) for it in (u, v, w)]
    forests = frame.map_partitions(_forest_of_partition, kinds=kinds, **options, meta=frame._meta)
    return forests.reduction(
        _itself, combine=_forest_rows, aggregate=_forest_rows, meta=frame._meta, split_every=split_every, combine_kwargs=options, aggregate_kwargs=options
    )


def _forest_of_partition(frame: Any, n: int, names: list[Hashable], maximum: bool, kinds: list[str], partition_info: Any = None) -> Any:
    """The rows of a partition that are in its forest."""
    prefix = f"partition {partition_info['number']}: " if partition_info else ""
    found = [str(frame[it].dtype) for it in names]
    if found != kinds:
        raise TypeError(f"{prefix}{names} have the dtypes {found}, but those of the frame are {kinds}")
    try:
        return _forest_rows(frame, n, names, maximum)
    except TypeError as error:
        raise TypeError(f"{prefix}{error}") from error
    except ValueError as error:
        raise ValueError(f"{prefix}{error}") from error


def _forest_rows(frame: Any, n: int, names: list[Hashable], maximum: bool) -> Any:
    """The rows of a pandas frame that are in its forest, in the forest's order."""
    return frame.iloc[forest_indices(n, *columns(*(frame[it] for it in names)), maximum)]


def _itself(frame: Any) -> Any:
    return frame
