"""Forests as objects of other packages: frames of pandas, graphs of networkx, pictures of matplotlib."""

from __future__ import annotations

from html import escape
from typing import TYPE_CHECKING, Any

import numpy as np
from numpy.typing import ArrayLike, NDArray

from boruvka._arrays import as_array
from boruvka._names import numbers_of_names

if TYPE_CHECKING:
    import networkx
    import pandas

    from boruvka._result import Forest

# how many edges a notebook shows
_SHOWN = 10


def named(forest: Forest, vertices: NDArray[np.intp]) -> list[Any]:
    """The names of vertices, or their numbers if the forest has no names."""
    names = range(forest.n) if forest.names is None else forest.names
    return list(map(names.__getitem__, vertices.tolist()))


def to_html(forest: Forest) -> str:
    """A table of the first edges, with `repr(forest)` as its caption."""
    u, v = (named(forest, it[:_SHOWN]) for it in (forest.u, forest.v))
    shown = zip(u, v, forest.w[:_SHOWN].tolist(), forest.index[:_SHOWN].tolist())
    rows = "".join("<tr>" + "".join(f"<td>{escape(str(it))}</td>" for it in row) + "</tr>" for row in shown)
    more = f"<tr><td colspan=4>and {len(forest) - _SHOWN} more</td></tr>" if len(forest) > _SHOWN else ""
    head = "<tr><th>u</th><th>v</th><th>w</th><th>index</th></tr>"
    return f"<table><caption>{escape(repr(forest))}</caption>{head}{rows}{more}</table>"


def to_frame(forest: Forest) -> pandas.DataFrame:
    """A frame with the columns u, v, w, and either index or chunk and row."""
    import pandas

    forest.expect_vertices()
    indices = {"index": forest.index} if forest.index.ndim == 1 else dict(zip(("chunk", "row"), forest.index.T))
    frame = pandas.DataFrame({"u": forest.u, "v": forest.v, "w": forest.w, **indices})
    return frame if forest.names is None else frame.assign(u=named(forest, forest.u), v=named(forest, forest.v))


def to_networkx(forest: Forest) -> networkx.Graph:
    """A graph whose vertices have the forest's names."""
    import networkx

    forest.expect_vertices()
    numbers_of_names(forest.names or (), "networkx would make one vertex of both", ", as vertices of networkx have to be")
    graph = networkx.Graph()
    graph.add_nodes_from(named(forest, np.arange(forest.n)))
    graph.add_weighted_edges_from(zip(named(forest, forest.u), named(forest, forest.v), forest.w.tolist()))
    return graph


def plot(forest: Forest, points: ArrayLike, labels: ArrayLike | None, ax: Any) -> Any:
    """The axes, with the edges, and with the points in the colours of their clusters."""
    from matplotlib import pyplot
    from matplotlib.collections import LineCollection

    positions = as_array(points, "points")
    if positions.shape != (forest.n, 2):
        raise ValueError(f"points has the shape {positions.shape}, but has to be ({forest.n}, 2), a point in the plane for each vertex")
    clusters = np.zeros(forest.n, int) if labels is None else as_array(labels, "labels")
    if clusters.shape != (forest.n,):
        raise ValueError(f"labels has the shape {clusters.shape}, but has to be ({forest.n},), a label for each point")
    forest.expect_vertices()
    axes = pyplot.gca() if ax is None else ax
    axes.add_collection(LineCollection(np.stack([positions[forest.u], positions[forest.v]], axis=1), colors="silver", zorder=1))
    axes.scatter(*positions.T, c=["grey" if it < 0 else f"C{it % 10}" for it in clusters.tolist()], s=12, zorder=2)
    axes.set_aspect("equal")
    return axes
