"""Questions about the vertices of a forest. If the vertices have names, questions use them."""

from __future__ import annotations

from functools import cached_property
from typing import TYPE_CHECKING, Any, NamedTuple

import numpy as np
from numpy.typing import NDArray

from boruvka import _paths
from boruvka._arrays import column, expect_one_index, integer
from boruvka._conversions import named
from boruvka._edges import columns, forest_indices, pairs_of_vertices, vertices
from boruvka._names import Vertices

if TYPE_CHECKING:
    from boruvka._result import Forest


class Edge(NamedTuple):
    """An edge of a forest, or columns of several edges.

    u and v are its endpoints, and w is its weight. `index` is its index among the edges given, and `position` its index
    in the forest.
    """

    u: Any
    v: Any
    w: Any
    index: Any
    position: Any


class Questions:
    """A forest, and what is computed once for the questions about it."""

    def __init__(self, forest: Forest) -> None:
        self.forest = forest

    @cached_property
    def by_name(self) -> Vertices:
        """The vertices by their names."""
        return Vertices(self.forest.names or ())

    @cached_property
    def _rooted(self) -> _paths.Rooted:
        return _paths.Rooted(self._fixed())

    @cached_property
    def _merged(self) -> _paths.Merged:
        return _paths.Merged(self._fixed())

    def _fixed(self) -> Forest:
        """The forest, whose arrays become read-only, because what is computed once depends on them."""
        for it in self.forest:
            it.flags.writeable = False
        return self.forest

    def path(self, a: Any, b: Any) -> list[Any]:
        """The result of `Forest.path`."""
        one, other = self._pairs(a, b)
        found = list(map(self._rooted.path, one.tolist(), other.tolist()))
        if [] in found:
            raise self._no_path(one, other, found.index([]))
        names = self.forest.names
        paths: list[list[Any]] = found if names is None else [list(map(names.__getitem__, it)) for it in found]
        return paths if _are_many(a) or _are_many(b) else paths[0]

    def bottleneck(self, a: Any, b: Any) -> Edge:
        """The result of `Forest.bottleneck`."""
        one, other = self._pairs(a, b)
        found = np.fromiter(map(self._merged.heaviest, one.tolist(), other.tolist()), np.intp, len(one))
        if (found < 0).any():
            at = int((found < 0).argmax())
            if found[at] == -2:
                raise self._no_path(one, other, at)
            raise ValueError(f"there is no edge from {self._name(one[at])!r} to itself")
        forest = self.forest
        endpoints = [it[found] if forest.names is None else named(forest, it[found]) for it in (forest.u, forest.v)]
        fields: list[Any] = [*endpoints, forest.w[found], forest.index[found], found]
        if _are_many(a) or _are_many(b):
            return Edge(*fields)
        return Edge(*(it.tolist()[0] if isinstance(it, np.ndarray) else it[0] for it in fields))

    def replacements(self, u: Any, v: Any, w: Any) -> NDArray[np.intp]:
        """The result of `Forest.replacements`."""
        forest = self.forest
        expect_one_index({"u": u, "v": v, "w": w})
        if forest.names is not None:
            u, v = self.vertices(u, "u"), self.vertices(v, "v")
        tails, heads, weights = columns(u, v, w)
        self._expect_forest_of(tails, heads, weights)
        rest = np.ones(len(weights), bool)
        rest[forest.index] = False
        others = np.flatnonzero(rest)
        # (each replacement is in the forest of the edges that aren't in this forest)
        order = others[forest_indices(forest.n, tails[others], heads[others], weights[others], forest.maximum)]
        found = _paths.replacements(self._rooted, tails.astype(np.intp), heads.astype(np.intp), order)
        is_found = found >= 0
        one, other = weights[found[is_found]], forest.w[is_found]
        if (one > other if forest.maximum else one < other).any():
            raise ValueError("an edge outside the forest is better than one that it could replace, so this isn't the forest of these edges")
        return found

    def _expect_forest_of(self, tails: NDArray[Any], heads: NDArray[Any], weights: NDArray[Any]) -> None:
        """Raise a ValueError if these aren't the edges of the forest, or connect vertices that it doesn't."""
        forest = self.forest
        if forest.index.ndim != 1:
            raise ValueError("index has chunks and rows, but replacements need a forest of minimum_spanning_forest or from_edges")
        u, v = (it.astype(np.intp) for it in pairs_of_vertices(forest.n, tails, heads))
        index = forest.index
        if len(forest) and not 0 <= index.min() <= index.max() < len(weights):
            raise ValueError(f"the forest has the edge {index.max()}, but only {len(weights)} edges are passed: pass all edges of the graph")
        low, high = np.minimum(u, v)[index], np.maximum(u, v)[index]
        is_other = (low != np.minimum(forest.u, forest.v)) | (high != np.maximum(forest.u, forest.v)) | (weights[index] != forest.w)
        if is_other.any():
            at = index[is_other.argmax()]
            raise ValueError(f"the edge {at} differs from the forest's edge with this index: pass the edges in the order in which the forest was found")
        labels = forest.labels(clusters=forest.components)
        if (labels[u] != labels[v]).any():
            at = (labels[u] != labels[v]).argmax()
            raise ValueError(f"the edge {at} joins two components of the forest, so this isn't the forest of these edges")

    def vertices(self, given: Any, name: str) -> NDArray[np.intp]:
        """The numbers of vertices, or of one, by their names if they have any."""
        if self.forest.names is not None:
            return self.by_name.vertices(given, name) if _are_many(given) else np.array([self.by_name.vertex(given)])
        if not _are_many(given):
            number = integer(given, name, ": the forest has no names")
            if not 0 <= number < self.forest.n:
                raise ValueError(f"{number} isn't a vertex: vertices are 0 to {self.forest.n - 1}")
            return np.array([number])
        array = column(given, name)
        return vertices(self.forest.n, array, name, array).astype(np.intp)

    def _pairs(self, a: Any, b: Any) -> tuple[NDArray[np.intp], NDArray[np.intp]]:
        """The numbers of the vertices of each pair."""
        one, other = self.vertices(a, "a"), self.vertices(b, "b")
        if len(one) != len(other) and _are_many(a) and _are_many(b):
            raise ValueError(f"a and b differ in length: {len(one)} and {len(other)}")
        one, other = np.broadcast_arrays(one, other)
        return one, other

    def _name(self, vertex: int) -> Any:
        return int(vertex) if self.forest.names is None else self.forest.names[vertex]

    def _no_path(self, one: NDArray[np.intp], other: NDArray[np.intp], at: int) -> ValueError:
        return ValueError(f"{self._name(one[at])!r} and {self._name(other[at])!r} are in different components")


def _are_many(given: Any) -> bool:
    """Whether this is a list or an array of vertices. (A tuple or a text may be a name.)"""
    if isinstance(given, (str, bytes, tuple)):
        return False
    return isinstance(given, list) or hasattr(given, "tolist") and hasattr(given, "__len__") and np.ndim(given) > 0
