"""The forest that this package finds, and its methods."""

from __future__ import annotations

import math
from collections.abc import Iterator, Mapping, Sequence, Set
from dataclasses import dataclass, fields, replace
from fractions import Fraction
from functools import cached_property
from typing import TYPE_CHECKING, Any, NoReturn, SupportsIndex, Union, overload

import numpy as np
from numpy.typing import ArrayLike, NDArray

from boruvka import _conversions
from boruvka._arrays import as_array, is_array, of_each, boolean, integer
from boruvka._questions import Edge, Questions
from boruvka._weights import why_not_numbers

if TYPE_CHECKING:
    import networkx
    import pandas
    import scipy.sparse

Real = Union[float, "np.floating[Any]", "np.integer[Any]"]

# the least number that is rounded to infinity
_PAST_DOUBLES = (1 << 1024) - (1 << 970)


@dataclass(frozen=True, eq=False, repr=False)
class Forest:
    """The k edges of a forest of n vertices, as four arrays of length k: lightest first, or heaviest first if
    `maximum`.

    A graph of n vertices and c components has a forest of k = n - c edges. `len` returns k, `==` compares all
    attributes, and iteration yields u, v, w and index.

    If the vertices have names, `path`, `bottleneck`, `labels_by_name` and `replacements` take and return names instead
    of numbers. After the first such question the arrays are read-only, because later results depend on them.

    Attributes
    ----------
    u, v : ndarray of intp
        The lower and the higher endpoint of each edge, as numbers.
    w : ndarray
        The weight of each edge, in the dtype of the weights given.
    index : ndarray of intp
        The index of each edge among the edges given. In a forest of `forest_of_chunks` it has the shape (k, 2): a chunk
        and a row.
    n : int
        The number of vertices. They are 0 to n - 1. By default n is the greatest endpoint plus 1.
    maximum : bool
        Whether the total weight is the greatest instead of the least.
    names : list, optional
        The names of the vertices, in the order of their numbers.
    """

    u: NDArray[np.intp]
    v: NDArray[np.intp]
    w: NDArray[Any]
    index: NDArray[np.intp]
    n: int = -1
    maximum: bool = False
    names: Sequence[Any] | None = None

    def __post_init__(self) -> None:
        weights = self.w
        arrays = [as_array(given, name) for name, given in zip(("u", "v", "w", "index"), self)]
        for name, it in zip(("u", "v", "w", "index"), arrays):
            object.__setattr__(self, name, it)
        *shapes, of_index = (it.shape for it in arrays)
        if self.w.ndim != 1 or len({*shapes, of_index[:1]}) > 1 or of_index[1:] not in ((), (2,)):
            raise ValueError(f"u, v, w and index have the shapes {', '.join(str(it.shape) for it in arrays)}, but need one length")
        if self.w.dtype.kind not in "biuf" or self.w.dtype.itemsize > 8:
            raise TypeError(f"{why_not_numbers(self.w, 'w', 'biuf')}, but weights are real numbers of up to 64 bits")
        if not is_array(weights):
            of_each(list(weights), self.w, "w")
        for name, it in (("u", self.u), ("v", self.v)):
            if len(it) and it.dtype.kind not in "iu":
                raise TypeError(f"{why_not_numbers(it, name, 'iu')}, but vertices are whole numbers")
        count = integer(self.n, "n")
        object.__setattr__(self, "n", count if count >= 0 else int(max(self.u.max(), self.v.max())) + 1 if len(self) else 0)
        object.__setattr__(self, "maximum", boolean(self.maximum, "maximum"))
        if self.names is not None:
            if isinstance(self.names, (Set, Mapping)) or not hasattr(self.names, "__iter__"):
                raise TypeError(f"names is a {type(self.names).__name__}, but has to be a list")
            object.__setattr__(self, "names", list(self.names))
            if len(self.names) != self.n:
                raise ValueError(f"there are {len(self.names)} names for {self.n} vertices")

    def __iter__(self) -> Iterator[NDArray[Any]]:
        return iter((self.u, self.v, self.w, self.index))

    def __len__(self) -> int:
        return len(self.w)

    def __array__(self, *_: Any, **__: Any) -> NoReturn:
        """Raise a TypeError, because numpy and pandas would make rows of u, v, w and index."""
        raise TypeError("a Forest isn't an array: forest.to_frame() makes a frame, and u, v, w and index are its arrays")

    def __eq__(self, other: object) -> bool:
        if not isinstance(other, Forest):
            return NotImplemented
        is_like = (self.n, self.maximum) == (other.n, other.maximum) and _are_same(self.names, other.names)
        return is_like and all(np.array_equal(one, another) for one, another in zip(self, other))

    __hash__ = None  # type: ignore[assignment]

    def __repr__(self) -> str:
        kind = ", maximum=True" if self.maximum else ""
        return f"<Forest of {self.n} vertices, {len(self)} edges, {self.components} components, total {self.total}{kind}>"

    def _repr_html_(self) -> str:
        """What a notebook shows: the first edges, with `repr` as the caption."""
        return _conversions.to_html(self)

    def _replace(self, **attributes: Any) -> Forest:
        """A copy with these attributes replaced, as named tuples have it."""
        return replace(self, **attributes)

    @property
    def components(self) -> int:
        """The number of components of the graph."""
        return self.n - len(self)

    @property
    def total(self) -> int | float:
        """The sum of the weights: exact for whole numbers, and rounded once for floats."""
        if self.w.dtype.kind in "biu":
            whole = self.w.astype(np.uint64 if self.w.dtype.kind == "u" else np.int64)
            high, low = whole >> 32, whole & 0xFFFFFFFF
            return (int(high.sum()) << 32) + int(low.sum())
        weights = self.w.astype(np.float64)
        odd = weights[~np.isfinite(weights)]
        if len(odd):
            with np.errstate(invalid="ignore"):
                return float(odd.sum())
        try:
            return math.fsum(weights.tolist())
        except OverflowError:
            # (a partial sum overflows, but the total may not)
            exact = sum(map(Fraction, weights.tolist()), Fraction())
            return float(exact) if abs(exact) < _PAST_DOUBLES else math.inf if exact > 0 else -math.inf

    @overload
    def labels(self, *, clusters: SupportsIndex, height: None = None, min_size: SupportsIndex = 1, of: ArrayLike | None = None) -> NDArray[np.intp]: ...
    @overload
    def labels(self, *, clusters: None = None, height: Real, min_size: SupportsIndex = 1, of: ArrayLike | None = None) -> NDArray[np.intp]: ...
    def labels(
        self, *, clusters: SupportsIndex | None = None, height: Real | None = None, min_size: SupportsIndex = 1, of: ArrayLike | None = None
    ) -> NDArray[np.intp]:
        """Label each vertex with its cluster. See `boruvka.linkage.labels` for the parameters.

        Parameters
        ----------
        clusters, height, min_size
            As `boruvka.linkage.labels` takes them.
        of : array_like, optional
            Vertices, by their names if they have any. The result then has the label of each of these instead of all
            vertices.

        Returns
        -------
        ndarray of intp
            The cluster of each vertex, or -1 for noise.

        Raises
        ------
        ValueError, TypeError
            As `boruvka.linkage.labels` does, or if an entry of `of` isn't a vertex.
        """
        from boruvka.linkage import cut

        found = cut(self.n, self, clusters, height, min_size)
        return found if of is None else found[self._questions.vertices(of, "of")]

    @overload
    def labels_by_name(self, *, clusters: SupportsIndex, height: None = None, min_size: SupportsIndex = 1) -> dict[Any, int]: ...
    @overload
    def labels_by_name(self, *, clusters: None = None, height: Real, min_size: SupportsIndex = 1) -> dict[Any, int]: ...
    def labels_by_name(self, *, clusters: Any = None, height: Any = None, min_size: SupportsIndex = 1) -> dict[Any, int]:
        """Label each vertex with its cluster, as a dict by the names of the vertices, or by their numbers if they have
        no names.

        The parameters and the errors are those of `labels`.
        """
        names = range(self.n) if self.names is None else self._questions.by_name.number
        return dict(zip(names, self.labels(clusters=clusters, height=height, min_size=min_size).tolist()))

    def linkage(self) -> NDArray[np.float64]:
        """Make scipy's linkage matrix of this forest, which has to be a tree: see `boruvka.linkage.merges`."""
        from boruvka.linkage import merges

        return merges(self.n, self)

    def path(self, a: Any, b: Any) -> list[Any]:
        """Find the path between two vertices.

        Parameters
        ----------
        a, b : vertex, or list or array of vertices
            Names if the forest has names, and numbers if not.

        Returns
        -------
        list
            The vertices on the path from a to b, including both. If a or b is a list or an array, the result is a list
            of such paths, one for each pair; a single vertex is paired with each of the others.

        Raises
        ------
        ValueError, TypeError
            If a or b isn't a vertex, or no path joins them.

        Notes
        -----
        Cost: the first call for a forest prepares all later ones; `bench.py` measures it. Without scipy this takes
        several times as long.
        """
        return self._questions.path(a, b)

    def bottleneck(self, a: Any, b: Any) -> Edge:
        """Find the heaviest edge on the path between two vertices, or the lightest in a maximum forest.

        Every path of the graph between them has an edge that is no better.

        Parameters
        ----------
        a, b : vertex, or list or array of vertices
            As `path` takes them.

        Returns
        -------
        Edge
            A named tuple of the endpoints u and v, the weight w, the `index` among the edges given, and the `position`
            in the forest. If a or b is a list or an array, each field has an entry for each pair.

        Raises
        ------
        ValueError, TypeError
            As `path` does, or if a and b are the same vertex.

        Notes
        -----
        Cost: the first call for a forest takes about as long as the forest itself. Each edge then takes at most 2
        log2(n) steps.
        """
        return self._questions.bottleneck(a, b)

    def replacements(self, u: ArrayLike, v: ArrayLike, w: ArrayLike) -> NDArray[np.intp]:
        """Find, for each edge of the forest, the best edge that can replace it if it fails.

        Parameters
        ----------
        u, v, w : array_like, shape (m,)
            All edges of the graph, in the order in which they were given when the forest was found. u and v are names
            if the forest has names.

        Returns
        -------
        ndarray of intp, shape (k,)
            The index of the replacement among the edges given, or -1 if no other edge connects the same two parts. If
            edge i of the forest fails, the forest of the remaining graph has edge `found[i]` instead, and its total
            changes by `w[found[i]] - forest.w[i]`.

        Raises
        ------
        ValueError, TypeError
            As `minimum_spanning_forest` does, or if this isn't the forest of these edges.

        Notes
        -----
        Ties: as in `minimum_spanning_forest`.

        Cost: the time of a second forest, and about four seconds per million vertices.

        Examples
        --------
        >>> from boruvka import minimum_spanning_forest
        >>> edges = [0, 1, 2, 3, 0], [1, 2, 3, 0, 2], [1.5, 0.5, 2.5, 3.5, 1.0]
        >>> forest = minimum_spanning_forest(4, *edges)
        >>> forest.index, forest.replacements(*edges)
        (array([1, 4, 2]), array([0, 0, 3]))
        """
        return self._questions.replacements(u, v, w)

    @cached_property
    def _questions(self) -> Questions:
        return Questions(self)

    def __getstate__(self) -> dict[str, Any]:
        """The attributes alone: what is computed once isn't copied or pickled."""
        return {it.name: getattr(self, it.name) for it in fields(self)}

    def expect_vertices(self) -> None:
        """Raise a ValueError if an endpoint isn't a vertex."""
        if len(self) and not (0 <= min(self.u.min(), self.v.min()) and max(self.u.max(), self.v.max()) < self.n):
            raise ValueError(f"an edge of the forest has an endpoint that isn't one of its {self.n} vertices")

    def to_frame(self) -> pandas.DataFrame:
        """Make a frame of pandas with the columns u, v, w and index.

        u and v are names if the vertices have names. A forest of `forest_of_chunks` has the columns chunk and row
        instead of index.
        """
        return _conversions.to_frame(self)

    def to_csr(self) -> scipy.sparse.csr_matrix:
        """Make a sparse matrix of scipy with the weight of each edge at (u, v)."""
        from scipy.sparse import csr_matrix

        return csr_matrix((self.w, (self.u, self.v)), shape=(self.n, self.n))

    def to_networkx(self, names: Sequence[Any] | None = None) -> networkx.Graph:
        """Make a graph of networkx.

        Parameters
        ----------
        names : sequence, optional
            The names of its vertices. By default they are the names of the forest, or the numbers of the vertices if it
            has none.

        Returns
        -------
        networkx.Graph
            Each edge has its weight as the attribute `weight`.

        Raises
        ------
        ValueError
            If two vertices have the same name, because networkx would make one vertex of them.
        TypeError
            If a name isn't hashable.
        """
        return _conversions.to_networkx(self if names is None else replace(self, names=names))

    def plot(self, points: ArrayLike, *, labels: ArrayLike | None = None, ax: Any = None) -> Any:
        """Draw the edges between points in the plane with matplotlib.

        Parameters
        ----------
        points : array_like, shape (n, 2)
            The position of each vertex.
        labels : array_like, shape (n,), optional
            The cluster of each vertex, which determines its colour. Noise (-1) is grey.
        ax : matplotlib.axes.Axes, optional
            The axes to draw on. By default they are the current ones.

        Returns
        -------
        matplotlib.axes.Axes
            The axes.
        """
        return _conversions.plot(self, points, labels, ax)


def _are_same(one: Any, other: Any) -> bool:
    """Whether names are equal. Arrays are compared by numpy, and lists and tuples entry by entry."""
    if one is other:
        return True
    if isinstance(one, (list, tuple)) and isinstance(other, (list, tuple)):
        return isinstance(one, list) is isinstance(other, list) and len(one) == len(other) and all(map(_are_same, one, other))
    if getattr(one, "ndim", 0) or getattr(other, "ndim", 0):
        return type(one) is type(other) and np.array_equal(one, other)
    return bool(one == other)
