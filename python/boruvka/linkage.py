"""Single linkage and clusters, from minimum spanning forests.

`spanning_tree` finds the tree of points, and `labels` cuts it into clusters. The edges of the tree, in ascending order,
are the merges of single linkage, which `single_linkage` and `merges` list. These functions need only numpy; scipy makes
most trees of points faster.
"""

from __future__ import annotations

import numbers
from functools import lru_cache
from typing import Any, Protocol, SupportsIndex, overload

import numpy as np
from numpy.typing import ArrayLike, NDArray

from boruvka import _library
from boruvka._arrays import first_rounded, integer
from boruvka._distances import checked_min_samples, index_of_pair, numbers_of, pairs_of, tree_of_entries, tree_of_pairs, tree_of_precomputed
from boruvka._edges import vertices
from boruvka._forest import minimum_spanning_forest
from boruvka._metrics import Metric, expect_metric, has_longitude_first, metric_of, why_perhaps_swapped
from boruvka._points import FEW, heights_of_pairs, tree_of_points
from boruvka._result import Forest, Real
from boruvka._warnings import warn
from boruvka._weights import ordered

__all__ = ["labels", "merges", "single_linkage", "spanning_tree"]


class SparseMatrix(Protocol):
    """A sparse matrix of scipy."""

    def tocoo(self) -> Any: ...


def single_linkage(y: ArrayLike | SparseMatrix, *, metric: str = "euclidean", p: float = 2, min_samples: int | None = None) -> NDArray[np.float64]:
    """Cluster points by single linkage, as `scipy.cluster.hierarchy.linkage(y, "single")` does.

    Parameters
    ----------
    y : array_like, shape (n, d) or (n (n - 1) / 2,)
        Points, one per row, or the distances between all pairs: those from vertex 0 to 1, 2, .., then from 1 to 2, and
        so on.
    metric, p, min_samples
        As `spanning_tree` takes them.

    Returns
    -------
    ndarray of doubles, shape (n - 1, 4)
        A linkage matrix for the functions of `scipy.cluster.hierarchy`. Row i merges the clusters Z[i, 0] < Z[i, 1]
        into the cluster n + i. Z[i, 2] is the distance between them, and Z[i, 3] the number of points in the new
        cluster.

    Raises
    ------
    ValueError
        If a coordinate or a distance isn't finite or is masked, a distance is negative, there are no points, no number
        of points has so many pairs, or there are more than 2^30 pairs to compare.
    TypeError
        If coordinates or distances aren't numbers.

    Notes
    -----
    The heights are scipy's, up to rounding. Among equal distances another may be merged first.

    Cost: that of `spanning_tree`; the merges take less.

    Examples
    --------
    >>> from boruvka.linkage import single_linkage
    >>> single_linkage([[0.0], [1.0], [5.0], [7.0]])
    array([[0., 1., 1., 2.],
           [2., 3., 2., 2.],
           [4., 5., 4., 4.]])
    """
    tree = spanning_tree(y, metric=metric, p=p, min_samples=min_samples)
    return merges(tree.n, tree)


def spanning_tree(y: ArrayLike | SparseMatrix, *, metric: str = "euclidean", p: float = 2, min_samples: int | None = None) -> Forest:
    """Find the minimum spanning tree of points, or of given distances.

    Parameters
    ----------
    y : array_like, shape (n, d) or (n (n - 1) / 2,), or sparse matrix, shape (n, n)
        Points or distances, as `single_linkage` takes them. The entries of a sparse matrix are distances, and a stored
        0 is one too. Pairs without an entry have no edge, so there may be several components. The lesser of (i, j) and
        (j, i) counts.
    metric : str, optional
        The distance between points: "euclidean" ("l2"), "manhattan" ("cityblock", "l1"), "chebyshev", "minkowski",
        "haversine", "cosine", or "precomputed".

        For "haversine" each row is a latitude and then a longitude, both in radians, as in scikit-learn. Heights are in
        radians: multiplied by 6371 they are kilometres on the earth. If y is a frame whose columns are named "lat" and
        "lon", or similarly, their names decide, whatever their order.

        For "precomputed" y has distances: a square matrix of those of all pairs, or one of the forms that need no
        metric. The matrix has to be symmetric and 0 on its diagonal up to rounding: 1e-5 of an entry and 1e-7 of the
        greatest. The lesser of (i, j) and (j, i) counts.
    p : float, optional
        The exponent of "minkowski", at least 1.
    min_samples : int, optional
        If given, use HDBSCAN's mutual reachability distance: the greatest of the distance between two points and their
        core distances. A point's core distance is the distance to its `min_samples`-th nearest point, counting itself
        (Campello and others, 2013).

    Returns
    -------
    Forest
        n - 1 edges between the vertices 0 to n - 1, in ascending order of their heights. `index` has the index of each
        edge among the distances between all pairs, or for a sparse matrix among its entries.

    Raises
    ------
    ValueError
        As `single_linkage` does. If the metric isn't one of these; if p is below 1, above all doubles, or given with
        another metric; if min_samples isn't from 1 to n; if a row isn't valid for the metric, such as a latitude beyond
        a right angle. If a matrix of "precomputed" isn't square, symmetric and 0 on its diagonal. If a sparse matrix
        has two entries at one position, or a bsr_matrix or dia_matrix stores a 0 that may only fill the format.
    TypeError
        As `single_linkage` does. If p isn't a number, min_samples isn't a whole number, or min_samples, p or a metric
        other than "precomputed" is given with distances.

    Warns
    -----
    ClusterWarning of scipy, or UserWarning
        If points look like a square matrix of distances, as scipy warns.
    UserWarning
        If points for "haversine" look like degrees, or their latitudes and longitudes are probably swapped. In a frame
        with columns such as x and y the first usually points east. In an array without names, swapped columns are
        noticed only if a latitude is beyond a right angle (an error), or is beyond 75 degrees while no longitude is (a
        warning).

    Notes
    -----
    Heights are those of all pairs up to rounding, whatever the points are. Those of haversine are rounded by up to
    1e-15, and near the antipode by 1e-7. One function computes every length that is compared with another, and also
    core distances, so equal vectors have equal lengths.

    Cost: with scipy, points in few dimensions, and clustered points in up to 32, take about n log n time and 500 bytes
    per point. A sample of the points decides that. Other points take n^2 d steps, of which a processor does about 10^9
    per second, and 5 times the memory of the points. So do points in more than one dimension if p (53 + b) is at least
    950, where 2^b is the ratio of the greatest to the least coordinate other than 0, and an infinite p counts as 1. For
    p = 2 that is a ratio of 1e127, for p = 10 of 4e12, and from p = 18 on any: set tiny coordinates to 0 first.

    Distances take about 40 bytes and 100 nanoseconds per pair; scipy's own linkage is several times as fast for them. A
    square matrix of distances takes the same time, and twice its own memory.

    Examples
    --------
    >>> from boruvka.linkage import spanning_tree
    >>> spanning_tree([[0, 0], [3, 4], [0, 1]]).w
    array([1.        , 4.24264069])
    """
    expect_metric(metric)
    if metric == "precomputed":
        return tree_of_precomputed(y, p, min_samples)
    if hasattr(y, "tocoo"):
        _expect_points(metric, p, min_samples, "a sparse matrix")
        return tree_of_entries(y)
    given = numbers_of(y)
    if given.ndim == 1:
        _expect_points(metric, p, min_samples, "an array of one dimension")
        return tree_of_pairs(given)
    if given.ndim != 2:
        raise ValueError(f"y has the shape {given.shape}, but points are rows of two dimensions, and distances have one dimension")
    if not len(given):
        raise ValueError("y has no points")
    are_finite = np.isfinite(given)
    if not are_finite.all():
        row, column = np.unravel_index(are_finite.argmin(), given.shape)
        raise ValueError(f"a coordinate of the point {row} isn't finite: y[{row}, {column}] is {given[row, column]}")
    if _are_distances(given):
        warn('y is square, symmetric and 0 on its diagonal, but its rows are taken as points: pass metric="precomputed" if they are distances', _cluster_warning())
    if metric == "haversine":
        given = _latitudes_first(y, given)
    return _of_points(given, metric_of(metric, p), min_samples)


def _latitudes_first(y: Any, given: NDArray[np.float64]) -> NDArray[np.float64]:
    """Points with the latitude in the first column, which the names of a frame's columns may say.

    Warn if they may be degrees or swapped.
    """
    given = given[:, ::-1] if has_longitude_first(y) else given
    why = why_perhaps_swapped(y, given)
    if why:
        warn(why)
    if given.shape[1] == 2 and (np.abs(given[:, 1]) > 2 * np.pi).any() and not (np.abs(given[:, 0]) > np.pi / 2 + 1e-9).any():
        row = np.abs(given[:, 1]).argmax()
        warn(f"the longitude of the point {row} is {given[row, 1]}, beyond a full turn: it is taken as radians, and numpy.radians converts degrees")
    return given


def merges(n: SupportsIndex, forest: Forest) -> NDArray[np.float64]:
    """Turn a spanning tree into the linkage matrix of its merges.

    Parameters
    ----------
    n : int
        The number of vertices.
    forest : Forest
        Their n - 1 edges, from `spanning_tree` or `minimum_spanning_forest`.

    Returns
    -------
    ndarray of doubles, shape (n - 1, 4)
        The matrix that `single_linkage` returns.

    Raises
    ------
    ValueError
        If the edges don't connect all n vertices, or a double would round a weight.
    TypeError
        If n isn't a whole number, or `forest` isn't a Forest.

    Examples
    --------
    >>> from boruvka import minimum_spanning_forest
    >>> from boruvka.linkage import merges
    >>> merges(3, minimum_spanning_forest(3, [0, 1, 2], [1, 2, 0], [4, 3, 9]))
    array([[1., 2., 3., 2.],
           [0., 3., 4., 3.]])
    """
    forest = _best_first(forest)
    if forest.maximum:
        raise ValueError("a maximum forest has no linkage matrix, because its heights would descend")
    count = integer(n, "n")
    if len(forest.w) != count - 1:
        raise ValueError(f"{len(forest.w)} edges don't connect {count} vertices: a forest of several components has no linkage matrix")
    u, v = vertices(count, forest.u, "forest.u", forest.v), vertices(count, forest.v, "forest.v", forest.u)
    links = np.zeros(len(forest.w), _library.LINK)
    links["low"], links["high"] = u + 1, v + 1
    rows = _library.merges(count, links)
    heights = forest.w.astype(np.float64)
    at = first_rounded(forest.w, heights)
    if at is not None:
        raise ValueError(f"forest.w[{at[0]}] is {forest.w[at]}, which a double would round: a linkage matrix has only doubles, but labels doesn't need one")
    return np.column_stack([rows["first"], rows["second"], heights, rows["size"]])


@overload
def labels(n: SupportsIndex, forest: Forest, *, clusters: SupportsIndex, height: None = None, min_size: SupportsIndex = 1) -> NDArray[np.intp]: ...
@overload
def labels(n: SupportsIndex, forest: Forest, *, clusters: None = None, height: Real, min_size: SupportsIndex = 1) -> NDArray[np.intp]: ...
def labels(
    n: SupportsIndex,
    forest: Forest,
    *,
    clusters: SupportsIndex | None = None,
    height: Real | None = None,
    min_size: SupportsIndex = 1,
) -> NDArray[np.intp]:
    """Cut a forest into clusters: remove its heaviest edges, and number the components that are left.

    In a maximum forest the lightest edges are removed.

    Parameters
    ----------
    n : int
        The number of vertices.
    forest : Forest
        Their forest, from `spanning_tree` or `minimum_spanning_forest`. If its edges are in another order, they are
        sorted.
    clusters : int, optional
        The number of clusters, from the number of the forest's components to n.
    height : float, optional
        Edges with `forest.w <= height` are kept, or `>=` in a maximum forest. Pass either this or `clusters`.
    min_size : int, optional
        Clusters of fewer vertices are noise. It is at least 0.

    Returns
    -------
    ndarray of intp, shape (n,)
        The cluster of each vertex, numbered from 0, or -1 for noise. Clusters are numbered by their least vertices.

    Raises
    ------
    ValueError
        If there can't be so many clusters, min_size is negative, the height is NaN, the forest has n or more edges or a
        vertex that isn't below n, or the edges that are kept close a cycle.
    TypeError
        If both or neither of `clusters` and `height` are given, n, `clusters` or min_size isn't a whole number,
        `height` isn't a real number, or `forest` isn't a Forest.

    Notes
    -----
    The components of the graph are its clusters at `height=np.inf`, or at -np.inf in a maximum forest.

    The number of clusters often shows in the last weights, `forest.w[-10:]`: where they jump, clusters are far apart.
    Among edges of equal weight `clusters` removes those that come last in the forest; `height` treats them alike.

    Cost: about the time of going over the vertices ten times; 24 bytes per edge and 12 per vertex.

    Examples
    --------
    >>> from boruvka.linkage import labels, spanning_tree
    >>> tree = spanning_tree([[0, 0], [9, 9], [0, 1], [9, 8]])
    >>> labels(4, tree, clusters=2)
    array([0, 1, 0, 1])
    >>> labels(4, tree, height=0.5)
    array([0, 1, 2, 3])
    """
    return cut(n, forest, clusters, height, min_size)


def cut(n: SupportsIndex, forest: Forest, clusters: SupportsIndex | None, height: Real | None, min_size: SupportsIndex) -> NDArray[np.intp]:
    """The result of `labels`, which needs exactly one of `clusters` and `height`."""
    forest = _best_first(forest)
    count, least_size = integer(n, "n"), integer(min_size, "min_size")
    if least_size < 0:
        raise ValueError(f"min_size is {least_size}, but has to be at least 0: 1 makes no cluster noise")
    if not forest.n <= count <= _library.MAX_VERTICES:
        raise ValueError(f"n is {count}, but has to be from {forest.n}, the number of the forest's vertices, to 2^26")
    low, high = vertices(count, forest.u, "forest.u", forest.v), vertices(count, forest.v, "forest.v", forest.u)
    if len(forest.w) >= max(count, 1):
        raise ValueError(f"{len(forest.w)} edges between {count} vertices close a cycle")
    if clusters is not None and height is None:
        kept = count - integer(clusters, "clusters")
    elif height is not None and clusters is None:
        kept = _up_to(forest, height)
    else:
        raise TypeError(f"pass either `clusters` or `height`, not {'both' if clusters is not None else 'neither'}")
    if not 0 <= kept <= len(forest.w):
        raise ValueError(f"clusters is {clusters}, but has to be from {count - len(forest.w)} to {count}")
    links = np.zeros(kept, _library.LINK)
    links["low"], links["high"] = low[:kept] + 1, high[:kept] + 1
    least = _library.labels(count, links) - 1
    is_first = least == np.arange(count)
    is_kept = is_first & (np.bincount(least, minlength=count) >= least_size)
    numbered: NDArray[np.intp] = np.where(is_kept, np.cumsum(is_kept) - 1, -1)[least]
    return numbered


def _best_first(given: object) -> Forest:
    """The forest, its edges in the order in which they count, as this package returns them."""
    if not isinstance(given, Forest):
        raise TypeError(f"forest is a {type(given).__name__}, but has to be a Forest, which `spanning_tree` or `minimum_spanning_forest` returns")
    w = given.w[::-1] if given.maximum else given.w
    # (the second comparison finds a NaN that is the only weight)
    if (w[1:] >= w[:-1]).all() and (w[:1] == w[:1]).all():
        return given
    if np.isnan(given.w).any():
        raise ValueError(f"forest.w[{np.isnan(given.w).argmax()}] is NaN")
    order = np.argsort(w, kind="stable")
    order = len(w) - 1 - order[::-1] if given.maximum else order
    return given._replace(u=given.u[order], v=given.v[order], w=given.w[order], index=given.index[order])


def _up_to(forest: Forest, height: Real) -> int:
    """The number of edges that weigh at most `height`, or at least so much in a maximum forest, as numpy compares them."""
    if not isinstance(height, numbers.Real) or isinstance(height, bool):
        raise TypeError(f"height is a {type(height).__name__}, but has to be a real number")
    if height != height:
        raise ValueError("height is NaN")
    return int(np.count_nonzero(forest.w >= height if forest.maximum else forest.w <= height))


def _are_distances(points: NDArray[np.float64]) -> bool:
    """Whether this looks like a square matrix of distances, which are easily taken for points.

    As in scipy, such a matrix may be symmetric up to rounding.
    """
    if not points.shape[0] == points.shape[1] > 1 or not np.allclose(points.diagonal(), 0):
        return False
    return bool((points >= 0).all() and np.allclose(points, points.T))


def _of_points(points: NDArray[np.float64], metric: Metric, min_samples: int | None) -> Forest:
    n, min_samples = len(points), checked_min_samples(min_samples, len(points))
    transformed = metric.transformed(points)
    if n <= FEW:
        low, high, positions = _few_pairs(n)
        heights = metric.distances(heights_of_pairs(transformed, metric.p, min_samples, positions))
        index = _library.indices(n, low, high, ordered(heights))
        tree = Forest(low[index].astype(np.intp), high[index].astype(np.intp), heights[index], index.astype(np.intp), n)
    else:
        one, other, lengths = tree_of_points(transformed, metric.p, min_samples)
        tree = minimum_spanning_forest(n, one, other, metric.distances(lengths))
        tree = tree._replace(index=index_of_pair(n, tree.u, tree.v))
    if len(tree) and not np.isfinite(tree.w[-1]):
        at = np.flatnonzero(~np.isfinite(tree.w))[0]
        raise ValueError(f"points {tree.u[at]} and {tree.v[at]} are so far apart that their distance is above all doubles")
    return tree


@lru_cache(maxsize=8)
def _few_pairs(n: int) -> tuple[NDArray[np.uint32], NDArray[np.uint32], NDArray[np.intp]]:
    """The endpoints of all pairs of a few points, and their positions in a square matrix: at most 200 KB, cached
    because computing them takes longer than the rest.
    """
    low, high = pairs_of(n)
    return low.view(np.uint32), high.view(np.uint32), low * np.intp(n) + high


def _expect_points(metric: str, p: float, min_samples: int | None, given: str) -> None:
    """Raise a TypeError if an option for points is given with distances."""
    if metric != "euclidean" or p != 2 or min_samples is not None:
        raise TypeError(
            f'y is {given}, so it has distances: metric="precomputed" takes these, with min_samples only if those of all pairs are given; '
            "other metrics and p are for points, one per row, or y[:, None] in one dimension"
        )


def _cluster_warning() -> type[Warning]:
    """Scipy's category of this warning, if scipy is installed."""
    try:
        from scipy.cluster.hierarchy import ClusterWarning
    except ImportError:
        return UserWarning
    found: type[Warning] = ClusterWarning
    return found
