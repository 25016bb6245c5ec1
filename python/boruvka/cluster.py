"""Single linkage and HDBSCAN as estimators of scikit-learn, which this module needs."""

from __future__ import annotations

import numbers
from typing import TYPE_CHECKING, Any, TypeVar

import numpy as np
from numpy.typing import ArrayLike, NDArray

from boruvka._arrays import boolean, expect_no_masks, expect_no_rounding, integer
from boruvka._condensed import CondensedTree
from boruvka._density import Condensed, Selection
from boruvka._metrics import has_longitude_first, why_perhaps_swapped
from boruvka._warnings import warn
from boruvka._weights import why_not_numbers
from boruvka.linkage import cut, spanning_tree

if TYPE_CHECKING:
    Self = TypeVar("Self", bound="_Estimator")

    class _Estimator:
        """What estimators inherit from scikit-learn, which has no types."""

        def fit_predict(self, X: ArrayLike, y: Any = None) -> NDArray[np.intp]: ...
        def get_params(self, deep: bool = True) -> dict[str, Any]: ...
        def set_params(self: Self, **params: Any) -> Self: ...
        def __sklearn_tags__(self) -> Any: ...
        def _validate_data(self, X: ArrayLike, **options: Any) -> NDArray[np.float64]: ...

else:
    from sklearn.base import BaseEstimator, ClusterMixin

    class _Estimator(ClusterMixin, BaseEstimator):
        pass


__all__ = ["HDBSCAN", "SingleLinkage"]


class _OverTree(_Estimator):
    """What both estimators have in common: the tree of the points, as `tree_`."""

    metric: str
    p: float

    def _points_of(self, X: ArrayLike) -> NDArray[np.float64]:
        """The points, or the distances for metric="precomputed"."""
        try:
            from sklearn.utils.validation import validate_data
        except ImportError:
            points = self._validate_data(X, dtype=np.float64, ensure_min_samples=2)
        else:
            points = validate_data(self, X, dtype=np.float64, ensure_min_samples=2)
        # (scikit-learn ignores masks, and converts everything to doubles, even texts, times and long doubles)
        expect_no_masks(X, "X")
        given = np.asarray(X)
        if given.dtype.kind not in "biufO" or given.dtype.itemsize > 8:
            raise TypeError(f"{why_not_numbers(given, 'X', 'biuf')}, but has to be real numbers of up to 64 bits")
        expect_no_rounding(X, given, points, "X")
        if self.metric == "haversine":
            points = points[:, ::-1] if has_longitude_first(X) else points
            why = why_perhaps_swapped(X, points)
            if why:
                warn(why)
        return points

    def _more_tags(self) -> dict[str, bool]:
        """What scikit-learn up to 1.5 reads: that rows and columns of distances are selected together."""
        return {"pairwise": self.metric == "precomputed"}

    def __sklearn_tags__(self) -> Any:
        """The same for scikit-learn from 1.6 on."""
        tags = super().__sklearn_tags__()
        tags.input_tags.pairwise = self.metric == "precomputed"
        return tags


class SingleLinkage(_OverTree):
    """Cluster points by single linkage: two points are in one cluster if steps of at most some length connect them.

    Parameters
    ----------
    n_clusters : int or None
        The number of clusters, including those that are noise.
    distance_threshold : float, optional
        Points that are at most this far apart are connected. Pass either this or n_clusters.
    min_size : int, optional
        Clusters of fewer points are noise.
    metric, p, min_samples
        As `boruvka.linkage.spanning_tree` takes them.

    Attributes
    ----------
    labels_ : ndarray of intp, shape (n_samples,)
        The cluster of each point, from 0, or -1 for noise. Clusters are numbered by their first points.
    tree_ : Forest
        The minimum spanning tree of the points.
    children_ : ndarray of intp, shape (n_samples - 1, 2)
        The two clusters that each merge joins, as in AgglomerativeClustering of scikit-learn: the points are the
        clusters 0 to n_samples - 1, and merge i makes the cluster n_samples + i.
    distances_ : ndarray of doubles, shape (n_samples - 1,)
        The distance between these two clusters.
    n_clusters_ : int
        The number of clusters, without noise.

    Examples
    --------
    >>> from boruvka.cluster import SingleLinkage
    >>> SingleLinkage(n_clusters=2).fit_predict([[0, 0], [9, 9], [0, 1], [9, 8]])
    array([0, 1, 0, 1])
    """

    def __init__(
        self,
        n_clusters: int | None = 2,
        *,
        distance_threshold: float | None = None,
        min_size: int = 1,
        metric: str = "euclidean",
        p: float = 2,
        min_samples: int | None = None,
    ) -> None:
        self.n_clusters = n_clusters
        self.distance_threshold = distance_threshold
        self.min_size = min_size
        self.metric = metric
        self.p = p
        self.min_samples = min_samples

    def fit(self, X: ArrayLike, y: Any = None) -> SingleLinkage:
        """Find the clusters of points.

        Parameters
        ----------
        X : array_like, shape (n_samples, n_features), or (n_samples, n_samples) for metric="precomputed"
            The points, one per row, or their distances.
        y : ignored
            For scikit-learn's interface.

        Returns
        -------
        SingleLinkage
            The estimator itself.

        Raises
        ------
        ValueError, TypeError
            As `boruvka.linkage.spanning_tree` does, or if a parameter isn't valid.
        """
        if (self.n_clusters is None) == (self.distance_threshold is None):
            raise ValueError("pass either n_clusters or distance_threshold, and None for the other")
        if self.n_clusters is not None:
            integer(self.n_clusters, "n_clusters")
        self.tree_ = spanning_tree(self._points_of(X), metric=self.metric, p=self.p, min_samples=self.min_samples)
        self.labels_ = cut(self.tree_.n, self.tree_, self.n_clusters, self.distance_threshold, self.min_size)
        merges = self.tree_.linkage()
        self.children_, self.distances_ = merges[:, :2].astype(np.intp), merges[:, 2].copy()
        self.n_clusters_ = int(self.labels_.max()) + 1
        return self


class HDBSCAN(_OverTree):
    """Cluster points by how long clusters persist as the density grows (Campello, Moulavi and Sander, 2013).

    Parameters
    ----------
    min_cluster_size : int, optional
        The least number of points of a cluster.
    min_samples : int, optional
        A point's core distance is the distance to its `min_samples`-th nearest point, counting itself. By default it is
        min_cluster_size.
    metric, p
        As `boruvka.linkage.spanning_tree` takes them.
    cluster_selection_method : {"eom", "leaf"}, optional
        Whether to select the clusters of greatest total stability ("eom", excess of mass), or those that split no
        further ("leaf").
    cluster_selection_epsilon : float, optional
        A cluster that split from its parent below this distance is replaced by its parent, and so on (Malzer and Baum,
        2020). The root isn't selected unless allow_single_cluster is true.
    allow_single_cluster : bool, optional
        Whether all points may be one cluster. In that cluster, points that leave before its end are noise; if
        cluster_selection_epsilon isn't 0, points farther away from it than that are noise instead.
    max_cluster_size : int, optional
        "eom" selects no larger clusters. A cluster selected because of cluster_selection_epsilon may be larger.

    Attributes
    ----------
    labels_ : ndarray of intp, shape (n_samples,)
        The cluster of each point, from 0, or -1 for noise. Clusters are numbered by their first points.
    probabilities_ : ndarray of doubles, shape (n_samples,)
        How strongly each point belongs to its cluster: the density at which it leaves, divided by that at which the
        last point does.
    outlier_scores_ : ndarray of doubles, shape (n_samples,)
        How much of an outlier each point is, from 0 to 1: 1 minus the density at which it leaves its last cluster,
        divided by that at which the last point leaves this cluster or one within it (GLOSH, Campello and others, 2015).
    condensed_tree_ : CondensedTree
        The tree from which the clusters are selected: `to_frame()` lists it, `plot()` draws it.
    tree_ : Forest
        The minimum spanning tree of mutual reachability.

    Examples
    --------
    >>> from boruvka.cluster import HDBSCAN
    >>> HDBSCAN(min_cluster_size=2).fit_predict([[0, 0], [9, 9], [0, 1], [9, 8], [40, 40]])
    array([ 0,  1,  0,  1, -1])
    """

    def __init__(
        self,
        min_cluster_size: int = 5,
        *,
        min_samples: int | None = None,
        metric: str = "euclidean",
        p: float = 2,
        cluster_selection_method: str = "eom",
        cluster_selection_epsilon: float = 0.0,
        allow_single_cluster: bool = False,
        max_cluster_size: int | None = None,
    ) -> None:
        self.min_cluster_size = min_cluster_size
        self.min_samples = min_samples
        self.metric = metric
        self.p = p
        self.cluster_selection_method = cluster_selection_method
        self.cluster_selection_epsilon = cluster_selection_epsilon
        self.allow_single_cluster = allow_single_cluster
        self.max_cluster_size = max_cluster_size

    def fit(self, X: ArrayLike, y: Any = None) -> HDBSCAN:
        """Find the clusters of points.

        Parameters
        ----------
        X : array_like, shape (n_samples, n_features), or (n_samples, n_samples) for metric="precomputed"
            The points, one per row, or their distances.
        y : ignored
            For scikit-learn's interface.

        Returns
        -------
        HDBSCAN
            The estimator itself.

        Raises
        ------
        ValueError, TypeError
            As `boruvka.linkage.spanning_tree` does, or if a parameter isn't valid.
        """
        least = integer(self.min_cluster_size, "min_cluster_size")
        if least < 2:
            raise ValueError(f"min_cluster_size is {least}, but has to be at least 2")
        selection = self._selection(least)
        points = self._points_of(X)
        if self.min_samples is None and least > len(points):
            raise ValueError(f"min_cluster_size is {least}, but X has only {len(points)} points: pass min_cluster_size or min_samples of at most {len(points)}")
        self.tree_ = spanning_tree(points, metric=self.metric, p=self.p, min_samples=least if self.min_samples is None else self.min_samples)
        condensed = Condensed(self.tree_.linkage(), least)
        self.labels_, self.probabilities_, numbers = condensed.labels(condensed.chosen(selection), selection.epsilon)
        self.outlier_scores_ = condensed.outlier_scores()
        self.condensed_tree_ = CondensedTree(condensed, numbers)
        return self

    def _selection(self, least: int) -> Selection:
        """How clusters are selected. Raise an error if a parameter isn't valid."""
        if self.cluster_selection_method not in ("eom", "leaf"):
            raise ValueError(f"cluster_selection_method is {self.cluster_selection_method!r}, but has to be 'eom' or 'leaf'")
        epsilon = self.cluster_selection_epsilon
        if not isinstance(epsilon, numbers.Real) or isinstance(epsilon, bool):
            raise TypeError(f"cluster_selection_epsilon is {epsilon!r}, but has to be a distance, a real number")
        if not epsilon >= 0:
            raise ValueError(f"cluster_selection_epsilon is {epsilon}, but a distance is at least 0")
        most = np.inf
        if self.max_cluster_size is not None:
            most = integer(self.max_cluster_size, "max_cluster_size")
            if most < least:
                raise ValueError(f"max_cluster_size is {most}, but has to be at least min_cluster_size, which is {least}: None sets no limit")
        may_be_whole = boolean(self.allow_single_cluster, "allow_single_cluster")
        return Selection(self.cluster_selection_method, float(epsilon), may_be_whole, most)
