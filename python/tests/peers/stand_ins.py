"""A plugin of pytest that runs a peer's own tests on this package, by replacing the peer's functions.

PEER names the peer, one of PEERS. The last line counts the calls that this package answered. The run fails if there are none.
"""

import os

from boruvka.linkage import single_linkage, spanning_tree
from boruvka.sparse import minimum_spanning_tree

answered = 0


def counted(function):
    def answer(*given, **words):
        global answered
        answered += 1
        return function(*given, **words)

    return answer


def scipy_trees():
    from scipy.sparse import csgraph

    csgraph.minimum_spanning_tree = counted(minimum_spanning_tree)


def scipy_linkage():
    """Single linkage of points and of distances; scipy orders the leaves if `optimal_ordering` is true."""
    from scipy.cluster import hierarchy

    own, ours = hierarchy.linkage, counted(single_linkage)

    def linkage(y, method="single", metric="euclidean", optimal_ordering=False):
        if (method, metric) != ("single", "euclidean"):
            return own(y, method, metric, optimal_ordering)
        return hierarchy.optimal_leaf_ordering(ours(y), y) if optimal_ordering else ours(y)

    hierarchy.linkage, hierarchy.single = linkage, lambda y: linkage(y, "single")


class Trees:
    """scikit-learn's inner module, with the tree of points from this package."""

    def __init__(self, own):
        self.own = own
        self.ours = counted(spanning_tree)

    def __getattr__(self, name):
        return getattr(self.own, name)

    def mst_linkage_core(self, points, metric):
        import numpy as np

        if type(metric).__name__ != "EuclideanDistance":
            return self.own.mst_linkage_core(points, metric)
        tree = self.ours(points)
        return np.column_stack([tree.u, tree.v, tree.w]).astype(float)


def sklearn():
    """The trees of points and of sparse matrices, from which scikit-learn computes single linkage."""
    from sklearn.cluster import _agglomerative

    _agglomerative._hierarchical = Trees(_agglomerative._hierarchical)
    scipy_trees()
    scipy_linkage()


def networkx():
    """networkx's own dispatch to a backend; NETWORKX_TEST_BACKEND names it."""
    import scipy.sparse

    from boruvka import networkx_backend

    if not hasattr(scipy.sparse, "sparray"):
        # (networkx's tests use this class, which scipy has from 1.11 on)
        scipy.sparse.sparray = type("sparray", (), {})
    networkx_backend._edges = counted(networkx_backend._edges)


PEERS = {"scipy_trees": scipy_trees, "scipy_linkage": scipy_linkage, "sklearn": sklearn, "networkx": networkx}


def pytest_configure(config):
    PEERS[os.environ["PEER"]]()


def pytest_sessionfinish(session):
    if not answered:
        session.exitstatus = 1


def pytest_unconfigure(config):
    print(f"{answered} calls answered by boruvka")
