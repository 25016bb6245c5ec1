"""Typical uses, in which `mypy --strict` finds nothing. They run."""

from __future__ import annotations

import os
import tempfile
from collections.abc import Iterator

import numpy as np
from numpy.typing import NDArray

import boruvka
from boruvka import Forest, forest_of_chunks, from_edges, minimum_spanning_forest, read_gr, write_gr
from boruvka.linkage import labels, merges, single_linkage, spanning_tree


def forests() -> Forest:
    u, v, w = np.array([0, 1, 2]), np.array([1, 2, 0], np.uint32), np.array([3.5, 1.5, 2.5])
    forest = minimum_spanning_forest(3, u, v, w)
    assert forest == minimum_spanning_forest(u, v, w) == minimum_spanning_forest(u=u, v=v, w=w)
    assert forest == minimum_spanning_forest(3, np.array([u, v]).T, w) == minimum_spanning_forest([(0, 1), (1, 2), (2, 0)], w)
    assert forest == minimum_spanning_forest(None, [0, 1, 2], [1, 2, 0], [3.5, 1.5, 2.5])
    assert forest == minimum_spanning_forest(n=np.int64(3), u=u, v=v, w=w)
    assert forest == minimum_spanning_forest(u, v, w, threads=2) == minimum_spanning_forest(3, u, v, w, threads=np.int8(2))
    assert forest == minimum_spanning_forest(u, v, w, n=3) == minimum_spanning_forest(3, u=u, v=v, w=w) == minimum_spanning_forest([(0, 1), (1, 2), (2, 0)], w, n=3)
    better: NDArray[np.intp] = forest.replacements(u, v, w)
    heaviest = minimum_spanning_forest(3, u, v, w, maximum=True)
    total: float = heaviest.total
    one, other, weights, index = forest
    rows: list[int] = index.tolist()
    assert better.tolist() == [0, 0]
    assert (total, rows, len(forest), forest.components) == (6.0, [1, 2], 2, 1)
    named = from_edges({"u": ["a"], "v": ["b"], "w": [1]}, maximum=True)
    assert named.names == ["a", "b"] and one.shape == other.shape == weights.shape
    return forest


def parts(forest: Forest) -> None:
    def chunks() -> Iterator[tuple[list[int], list[int], list[float]]]:
        yield [0], [1], [3.5]
        yield [1, 2], [2, 0], [1.5, 2.5]

    merged: Forest = forest_of_chunks(np.int64(3), chunks())
    chunk, row = merged.index.T
    assert (merged.total, chunk.tolist(), row.tolist()) == (forest.total, [1, 1], [0, 1])
    whole = (forest.u, forest.v, forest.w)
    assert forest_of_chunks(3, [forest]).w.tolist() == forest.w.tolist()
    assert len(forest_of_chunks(3, [whole, [[0], [1], [2]]], maximum=True)) == len(forest_of_chunks(3, (whole for _ in range(2)))) == 2


def clusters(forest: Forest) -> NDArray[np.intp]:
    points = np.random.default_rng(1).random((20, 3))
    tree = spanning_tree(points, metric="manhattan", min_samples=3)
    found: NDArray[np.intp] = tree.labels(clusters=3, min_size=2)
    assert (found == labels(20, tree, clusters=np.int64(3), min_size=2)).all()
    assert (tree.labels(height=np.float64(0.5)) == labels(20, tree, height=0.5)).all()
    matrix: NDArray[np.float64] = merges(20, tree)
    assert (matrix == single_linkage(points, metric="manhattan", min_samples=3)).all() and (matrix == tree.linkage()).all()
    way: list[int] = tree.path(0, 5)
    assert tree.bottleneck(0, 5).w >= tree.w[0] and way[-1] == 5 and forest.n == 3
    assert len(tree.path([0, 1], 5)) == len(tree.bottleneck([0, 1], np.array([5, 6])).w) == 2
    chosen: NDArray[np.intp] = tree.labels(clusters=3, of=[5, 0])
    by_name: dict[int, int] = tree.labels_by_name(clusters=3)
    assert chosen.tolist() == [by_name[5], by_name[0]]
    return boruvka.linkage.labels(20, tree, height=1)


def files(forest: Forest) -> None:
    with tempfile.TemporaryDirectory() as folder:
        path = os.path.join(folder, "net.gr")
        write_gr(path, 3, [0, 1], [1, 2], [4, 5])
        edges = read_gr(path)
        n: int = edges.n
        write_gr(path + ".gz", minimum_spanning_forest(*edges))
        write_gr(path, edges.u, edges.v, edges.w)
        write_gr(path, [[0, 1], [1, 2]], edges.w)
        write_gr(path, u=[0], v=[1], w=[2])
        assert n == 3 and read_gr(path + ".gz").w.tolist() == [4, 5] and forest.maximum is False


def estimators() -> None:
    try:
        from boruvka.cluster import HDBSCAN, SingleLinkage
    except ImportError:
        return
    points = [[0.0, 0.0], [9.0, 9.0], [0.0, 1.0], [9.0, 8.0]]
    found: NDArray[np.intp] = SingleLinkage(n_clusters=2).fit_predict(points)
    model = HDBSCAN(min_cluster_size=2).fit(points)
    strengths: NDArray[np.float64] = model.probabilities_
    assert found.tolist() == model.labels_.tolist() == [0, 1, 0, 1] and strengths.shape == (4,) and model.tree_.n == 4


if __name__ == "__main__":
    clusters(forests())
    parts(forests())
    files(forests())
    estimators()
