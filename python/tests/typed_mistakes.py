"""Mistakes that `mypy --strict` finds: exactly the lines marked as wrong. Nobody runs them."""

import numpy as np

import boruvka
from boruvka import Forest, no_such_name  # wrong
from boruvka.cluster import HDBSCAN, SingleLinkage
from boruvka.linkage import labels, single_linkage, spanning_tree


def neither_and_both(forest: Forest) -> None:
    labels(3, forest)  # wrong
    labels(3, forest, clusters=2, height=1.5)  # wrong
    labels(3, forest, 2)  # wrong
    forest.labels()  # wrong
    forest.labels(clusters=2, height=1.5)  # wrong
    forest.labels(min_size=2)  # wrong
    forest.labels(clusters=None, height=None)  # wrong
    forest.labels(clusters=2)
    labels(3, forest, height=1.5)


def misspelled(forest: Forest) -> None:
    boruvka.minimum_spaning_forest(3, [0], [1], [2])  # wrong
    boruvka.lables  # wrong
    boruvka.linkage.lables  # wrong
    forest.wieghts  # wrong
    forest.labels(cluster=2)  # wrong
    forest.componnents  # wrong
    boruvka.forest_of_chunks(3, [], maximun=True)  # wrong
    spanning_tree([[0, 0]], metrics="euclidean")  # wrong
    SingleLinkage(clusters=2)  # wrong
    SingleLinkage().lables_  # wrong
    HDBSCAN().fit([[0, 0]]).probability_  # wrong
    boruvka.read_gr("net.gr").m  # wrong


def of_a_wrong_type(forest: Forest) -> None:
    boruvka.minimum_spanning_forest(3, [(0, 1)], [1])
    boruvka.minimum_spanning_forest(n=[0], u=[1], v=[2])  # wrong
    boruvka.minimum_spanning_forest(n=[0], u=[1], v=[2], w=[3])  # wrong
    boruvka.minimum_spanning_forest([0], [1], [2], 4)  # wrong
    boruvka.minimum_spanning_forest([0], [1], 2.5)  # wrong
    boruvka.write_gr("net.gr", n=[0], u=[1], v=[2])  # wrong
    boruvka.minimum_spanning_forest(3)  # wrong
    boruvka.minimum_spanning_forest()  # wrong
    boruvka.minimum_spanning_forest(3.5, [0], [1], [2])  # wrong
    boruvka.minimum_spanning_forest(3, [0], [1], [2], maximum="yes")  # wrong
    boruvka.minimum_spanning_forest(3, [0], [1], [2], threads="2")  # wrong
    boruvka.forest_of_chunks([([0], [1], [2])])  # wrong
    boruvka.forest_of_chunks(None, [([0], [1], [2])])  # wrong
    boruvka.forest_of_chunks(3, None)  # wrong
    boruvka.forest_of_chunks(3, [0, 1, 2])  # wrong
    boruvka.forest_of_chunks(3, [forest, ([0], [1], [2])])
    labels(forest, 3, clusters=2)  # wrong
    labels(3, np.zeros((2, 4)), clusters=2)  # wrong
    single_linkage(np.zeros((2, 4)), p="2")  # wrong
    forest.path("a")  # wrong
    forest.bottleneck(0, 1).weight  # wrong
    forest.replacements([0], [1])  # wrong
    forest.labels_by_name()  # wrong
    forest.n = 9  # wrong
    boruvka.write_gr("net.gr", 3, [(0, 1)], [1])
    boruvka.write_gr("net.gr")  # wrong
    boruvka.read_gr(5)  # wrong
