"""Clusters by density, from the merges of mutual reachability (Campello, Moulavi and Sander, 2013).

The minimal height of clusters follows Malzer and Baum (2020). Outlier scores follow Campello, Moulavi, Zimek and Sander
(2015).
"""

from __future__ import annotations

from typing import NamedTuple

import numpy as np
from numpy.typing import NDArray


class Selection(NamedTuple):
    """Which clusters are selected: the most stable ones ("eom") or those without children ("leaf").

    A cluster born below the height `epsilon` is replaced by its parent. The root is selected only if `may_be_whole` is
    true. Clusters selected by "eom" have at most `most` points.
    """

    method: str = "eom"
    epsilon: float = 0.0
    may_be_whole: bool = False
    most: float = np.inf


class Condensed:
    """The clusters of at least `least` points, as the density grows.

    Density is `unit` / height. Cluster 0 is the root, with all points. A cluster ends where it splits into several
    clusters that are large enough; otherwise it continues, and points leave it. `owner` is the last cluster of each
    point, and `left` the density at which the point leaves it. For each cluster, `parent` is the cluster it came from,
    `birth` the density of that split, `size` its number of points, and `stability` the sum over its points of how long
    they stay. `left_at` and `born_at` are heights.
    """

    def __init__(self, merges: NDArray[np.float64], least: int) -> None:
        n = len(merges) + 1
        self.children = merges[:, :2].astype(np.intp).tolist()
        self.heights = [-np.inf] * n + merges[:, 2].tolist()
        # (a power of two that is at most the least positive height, so that no sum of densities overflows)
        least_height = merges[:, 2].min(initial=np.inf, where=merges[:, 2] > 0)
        self.unit = float(np.ldexp(0.5, np.frexp(least_height)[1])) if least_height < np.inf else 1.0
        self.sizes = [1] * n + merges[:, 3].astype(np.intp).tolist()
        self.n, self.least = n, least
        self.starts, self.order = self.leaf_order()
        self.owner, self.left, self.left_at = np.zeros(n, np.intp), np.zeros(n), np.full(n, np.inf)
        self.parent, self.birth, self.stability = [-1], [0.0], [0.0]
        self.size, self.born_at = [n], [np.inf]
        waiting = [(2 * n - 2, 0)] if n >= least else []
        while waiting:
            waiting += self.split(*waiting.pop())

    def leaf_order(self) -> tuple[list[int], NDArray[np.intp]]:
        """The points in an order in which the points of each merge are contiguous, and the start of each merge."""
        starts = [0] * (2 * self.n - 1)
        for merge in range(self.n - 2, -1, -1):
            one, other = self.children[merge]
            starts[one] = starts[self.n + merge]
            starts[other] = starts[one] + self.sizes[one]
        return starts, np.argsort(starts[: self.n])

    def split(self, node: int, cluster: int) -> list[tuple[int, int]]:
        """Split a node of the merges; return the nodes that continue, and the cluster of each."""
        height = self.heights[node]
        density = self.unit / height if height > 0 else np.inf
        children_of = self.children_of(node, height)
        large = [it for it in children_of if self.sizes[it] >= self.least]
        is_end = len(large) != 1
        for it in children_of:
            if is_end or it != large[0]:
                self.stability[cluster] += self.sizes[it] * (density - self.birth[cluster])
            if self.sizes[it] < self.least:
                here = self.order[self.starts[it] : self.starts[it] + self.sizes[it]]
                self.owner[here], self.left[here], self.left_at[here] = cluster, density, height
        if not is_end:
            return [(large[0], cluster)]
        first = len(self.parent)
        self.parent += [cluster] * len(large)
        self.birth += [density] * len(large)
        self.born_at += [height] * len(large)
        self.size += [self.sizes[it] for it in large]
        self.stability += [0.0] * len(large)
        return list(zip(large, range(first, first + len(large))))

    def children_of(self, node: int, height: float) -> list[int]:
        """The nodes into which a node splits at its height: merges at equal heights split together."""
        found, waiting = [], list(self.children[node - self.n])
        while waiting:
            it = waiting.pop()
            if self.heights[it] == height:
                waiting += self.children[it - self.n]
            else:
                found.append(it)
        return found

    def chosen(self, selection: Selection) -> list[int]:
        """The selected clusters, none within another; an empty list if there are too few points for one."""
        if self.n < self.least:
            return []
        selected = self.leaves(selection) if selection.method == "leaf" else self.most_stable(selection)
        return sorted({self.not_born_below(selection.epsilon, it, selection.may_be_whole) for it in selected})

    def leaves(self, selection: Selection) -> list[int]:
        """The clusters without children. If the root has none, it is one only if it may be selected."""
        return sorted({*range(0 if selection.may_be_whole else 1, len(self.parent))} - {*self.parent})

    def most_stable(self, selection: Selection) -> list[int]:
        """The clusters, none within another, of greatest total stability; the root only if it may be selected."""
        within = [0.0] * len(self.parent)
        is_selected = [False] * len(self.parent)
        # (children come after their parents)
        for it in range(len(self.parent) - 1, -1, -1):
            is_selected[it] = within[it] <= self.stability[it] and self.size[it] <= selection.most and (it > 0 or selection.may_be_whole)
            if it:
                within[self.parent[it]] += self.stability[it] if is_selected[it] else within[it]
        is_below = [False] * len(self.parent)
        for it in range(1, len(self.parent)):
            is_below[it] = is_below[self.parent[it]] or is_selected[self.parent[it]]
        return [it for it in range(len(self.parent)) if is_selected[it] and not is_below[it]]

    def not_born_below(self, height: float, cluster: int, may_be_whole: bool) -> int:
        """A cluster, or its nearest ancestor that was born at this height or above; the root only if it may be selected."""
        while self.born_at[cluster] < height and (self.parent[cluster] or may_be_whole):
            cluster = self.parent[cluster]
        return cluster

    def end_densities(self) -> NDArray[np.float64]:
        """The density at which each cluster ends: its last points leave, or it splits."""
        found = np.zeros(len(self.parent))
        np.maximum.at(found, self.owner, self.left)
        np.maximum.at(found, self.parent[1:], self.birth[1:])
        return found

    def outlier_scores(self) -> NDArray[np.float64]:
        """The outlier score of each point, from 0 to 1.

        It is 0 if no point stays longer in the point's last cluster or any cluster within it, and near 1 if the point
        leaves far sooner.
        """
        end_densities = self.end_densities()
        for it in range(len(end_densities) - 1, 0, -1):
            end_densities[self.parent[it]] = max(end_densities[self.parent[it]], end_densities[it])
        end = end_densities[self.owner]
        # (equal points stay at any density: compared with them, all others leave at once)
        scores = np.where(self.left < end, 1.0, 0.0)
        is_between = (self.left < end) & np.isfinite(end)
        scores[is_between] = 1 - self.left[is_between] / end[is_between]
        return scores

    def numbers(self, selected: list[int], epsilon: float) -> tuple[NDArray[np.intp], NDArray[np.intp]]:
        """The selected cluster of each point, or -1; and for each cluster its label, by its first point, or -1."""
        head = np.full(len(self.parent), -1)
        head[selected] = selected
        for it in range(1, len(head)):
            head[it] = head[it] if head[it] >= 0 else head[self.parent[it]]
        cluster = head[self.owner]
        if selected == [0]:
            # (if the root is selected, its members stay to its end, or are connected at the height `epsilon` if it isn't 0)
            stays = self.left_at <= epsilon if epsilon > 0 else (self.owner > 0) | (self.left >= self.end_densities()[0])
            cluster = np.where(stays, cluster, -1)
        found, first = np.unique(cluster[cluster >= 0], return_index=True)
        numbers = np.full(len(head), -1)
        numbers[found[np.argsort(first)]] = np.arange(len(found))
        return cluster, numbers

    def labels(self, selected: list[int], epsilon: float) -> tuple[NDArray[np.intp], NDArray[np.float64], dict[int, int]]:
        """The label of each point, or -1; its membership strength; and the label of each selected cluster."""
        cluster, numbers = self.numbers(selected, epsilon)
        end = self.end_densities()[cluster]
        strength = np.ones(self.n)
        is_weaker = self.left < end
        strength[is_weaker] = self.left[is_weaker] / end[is_weaker]
        strength[cluster < 0] = 0
        named: NDArray[np.intp] = np.where(cluster < 0, -1, numbers[cluster])
        return named, strength, {it: int(numbers[it]) for it in selected}
