"""The tree of clusters from which HDBSCAN chooses, as a frame and as a picture."""

from __future__ import annotations

from typing import TYPE_CHECKING, Any

import numpy as np
from numpy.typing import NDArray

from boruvka._density import Condensed

if TYPE_CHECKING:
    import pandas


class CondensedTree:
    """How clusters lose points and split as the density grows.

    Points are numbered 0 to n - 1, and clusters from n on; cluster n has all points. The density is 1 / height.
    `to_frame` lists which points and clusters leave which cluster at which density, and `plot` draws it.
    """

    def __init__(self, condensed: Condensed, chosen: dict[int, int]) -> None:
        self._condensed, self._chosen = condensed, chosen

    def __repr__(self) -> str:
        return f"<CondensedTree of {self._condensed.n} points and {len(self._condensed.parent)} clusters>"

    def _columns(self) -> dict[str, NDArray[Any]]:
        """The columns of the frame, sorted by the cluster that is left, and then by density."""
        found = self._condensed
        n, clusters = found.n, np.arange(1, len(found.parent))
        parent = n + np.concatenate([np.array(found.parent[1:], np.intp), found.owner])
        child = np.concatenate([n + clusters, np.arange(n)])
        with np.errstate(divide="ignore", over="ignore"):
            density = 1 / np.concatenate([np.array(found.born_at[1:], float), found.left_at])
        size = np.concatenate([np.array(found.size[1:], np.intp), np.ones(n, np.intp)])
        order = np.lexsort((child, density, parent))
        return dict(zip(("parent", "child", "lambda_val", "child_size"), (it[order] for it in (parent, child, density, size))))

    def to_frame(self) -> pandas.DataFrame:
        """Make a frame of pandas with the columns parent, child, lambda_val and child_size, which `to_pandas` of
        hdbscan has.

        A row says that `child`, a point or a cluster of `child_size` points, leaves `parent` at the density
        `lambda_val`.
        """
        import pandas

        return pandas.DataFrame(self._columns())

    def to_pandas(self) -> pandas.DataFrame:
        """The same as `to_frame`, under its name in hdbscan."""
        return self.to_frame()

    def to_numpy(self) -> NDArray[Any]:
        """Make a structured array of the rows of `to_frame`."""
        columns = self._columns()
        rows = np.empty(len(columns["child"]), [(name, it.dtype) for name, it in columns.items()])
        for name, it in columns.items():
            rows[name] = it
        return rows

    def plot(self, ax: Any = None, *, select_clusters: bool = True) -> Any:
        """Draw the clusters with matplotlib, and return the axes.

        The density grows downwards, and a cluster is as wide as it has points. Clusters that were selected have the
        colours of their labels in `Forest.plot`, unless `select_clusters` is false.
        """
        from matplotlib import pyplot

        axes = pyplot.gca() if ax is None else ax
        centres = self._centres()
        columns = self._columns()
        densities = columns["lambda_val"]
        # (equal points never leave: their clusters end a little below the rest)
        last = 1.05 * max(densities[np.isfinite(densities)], default=1.0)
        for it, centre in enumerate(centres):
            rows = columns["parent"] == self._condensed.n + it
            born = 0.0 if it == 0 else float(min(1 / self._condensed.born_at[it], last)) if self._condensed.born_at[it] > 0 else last
            heights = np.append(born, np.minimum(densities[rows], last))
            widths = self._condensed.size[it] - np.append(0, np.cumsum(columns["child_size"][rows]))
            number = self._chosen.get(it, -1) if select_clusters else -1
            colour = "silver" if number < 0 else f"C{number % 10}"
            axes.fill_betweenx(heights, centre - widths / 2, centre + widths / 2, step="post", color=colour, linewidth=0)
        axes.set(ylabel="density: 1 / height", xticks=[], ylim=(last, 0))
        return axes

    def _centres(self) -> list[float]:
        """The horizontal centre of each cluster. The children of a cluster are side by side, around its centre."""
        found = self._condensed
        centres, used = [found.n / 2], [0.0]
        total = np.zeros(len(found.parent))
        np.add.at(total, found.parent[1:], found.size[1:])
        for it in range(1, len(found.parent)):
            parent = found.parent[it]
            centres.append(centres[parent] - total[parent] / 2 + used[parent] + found.size[it] / 2)
            used.append(0.0)
            used[parent] += found.size[it]
        return centres
