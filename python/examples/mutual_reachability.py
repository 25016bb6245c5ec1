"""Two moons in noise, separated by the tree of mutual reachability, on which HDBSCAN is based.

usage: python3 mutual_reachability.py [PICTURE]

A point's core distance is the distance to its fifth nearest point, counting itself. The height of an edge between two points is
the greatest of their distance and their two core distances. Points without an edge up to a height are noise; the others form
clusters, as in DBSCAN. It prints how many points each cluster has, and how many are noise. With a PICTURE it needs
matplotlib.
"""

import sys

import numpy as np

from boruvka.linkage import spanning_tree

NEAREST = 5
HEIGHT = 0.16


def drawn_points():
    """Two moons of 150 points each, and 60 points anywhere around them."""
    draw = np.random.default_rng(3)
    angle = np.linspace(0, np.pi, 150)
    upper = np.column_stack([np.cos(angle), np.sin(angle)])
    moons = np.concatenate([upper, (1, 0.5) - upper])
    return np.concatenate([moons + draw.normal(scale=0.06, size=moons.shape), draw.uniform((-2, -1.5), (3, 2), (60, 2))])


def clustered(points):
    """The tree, and the cluster of each point: from 0, or -1 for noise."""
    tree = spanning_tree(points, min_samples=NEAREST)
    return tree, tree.labels(height=HEIGHT, min_size=2)


def draw(picture, points, tree, cluster):
    import matplotlib

    matplotlib.use("Agg")
    from matplotlib import pyplot

    figure, axes = pyplot.subplots(figsize=(9, 6), layout="constrained")
    for u, v, height in zip(tree.u, tree.v, tree.w):
        is_near = height <= HEIGHT
        axes.plot(*points[[u, v]].T, color="black" if is_near else "lightgrey", linewidth=1 if is_near else 0.7, zorder=1)
    noise = cluster < 0
    axes.scatter(*points[noise].T, color="grey", marker="x", s=20, label="noise", zorder=2)
    axes.scatter(*points[~noise].T, c=cluster[~noise], cmap="tab10", vmin=0, vmax=9, s=16, zorder=2)
    axes.set(title=f"mutual reachability of two moons, cut at {HEIGHT}", aspect="equal")
    axes.legend()
    figure.savefig(picture, dpi=100)


def main(words):
    points = drawn_points()
    tree, cluster = clustered(points)
    print("clusters of", *sorted(np.bincount(cluster[cluster >= 0]), reverse=True))
    print("noise", (cluster < 0).sum())
    if words:
        draw(words[0], points, tree, cluster)


if __name__ == "__main__":
    main(sys.argv[1:])
