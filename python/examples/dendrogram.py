"""Points drawn around four centres, their single linkage, and its dendrogram.

usage: python3 dendrogram.py [PICTURE]

It prints how many points each of four clusters has. With a PICTURE it draws the points with their tree, and the
dendrogram, with matplotlib and scipy.
"""

import sys

import numpy as np

from boruvka.linkage import labels, merges, spanning_tree

PLACES = [(0, 0), (8, 1), (4, 7), (11, 8)]
COUNTS = [12, 9, 15, 6]


def drawn_points():
    """The points of each centre, one centre after the other."""
    draw = np.random.default_rng(7)
    return np.concatenate([draw.normal(place, 0.8, (count, 2)) for place, count in zip(PLACES, COUNTS)])


def draw_both(picture, points, tree, cluster):
    import matplotlib

    matplotlib.use("Agg")
    from matplotlib import pyplot
    from scipy.cluster.hierarchy import dendrogram

    figure, (left, right) = pyplot.subplots(1, 2, figsize=(13, 5), layout="constrained")
    for u, v in zip(tree.u, tree.v):
        is_cut = cluster[u] != cluster[v]
        left.plot(*points[[u, v]].T, "--" if is_cut else "-", color="silver" if is_cut else "black", zorder=1)
    left.scatter(*points.T, c=cluster, cmap="tab10", vmin=0, vmax=9, zorder=2)
    left.set(title="points, and their tree cut into four", aspect="equal")
    # the third heaviest edge is the lightest one that was removed
    height = (tree.w[-4] + tree.w[-3]) / 2
    matrix = merges(len(points), tree)
    # each merge has the colour of its points' cluster
    member = list(range(len(points)))
    for one, _, _, _ in matrix:
        member.append(member[int(one)])
    colours = [f"C{cluster[member[it]]}" if it < len(points) or matrix[it - len(points), 2] < height else "silver" for it in range(len(member))]
    dendrogram(matrix, ax=right, link_color_func=colours.__getitem__)
    right.axhline(height, color="grey", linestyle=":")
    right.set(title="single linkage", ylabel="distance")
    figure.savefig(picture, dpi=100)


def main(words):
    points = drawn_points()
    tree = spanning_tree(points)
    cluster = labels(len(points), tree, clusters=len(PLACES))
    print(*np.bincount(cluster))
    if words:
        draw_both(words[0], points, tree, cluster)


if __name__ == "__main__":
    main(sys.argv[1:])
