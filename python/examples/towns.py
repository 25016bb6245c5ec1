"""Towns on islands of the Atlantic, clustered into archipelagos, and drawn as a map.

usage: python3 towns.py [PICTURE]

It reads towns.csv in its own folder, prints the towns of each cluster on a line, and draws the minimum spanning tree of the
towns. The edges that were removed are dashed. Without a PICTURE it needs only numpy; with one, also matplotlib.
"""

import csv
import os
import sys

import numpy as np

from boruvka.linkage import labels, spanning_tree

KILOMETRES_OF_EARTH = 6371.0
ARCHIPELAGOS = 4


def read_towns():
    """The towns' names, latitudes and longitudes."""
    with open(os.path.join(os.path.dirname(os.path.abspath(__file__)), "towns.csv"), encoding="utf-8") as lines:
        rows = list(csv.DictReader(lines))
    return [it["town"] for it in rows], *(np.array([float(it[name]) for it in rows]) for name in ("latitude", "longitude"))


def distances(latitude, longitude):
    """The kilometres between all pairs of towns, along great circles, by the haversine formula."""
    one, other = np.triu_indices(len(latitude), 1)
    phi, lam = np.radians(latitude), np.radians(longitude)
    square = np.sin((phi[one] - phi[other]) / 2) ** 2 + np.cos(phi[one]) * np.cos(phi[other]) * np.sin((lam[one] - lam[other]) / 2) ** 2
    return 2 * KILOMETRES_OF_EARTH * np.arcsin(np.sqrt(square))


def draw(picture, names, latitude, longitude, tree, cluster):
    """Draw the whole tree, and each cluster by itself with the names of its towns."""
    import matplotlib

    matplotlib.use("Agg")
    from matplotlib import pyplot

    figure, axes = pyplot.subplot_mosaic([["all", 0, 1], ["all", 2, 3]], figsize=(15, 9), layout="constrained", width_ratios=[1.2, 1, 1])
    draw_part(axes["all"], np.ones(len(names), bool), latitude, longitude, tree, cluster)
    axes["all"].set(xlabel="degrees east", ylabel="degrees north", title="Towns of Macaronesia, cut into four clusters")
    for number in range(ARCHIPELAGOS):
        shown = cluster == number
        draw_part(axes[number], shown, latitude, longitude, tree, cluster)
        for place in np.flatnonzero(shown):
            near = np.concatenate([tree.v[tree.u == place], tree.u[tree.v == place]])
            is_above = latitude[place] > latitude[near[shown[near]]].mean()
            name_town(axes[number], names[place], (longitude[place], latitude[place]), is_above)
    figure.savefig(picture, dpi=80)


def draw_part(axes, shown, latitude, longitude, tree, cluster):
    """Draw the towns that are shown, and the edges between them."""
    for u, v, kilometres in zip(tree.u, tree.v, tree.w):
        if shown[u] and shown[v]:
            draw_line(axes, longitude[[u, v]], latitude[[u, v]], kilometres, cluster[u] != cluster[v])
    axes.scatter(longitude[shown], latitude[shown], c=cluster[shown], cmap="tab10", vmin=0, vmax=9, s=40, zorder=2)
    axes.set_aspect(1 / np.cos(np.radians(latitude[shown].mean())), adjustable="datalim")
    axes.margins(0.3)


def name_town(axes, name, place, is_above):
    # (so that the name stays legible over lines)
    box = {"facecolor": "white", "edgecolor": "none", "alpha": 0.8, "pad": 0.5}
    axes.annotate(name, place, xytext=(0, 8 if is_above else -17), textcoords="offset points", ha="center", fontsize=9, bbox=box)


def draw_line(axes, longitudes, latitudes, kilometres, is_cut):
    axes.plot(longitudes, latitudes, "--" if is_cut else "-", color="silver" if is_cut else "black", zorder=1)
    if is_cut:
        middle = longitudes.mean(), latitudes.mean()
        axes.annotate(f"{kilometres:.0f} km", middle, ha="center", va="center", color="grey", backgroundcolor="white", fontsize=9)


def main(words):
    names, latitude, longitude = read_towns()
    tree = spanning_tree(distances(latitude, longitude))
    cluster = labels(len(names), tree, clusters=ARCHIPELAGOS)
    for number in range(ARCHIPELAGOS):
        print(", ".join(np.array(names)[cluster == number]))
    if words:
        draw(words[0], names, latitude, longitude, tree, cluster)


if __name__ == "__main__":
    main(sys.argv[1:])
