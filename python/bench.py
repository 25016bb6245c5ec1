"""Times the package and other libraries on the same data, and prints the tables of README.md.

usage: python3 bench.py

Each time is processor time of this process: the least of five calls, interleaved with the other library's, on one
thread. Below the tables are the seconds and the peak of memory of larger trees, each in a process of its own, and the
times of questions about a tree. The machine should do nothing else. It takes about four minutes and 1 GB, and needs
scipy, scikit-learn, fastcluster and networkx.
"""

import gc
import os
import subprocess
import sys
import time
from dataclasses import replace

# (numpy reads these when it is imported; both libraries have to use one thread)
os.environ.update(OPENBLAS_NUM_THREADS="1", OMP_NUM_THREADS="1", MKL_NUM_THREADS="1")

import fastcluster
import networkx as nx
import numpy as np
from scipy.cluster.hierarchy import linkage
from scipy.sparse import coo_matrix, csgraph
from scipy.spatial.distance import pdist
from sklearn.cluster import AgglomerativeClustering

from boruvka import minimum_spanning_forest, networkx_backend
from boruvka.linkage import single_linkage, spanning_tree
from boruvka.sparse import minimum_spanning_tree

EDGES = 1_000_000
TURNS = 5
# prints the seconds of processor time, and the peak of memory beyond that of the points and the modules
ALONE = """
import re, sys, time
import numpy as np
from boruvka.linkage import spanning_tree

def peak():
    with open("/proc/self/status") as it:
        return int(re.search(r"VmHWM:\\s+(\\d+) kB", it.read())[1]) / 1000

n, dimensions = map(int, sys.argv[1:])
given = np.random.default_rng(n).random((n, dimensions))
spanning_tree(given[:5000])
before, begun = peak(), time.process_time()
spanning_tree(given)
print(time.process_time() - begun, peak() - before)
"""


def least(*calls, times=1):
    """The least milliseconds of each of these calls, interleaved. Short ones are timed `times` at once."""
    found = [[] for _ in calls]
    for _ in range(TURNS):
        for call, their in zip(calls, found):
            gc.collect()
            begun = time.process_time()
            for _ in range(times):
                call()
            their.append(1000 * (time.process_time() - begun) / times)
    return [min(it) for it in found]


def brief(number):
    """Two digits of a number."""
    return f"{float(f'{number:.2g}'):,g}"


def row(what, size, other, times):
    """Print a line of the table for each of our times, which come before the other library's."""
    for name, ours in zip(what, times):
        print(f"| {name} | {size} | {brief(ours)} | {other} | {brief(times[-1])} | {brief(ours / times[-1])} |", flush=True)


def drawn(m):
    """m edges between m / 4 vertices."""
    draw = np.random.default_rng(m)
    n = m // 4
    return n, draw.integers(0, n, m, dtype=np.int32), draw.integers(0, n, m, dtype=np.int32), draw.random(m)


def arrays(m):
    n, u, v, w = drawn(m)
    whole = (w * 1_000_000).astype(np.int64)
    # (a sparse matrix has no weights of 0)
    matrix = coo_matrix((w + 1, (u, v)), shape=(n, n)).tocsr()
    times = least(
        lambda: minimum_spanning_forest(n, u, v, w),
        lambda: minimum_spanning_forest(n, u, v, whole),
        lambda: minimum_spanning_tree(matrix),
        lambda: csgraph.minimum_spanning_tree(matrix),
    )
    row(["edges, float64", "edges, int64", "`boruvka.sparse`"], f"{m:,}", "scipy, csr", times)


def graphs(m):
    n, u, v, w = drawn(m)
    graph = nx.Graph()
    graph.add_weighted_edges_from(zip(u.tolist(), v.tolist(), w.tolist()))
    kept = networkx_backend.convert_from_nx(graph)
    list(networkx_backend.minimum_spanning_edges(kept))
    times = least(
        lambda: list(networkx_backend.minimum_spanning_edges(graph)),
        lambda: list(networkx_backend.minimum_spanning_edges(kept)),
        lambda: list(nx.minimum_spanning_edges(graph)),
    )
    row(["networkx, first call", "networkx, later"], f"{m:,}", "its own Kruskal", times)


def uniform(n, dimensions):
    return np.random.default_rng(n).random((n, dimensions))


def clustered(n, dimensions):
    """Points in 20 normal clusters of standard deviation 1, whose centres are uniform in a cube of side 10."""
    draw = np.random.default_rng(n)
    return 10 * draw.random((20, dimensions))[draw.integers(20, size=n)] + draw.normal(size=(n, dimensions))


def points(kind, n, dimensions):
    """Print a line of the table of trees of points. Mutual reachability is compared with scikit-learn's plain tree."""
    given = kind(n, dimensions)
    ours, core, fast, theirs = least(
        lambda: spanning_tree(given),
        lambda: spanning_tree(given, min_samples=5),
        lambda: fastcluster.linkage_vector(given, "single"),
        lambda: AgglomerativeClustering(2, linkage="single").fit(given),
    )
    cells = [kind.__name__, dimensions, *map(brief, (ours, fast, ours / fast, theirs, ours / theirs, core, core / theirs))]
    print(f"| {' | '.join(map(str, cells))} |", flush=True)


def few(n, dimensions):
    given = uniform(n, dimensions)
    row([f"points, {dimensions}-D"], f"{n:,}", "scipy's linkage", least(lambda: spanning_tree(given), lambda: linkage(given, "single"), times=20_000 // n))


def alone(n, dimensions):
    """Print a line on the tree of so many points."""
    ended = subprocess.run([sys.executable, "-c", ALONE, str(n), str(dimensions)], check=True, capture_output=True, text=True)
    seconds, megabytes = map(float, ended.stdout.split())
    print(f"{n:,} points in {dimensions} dimensions: {brief(seconds)} s, {brief(megabytes)} MB", flush=True)


def questions(n):
    """Print the times of the first question about a tree of points, and of each later one, between drawn points."""
    tree = spanning_tree(uniform(n, 2))
    pairs = np.random.default_rng(n).integers(0, n, (200, 2)).tolist()
    for name in ("path", "bottleneck"):
        first, later = [], []
        for _ in range(TURNS):
            ask = getattr(replace(tree), name)
            begun = time.process_time()
            ask(0, 1)
            asked = time.process_time()
            for a, b in pairs:
                ask(a, b)
            first.append(1000 * (asked - begun))
            later.append(1000 * (time.process_time() - asked) / len(pairs))
        print(f"{name} in a tree of {n:,} points: first {brief(min(first))} ms, then {brief(min(later))} ms", flush=True)


def distances(n):
    given = pdist(np.random.default_rng(n).random((n, 5)))
    row([f"distances of {n:,} points"], f"{len(given):,}", "scipy's linkage", least(lambda: single_linkage(given), lambda: linkage(given, "single")))


def main():
    print("| Input | Size | ms | Other library | Its ms | Ratio |")
    print("|---|---|---|---|---|---|")
    arrays(EDGES)
    graphs(100_000)
    for n in (10, 100, 1000):
        few(n, 2)
    distances(2_000)
    print("\n| 10,000 points | Dimensions | ms | fastcluster, ms | Ratio | scikit-learn, ms | Ratio | `min_samples=5`, ms | Ratio |")
    print("|---|---|---|---|---|---|---|---|---|")
    for dimensions in (2, 5, 10):
        points(uniform, 10_000, dimensions)
    for dimensions in (2, 5, 8, 10, 11, 20):
        points(clustered, 10_000, dimensions)
    print()
    for n, dimensions in [(1_000_000, 2), (1_000_000, 3), (100_000, 5), (10_000, 100)]:
        alone(n, dimensions)
    questions(100_000)


if __name__ == "__main__":
    main()
