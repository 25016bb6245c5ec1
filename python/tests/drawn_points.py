"""Drawn points, whose trees and clusters are compared with references. `SORTS` has a function for each sort of case.

The lengths of the references are long doubles, and their trees come from Prim's algorithm on the matrix of all lengths.
The reference clusters follow the definitions of HDBSCAN, as in test_cluster.py.
"""

import contextlib
import warnings
from unittest import mock

import numpy as np
import test_cluster

from boruvka.linkage import labels, spanning_tree

try:
    from boruvka.cluster import HDBSCAN
except ImportError:
    HDBSCAN = None


def kinds(draw, n, dimensions):
    """Functions that draw points, by what the points look like."""
    apart, which = draw.normal(size=(n, dimensions)), draw.integers(0, draw.integers(2, 9), n)
    centres = draw.random((9, dimensions)) * draw.choice([3, 30, 1e4])
    sizes = 10.0 ** draw.integers(-6, 1, (9, 1))
    unit = apart / np.linalg.norm(apart, axis=1)[:, None]
    return {
        "normal": lambda: apart,
        "even": lambda: draw.random((n, dimensions)),
        "clusters": lambda: centres[which] + apart,
        "clusters of different sizes": lambda: centres[which] + sizes[which] * apart,
        "clusters far from 0": lambda: draw.choice([1e6, -1e9, 1e12]) + centres[which] + apart,
        "clusters and noise": lambda: np.where(draw.random((n, 1)) < 0.8, centres[which] + apart, 30 * apart),
        "a lattice": lambda: draw.integers(0, 4, (n, dimensions)).astype(float),
        "corners of a cube": lambda: draw.integers(0, 2, (n, dimensions)).astype(float),
        "almost a lattice": lambda: draw.integers(0, 4, (n, dimensions)) + 1e-12 * apart,
        "rounded clusters": lambda: np.round(centres[which] + apart, 1),
        "copies": lambda: apart[draw.integers(0, 1 + n // 3, n)],
        "one place": lambda: np.full((n, dimensions), draw.choice([0.0, 1.5])),
        "a line": lambda: np.outer(draw.random(n), np.ones(dimensions)) + 1e-13 * apart,
        "a curve": lambda: np.stack([np.sin(it * np.linspace(0, 3, n)) for it in range(1, dimensions + 1)], axis=1),
        "rings around one another": lambda: (1 + 3.0 * which[:, None]) * unit,
        "within one another": lambda: 10.0 ** draw.integers(-8, 1, (n, 1)) * apart,
        "tiny": lambda: 1e-200 * apart,
        "huge": lambda: 1e150 * apart,
    }


def gaps(points, metric, p):
    """The lengths between all points, as long doubles."""
    rows = points.astype(np.longdouble)
    steps = np.abs(rows[:, None] - rows[None])
    if metric == "chebyshev":
        return steps.max(axis=2)
    power = {"euclidean": 2, "manhattan": 1, "minkowski": p}[metric]
    if power == 1:
        return steps.sum(axis=2)
    greatest = steps.max(axis=2)
    parts = np.divide(steps, greatest[:, :, None], out=np.zeros_like(steps), where=greatest[:, :, None] > 0)
    return greatest * (parts ** np.longdouble(power)).sum(axis=2) ** (1 / np.longdouble(power))


def heights_of(square, nearest):
    """The heights of a tree by Prim's algorithm on all pairs, in ascending order."""
    core = np.sort(square, axis=1)[:, (nearest or 1) - 1]
    square = np.maximum(square, np.maximum(core[:, None], core))
    best, found = square[0].copy(), []
    best[0] = np.inf
    is_left = np.ones(len(square), bool)
    is_left[0] = False
    for _ in range(len(square) - 1):
        here = int(np.where(is_left, best, np.inf).argmin())
        found.append(best[here])
        is_left[here] = False
        best = np.minimum(best, square[here])
    return np.sort(np.array(found))


def methods_patched(draw):
    """The bounds that select a method, drawn so that each method is tried with few points too."""
    stack = contextlib.ExitStack()
    for name, choices in {
        "linkage.FEW": [0, 0, 200],
        "_grid._FEW": [2, 1 << 12],
        "_points._FEW_POINTS": [0, 2000],
        "_points._SAMPLE": [1, 2],
        "_points._NEIGHBOURS": [1],
        "_points._MOST_DIMENSIONS": [0, 32, 64, 64],
        "_rounds._COMPONENTS": [2, 256],
        "_across._PAIRS": [0, 1, 256],
        "_across._WORTH": [0, 0, 32],
        "_across._ENDS": [1, 32],
        "_across._NEAR": [20, 1 << 15],
    }.items():
        stack.enter_context(mock.patch(f"boruvka.{name}", choices[draw.integers(len(choices))]))
    return stack


def expect_tree(draw):
    """A tree of points in 1 to 50 dimensions under a metric, with mutual reachability or without."""
    n = int(draw.choice([2, 3, 5, 12, 40, 120, 300]))
    dimensions = int(draw.choice([1, 2, 2, 3, 3, 4, 5, 6, 8, 10, 11, 12, 20, 33, 50]))
    made = kinds(draw, n, dimensions)
    kind = list(made)[draw.integers(len(made))]
    metric = str(draw.choice(["euclidean", "euclidean", "manhattan", "chebyshev", "minkowski"]))
    p = float(draw.choice([1.5, 2.5, 3, 7, 17, 25])) if metric == "minkowski" else 2
    nearest = None if draw.random() < 0.5 else int(draw.integers(1, min(n, 14) + 1))
    points = made[kind]()
    with warnings.catch_warnings(), methods_patched(draw):
        warnings.simplefilter("ignore", UserWarning)
        tree = spanning_tree(points, metric=metric, p=p, min_samples=nearest)
    output = f"{n} points ({kind}) in {dimensions} dimensions, {metric}, p={p}, min_samples={nearest}"
    if len(set(labels(n, tree, height=np.inf).tolist())) > 1 or len(tree) != n - 1:
        raise AssertionError(f"{output}: the tree doesn't connect them")
    expected = heights_of(gaps(points, metric, p), nearest)
    # (the reference uses the same rounded coordinates)
    np.testing.assert_allclose(tree.w, expected.astype(float), rtol=1e-13, atol=0, err_msg=output)


def expect_clusters(draw):
    """HDBSCAN with drawn parameters."""
    n, dimensions = int(draw.integers(5, 34)), int(draw.integers(1, 5))
    made = {it: function for it, function in kinds(draw, n, dimensions).items() if it not in ("tiny", "huge", "copies", "one place", "corners of a cube")}
    kind = list(made)[draw.integers(len(made))]
    # (equal points have the distance 0, and the reference divides by distances)
    points = np.unique(made[kind](), axis=0)
    least, nearest = int(draw.integers(2, 6)), int(draw.integers(1, 6))
    if len(points) < max(least, nearest, 2):
        return
    root = test_cluster.whole_of(points, least, nearest)
    born = [0.0, 0.0, 1e300, *(it.born * float(draw.choice([1 - 1e-9, 1 + 1e-9])) for it in root.all() if it.parent)]
    options = {
        "cluster_selection_method": str(draw.choice(["eom", "eom", "leaf"])),
        "cluster_selection_epsilon": float(born[draw.integers(len(born))]),
        "allow_single_cluster": bool(draw.random() < 0.5),
        "max_cluster_size": None if draw.random() < 0.6 else int(draw.integers(least, n + 1)),
    }
    method, epsilon, whole, most = options.values()
    with warnings.catch_warnings():
        warnings.simplefilter("ignore", UserWarning)
        found = HDBSCAN(least, min_samples=nearest, **options).fit(points)
    expected = test_cluster.Reference(root, method, epsilon, whole, most or np.inf)
    try:
        test_cluster.Density().expect(found, expected)
    except AssertionError as error:
        raise AssertionError(f"{len(points)} points ({kind}), {least}, min_samples={nearest}, {options}: {error}") from None


SORTS = {"trees of points": expect_tree}
if HDBSCAN:
    SORTS["clusters of HDBSCAN"] = expect_clusters
