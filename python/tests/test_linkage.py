"""Single linkage and clusters: worked examples, comparisons with scipy, and drawn graphs."""

import math
import unittest
import warnings
from itertools import combinations, islice
from unittest import mock

import numpy as np
from graphs import Components, Graph, kruskal

from boruvka import Forest, _points, _rounds, minimum_spanning_forest
from boruvka._across import Across
from boruvka.linkage import labels, merges, single_linkage, spanning_tree


def there(name):
    """Whether a package is installed."""
    try:
        __import__(name)
    except ImportError:
        return False
    return True


try:
    from scipy.cluster import hierarchy
    from scipy.spatial.distance import pdist, squareform
except ImportError:
    hierarchy = None

# the vertices, roads and clusters of docs/RECIPES.md; vertices are numbered from 0
ROADS = minimum_spanning_forest(10, [1, 6, 0, 3, 4, 8, 4, 2], [2, 7, 1, 4, 5, 9, 6, 3], [2, 2, 3, 3, 4, 6, 9, 11])


def clouds(draw, n, dimensions):
    """Points of several kinds, the first of them uniform."""
    apart = draw.normal(size=(n, dimensions))
    yield apart
    yield draw.integers(0, 5, (n, dimensions))
    yield draw.integers(-3, 4, (n, 1)) * np.arange(1, dimensions + 1)
    yield 1e6 + apart
    yield 1e12 + apart
    yield draw.integers(0, 5, (n, dimensions)) + 1e-12 * apart
    yield np.repeat(apart[: 1 + n // 3], 3, axis=0)
    yield np.zeros((n, dimensions))
    # almost in a line, in dense clusters, in nested clusters, and near the limits of doubles
    yield np.outer(draw.random(n), np.ones(dimensions)) + 1e-13 * apart
    yield draw.integers(0, 4, (n, 1)) * 100 + 1e-3 * apart
    yield draw.integers(0, 3, (n, 1)) * 50 + apart * 10.0 ** draw.integers(-8, 1, (n, 1))
    yield 1e150 * apart
    yield 1e-200 * apart


def heights_of_all_pairs(points):
    """The lengths of the tree by Kruskal's algorithm on all pairs, and the standard library's distance."""
    rows = np.asarray(points).tolist()
    pairs = list(combinations(range(len(rows)), 2))
    lengths = [math.dist(rows[i], rows[j]) for i, j in pairs]
    order = sorted(range(len(pairs)), key=lengths.__getitem__)
    taken = kruskal(len(rows), [it[0] for it in pairs], [it[1] for it in pairs], order)
    return [lengths[it] for it in taken]


class Worked(unittest.TestCase):
    def test_points_of_a_line(self):
        expected = [[0, 1, 1, 2], [2, 3, 2, 2], [4, 5, 4, 4]]
        self.assertEqual(single_linkage([[0.0], [1.0], [5.0], [7.0]]).tolist(), expected)
        self.assertEqual(single_linkage([1, 5, 7, 4, 6, 2]).tolist(), expected)

    def test_a_tree_knows_the_pair_of_each_edge(self):
        draw = np.random.default_rng(2)
        for n, dimensions in [(2, 3), (9, 4), (400, 1), (400, 2), (400, 3)]:
            for points in clouds(draw, n, dimensions):
                tree = spanning_tree(points)
                lower, higher = np.triu_indices(len(points), 1)
                self.assertEqual((tree.u.tolist(), tree.v.tolist()), (lower[tree.index].tolist(), higher[tree.index].tolist()))
                self.assertTrue((np.diff(tree.w) >= 0).all())

    def test_the_clusters_of_the_roads(self):
        # (by awk in RECIPES: each vertex with the least vertex of its cluster)
        self.assertEqual(labels(10, ROADS, clusters=4).tolist(), [0, 0, 0, 1, 1, 1, 2, 2, 3, 3])
        self.assertEqual(labels(10, ROADS, clusters=10).tolist(), list(range(10)))
        self.assertEqual(labels(10, ROADS, clusters=2).tolist(), [0] * 8 + [1] * 2)
        self.assertEqual(labels(10, ROADS, height=4).tolist(), [0, 0, 0, 1, 1, 1, 2, 2, 3, 4])
        self.assertEqual(labels(10, ROADS, height=np.inf).tolist(), [0] * 8 + [1] * 2)
        self.assertEqual(labels(10, ROADS, height=1.9).tolist(), list(range(10)))

    def test_heights_are_compared_as_numpy_compares_them(self):
        for dtype in (np.float32, np.float64, np.int64, np.uint64):
            weights = np.array([1, 2, 3], dtype) if np.dtype(dtype).kind in "iu" else np.array([0.1, 0.2, 0.3], dtype)
            forest = minimum_spanning_forest(4, [0, 1, 2], [1, 2, 3], weights)
            for height in (-1, 0.1, 0.2, 0.3, 2, 2.5, 3, 2**63 - 1, np.inf, *weights):
                parts = labels(4, forest, height=height).max() + 1
                self.assertEqual(parts, 4 - (weights <= height).sum(), (dtype, height))

    def test_a_forest_in_another_order(self):
        # a maximum forest with negated weights; edges after heavier ones
        heaviest = minimum_spanning_forest(4, [0, 1, 2, 3], [1, 2, 3, 0], [-1.0, -5.0, -2.0, -4.0])
        heaviest = heaviest._replace(w=-heaviest.w)
        self.assertEqual(heaviest.w.tolist(), [5, 4, 2])
        self.assertEqual(labels(4, heaviest, height=4).tolist(), [0, 1, 0, 0])
        self.assertEqual(labels(4, heaviest, clusters=3).tolist(), [0, 1, 2, 2])
        self.assertEqual(merges(4, heaviest).tolist(), [[2, 3, 2, 2], [0, 4, 4, 3], [1, 5, 5, 4]])
        listed = Forest([0, 1], [1, 2], [5.0, 1.0], [0, 1])
        self.assertEqual(labels(3, listed, height=2).tolist(), [0, 1, 1])

    def test_few_points(self):
        for one in ([[3.0, 4.0]], np.empty((1, 0))):
            self.assertEqual(single_linkage(one).shape, (0, 4))
        self.assertEqual(single_linkage([[0, 0], [3, 4]]).tolist(), [[0, 1, 5, 2]])
        self.assertEqual(labels(0, minimum_spanning_forest(0, [], [], []), height=1).tolist(), [])
        self.assertEqual(labels(1, minimum_spanning_forest(1, [], [], []), clusters=1).tolist(), [0])


class Rejected(unittest.TestCase):
    def test_points_and_distances(self):
        for wrong, pattern in [
            (np.empty((0, 2)), "^y has no points$"),
            ([], "^y is empty: "),
            (np.ma.masked_equal([[0.0], [1.0]], 1), "masked"),
            (3.0, "shape"),
            (np.zeros((2, 2, 2)), "shape"),
            ([1.0, 2.0], "^y has 2 entries, but"),
            ([[1, 1], [np.nan, 0]], "^a coordinate of the point 1 "),
            ([[np.inf], [0]], "^a coordinate of the point 0 "),
            ([1, np.inf, 2], "but a distance is finite"),
            ([1, np.nan, 2], "but a distance is finite"),
            ([1, -1, 2], "negative"),
        ]:
            for call in (single_linkage, spanning_tree):
                with self.assertRaisesRegex(ValueError, pattern):
                    call(wrong)
        with self.assertRaisesRegex(ValueError, "^points 0 and 1 are so far apart"):
            spanning_tree([[1.7e308, 0], [-1.7e308, 0]])
        for wrong in (["a"], [[1j, 2], [3, 4]], [[None]]):
            with self.assertRaises(TypeError):
                single_linkage(wrong)

    def test_what_looks_like_a_matrix_of_distances_is_reported(self):
        for call in (single_linkage, spanning_tree):
            with self.assertWarnsRegex(UserWarning, "square") as output:
                call([[0, 1, 2], [1, 0, 3], [2, 3, 0]])
            self.assertEqual(output.filename, __file__)
            if hierarchy:
                self.assertIs(output.warning.__class__, hierarchy.ClusterWarning)
        with warnings.catch_warnings():
            warnings.simplefilter("error")
            single_linkage([[0, 1], [2, 0]])
            single_linkage([[0]])

    def test_a_matrix_of_distances_that_is_symmetric_up_to_rounding(self):
        """The result of scikit-learn's pairwise_distances: scipy warns about it, by the same rule."""
        draw = np.random.default_rng(30)
        points = draw.random((40, 3))
        square = np.sqrt(((points[:, None] - points[None]) ** 2).sum(axis=2))
        rounded = square * (1 + 1e-15 * draw.integers(-4, 5, square.shape))
        self.assertFalse((rounded == rounded.T).all())
        for given in (rounded, rounded + np.diag(np.full(40, 1e-12))):
            with self.assertWarnsRegex(UserWarning, 'its rows are taken as points: pass metric="precomputed" if they are distances$'):
                spanning_tree(given)
            if hierarchy:
                with self.assertWarns(hierarchy.ClusterWarning):
                    hierarchy.linkage(given, "single")
        with warnings.catch_warnings():
            warnings.simplefilter("error")
            for given in (square + np.triu(square), -square, square + np.eye(40)):
                spanning_tree(given)
                if hierarchy:
                    hierarchy.linkage(given, "single")

    def test_distances_that_are_none(self):
        square = np.array([[0.0, 1, 2], [1, 0, 3], [2, 3, 0]])
        for change, pattern in [
            ((0, 1, 1.1), r"^y\[0, 1\] is 1\.1, but y\[1, 0\] is 1\.0: a distance is the same in both directions, and numpy\.minimum\(y, y\.T\) makes it so$"),
            ((2, 1, 2.9), r"^y\[1, 2\] is 3\.0, but y\[2, 1\] is 2\.9: "),
            ((1, 1, 0.5), r"^y\[1, 1\] is 0\.5, but the distance of a point to itself is 0: "),
            ((0, 2, -2), r"^y\[0, 2\] is -2\.0, but a distance is finite and not negative$"),
            ((0, 2, np.inf), r"^y\[0, 2\] is inf, but a distance is finite"),
            ((0, 2, np.nan), r"^y\[0, 2\] is nan, but a distance is finite"),
        ]:
            wrong = square.copy()
            wrong[change[:2]] = change[2]
            with self.assertRaisesRegex(ValueError, pattern):
                spanning_tree(wrong, metric="precomputed")
        for wrong in (square[:, :2], square[None], np.empty((0, 0))):
            with self.assertRaisesRegex(ValueError, "^y has the shape .* takes a square matrix of distances"):
                spanning_tree(wrong, metric="precomputed")
        with self.assertRaisesRegex(ValueError, "^p is 3, but only"):
            spanning_tree(square, metric="precomputed", p=3)
        with self.assertRaisesRegex(ValueError, "^min_samples is 4, "):
            spanning_tree(square, metric="precomputed", min_samples=4)
        with self.assertRaisesRegex(ValueError, "^y has 2 entries, but no number of points"):
            spanning_tree([1.0, 2.0], metric="precomputed", min_samples=2)
        with self.assertRaisesRegex(TypeError, "^y has the dtype"):
            spanning_tree([["a", "b"], ["c", "d"]], metric="precomputed")

    def test_clusters_of_a_negative_size(self):
        for call in (lambda it: labels(10, ROADS, clusters=4, min_size=it), lambda it: ROADS.labels(height=3, min_size=it)):
            with self.assertRaisesRegex(ValueError, "^min_size is -1, but has to be at least 0: "):
                call(-1)
            self.assertEqual(call(0).tolist(), call(1).tolist())

    def test_clusters_that_cannot_be(self):
        for clusters in (-1, 0, 1, 11):
            with self.assertRaisesRegex(ValueError, f"^clusters is {clusters}, but has to be from 2 to 10$"):
                labels(10, ROADS, clusters=clusters)
        for given in ({}, {"clusters": 3, "height": 2}, {"clusters": 2.5}):
            with self.assertRaises(TypeError):
                labels(10, ROADS, **given)
        with self.assertRaisesRegex(ValueError, "NaN"):
            labels(10, ROADS, height=np.nan)
        for height in (1j, "1", [1, 2], np.array([4])):
            with self.assertRaisesRegex(TypeError, "^height is a "):
                labels(10, ROADS, height=height)
        for n in (-1, 2**26 + 1, 2**32 + 10):
            with self.assertRaisesRegex(ValueError, f"^n is {n}, "):
                labels(n, ROADS, height=1)

    def test_what_is_no_forest(self):
        cycle = Forest(np.array([0, 1, 0]), np.array([1, 2, 2]), np.array([1, 2, 3]), np.arange(3))
        for wrong in (cycle, cycle._replace(u=np.array([0, 0, 0]), v=np.array([1, 1, 2])), cycle._replace(v=np.array([0, 2, 3]))):
            with self.assertRaises(ValueError):
                labels(4, wrong, height=3)
            with self.assertRaises(ValueError):
                merges(4, wrong)
        for end in (-1, 4, 2**32, 2**32 + 1):
            for wrong in (cycle._replace(u=np.array([0, 1, end])), cycle._replace(v=np.array([end, 2, 3]))):
                with self.assertRaisesRegex(ValueError, f"is {end}, "):
                    labels(4, wrong, height=3)
                with self.assertRaisesRegex(ValueError, f"is {end}, "):
                    merges(4, wrong)
        # this is noticed wherever the forest is cut
        for given in ({"clusters": 1}, {"clusters": 2}, {"height": 9}, {"height": 0}):
            with self.assertRaisesRegex(ValueError, "^3 edges between 3 vertices close a cycle$"):
                labels(3, cycle, **given)
            with self.assertRaisesRegex(ValueError, r"^forest.v\[2\] is 9, "):
                labels(5, cycle._replace(v=np.array([1, 2, 9])), **given)
            with self.assertRaisesRegex(ValueError, r"shapes \(1,\), \(3,\), \(3,\), \(3,\), but need one length$"):
                labels(5, cycle._replace(u=np.array([0])), **given)
        for call in (lambda it: labels(3, it, clusters=2), lambda it: merges(3, it), lambda it: labels(it, 3, clusters=2)):
            with self.assertRaisesRegex(TypeError, "^forest is a (ndarray|int), but has to be a Forest"):
                call(single_linkage([[0], [1], [3]]))
        with self.assertRaisesRegex(ValueError, "edges don't connect"):
            merges(10, ROADS)


class Exact(unittest.TestCase):
    def expect_all_pairs(self, points):
        """The tree connects all points, by edges of just the lengths of the tree of all pairs but for rounding.

        It does both if few points are compared pair by pair and if they aren't.
        """
        expected = heights_of_all_pairs(points)
        for few in (_points.FEW, 0):
            with warnings.catch_warnings(), mock.patch("boruvka.linkage.FEW", few):
                # (two equal points of a plane look like distances)
                warnings.simplefilter("ignore", UserWarning)
                tree = spanning_tree(points)
            self.assertEqual(len(np.unique(labels(len(points), tree, height=np.inf))), 1)
            np.testing.assert_allclose(tree.w, expected, rtol=1e-13, atol=0)

    def test_points_of_all_kinds_in_1_to_50_dimensions(self):
        draw = np.random.default_rng(8)
        for dimensions in (1, 2, 3, 5, 9, 10, 50):
            for n in (2, 7, 120):
                for kind, points in enumerate(clouds(draw, n, dimensions)):
                    with self.subTest(dimensions=dimensions, n=n, kind=kind):
                        self.expect_all_pairs(points)

    def test_by_a_grid_too(self):
        """The grid is for many points, so here it is forced for few. Whether a grid fits depends on the points."""
        draw, fitting = np.random.default_rng(10), []

        def fitting_grid(columns):
            fitting.append(own(columns))
            return fitting[-1]

        own = _rounds.fitting_grid
        with mock.patch("boruvka._grid._FEW", 2), mock.patch("boruvka._rounds.fitting_grid", fitting_grid):
            for dimensions in (2, 3):
                for n in (3, 50, 200):
                    for kind, points in enumerate(clouds(draw, n, dimensions)):
                        with self.subTest(dimensions=dimensions, n=n, kind=kind):
                            self.expect_all_pairs(points)
                for width in (1e-9, 1e-3, 0.1, 30):
                    rounded = np.round(draw.normal(size=(150, dimensions)) / width) * width
                    self.expect_all_pairs(rounded + draw.choice([0, 1, 100], (150, 1)))
        self.assertGreater(sum(it is not None for it in fitting), len(fitting) // 3)

    def test_as_many_as_a_grid_is_worth(self):
        draw = np.random.default_rng(11)
        for points in (draw.random((5000, 2)), draw.normal(size=(5000, 3)), np.round(draw.random((5000, 2)), 2)):
            if there("scipy"):
                self.assertIsNotNone(_rounds.fitting_grid(points.T))
            for pattern in WORDS:
                found = spanning_tree(points, **pattern).w
                with mock.patch("boruvka._rounds.fitting_grid", lambda _: None):
                    np.testing.assert_allclose(found, spanning_tree(points, **pattern).w, rtol=1e-13, atol=0)
            if hierarchy:
                expected = hierarchy.linkage(points, "single")[:, 2]
                np.testing.assert_allclose(spanning_tree(points).w, expected, rtol=1e-12, atol=0)

    def test_pieces_of_work_are_all_points_in_their_order(self):
        points = np.arange(3000)
        for width in (1, 8, 1 << 15, 1 << 16, 1 << 20, 1 << 22):
            found = list(islice(_rounds.paced(points, width), 4000))
            self.assertEqual(np.concatenate(found).tolist(), points.tolist())
            self.assertLessEqual(max(map(len, found)), max(_points.PIECE // width, 1))

    def test_by_rows_too(self):
        draw = np.random.default_rng(9)
        with mock.patch("boruvka._points.trees_for", lambda _: None):
            for dimensions in (2, 3, 9):
                for points in clouds(draw, 60, dimensions):
                    self.expect_all_pairs(points)

    def test_almost_in_a_line_or_a_plane(self):
        draw = np.random.default_rng(14)
        line = np.outer(draw.random(250), [1, 1, 1]) + draw.normal(size=(250, 3)) * 1e-13
        self.expect_all_pairs(line)
        self.expect_all_pairs(line[:, :2])
        plane = draw.random((250, 2)) @ [[1, 0, 2], [0, 1, -1]] + draw.normal(size=(250, 3)) * 1e-14
        self.expect_all_pairs(plane)

    def test_the_ends_of_doubles(self):
        draw = np.random.default_rng(15)
        for dimensions in (1, 2, 3, 12):
            for scale in (1e-320, 1e-300, 1e-160, 1e149, 1e150, 1e153, 1e300, 1e307):
                self.expect_all_pairs(draw.random((200, dimensions)) * scale)
            sizes = 10.0 ** draw.integers(-320, 300, (80, 1))
            self.expect_all_pairs(draw.normal(size=(80, dimensions)) * sizes)
        for points_given in ([[1e-300, 0], [3e-300, 0], [1e300, 0], [1e300, 2e290]], [[5e-324, 0], [0, 5e-324], [1e308, 0]], [[1e200, 0], [0, 1], [0, 2]]):
            self.expect_all_pairs(points_given)
        # each coordinate of the vector is a double, but its length isn't
        self.assertEqual(spanning_tree([[-1.5e308], [0], [1.5e308]]).w.tolist(), [1.5e308] * 2)
        with warnings.catch_warnings():
            warnings.simplefilter("error")
            for tiny, pattern in [(0, {"metric": "minkowski", "p": 18}), (1e-300, {}), (1e-300, {"metric": "manhattan"}), (1e-300, {"min_samples": 2})]:
                tree = spanning_tree([[-1.5e308, tiny], [0, 0], [1.5e308, 0]], **pattern)
                self.assertEqual(tree.w.tolist(), [1.5e308] * 2)

    def test_when_all_pairs_are_looked_at(self):
        """By p and by the ratio of coordinates, as the notes of spanning_tree say; zeros don't count."""
        if not hierarchy:
            self.skipTest("there is no scipy")
        for p, bits, is_fast in [
            (2, 421, True), (2, 422, False), (1, 896, True), (1, 897, False), (10, 41, True), (10, 42, False), (17, 2, True), (17, 3, False),
            (17.9, 0, True), (18, 0, False), (1e9, 0, False), (math.inf, 896, True), (math.inf, 897, False),
        ]:  # fmt: skip
            points = np.array([[1.0, 2.0**-bits], [0.0, 1.0]])
            with self.subTest(p=p, bits=bits):
                self.assertEqual(_points.trees_for(_points.Space(points, p)) is not None, is_fast)
        draw = np.random.default_rng(22)
        even, centres = draw.random((4000, 33)), draw.random((20, 33)) * 10
        apart = centres[draw.integers(20, size=4000)] + draw.normal(size=(4000, 33))
        for points, dimensions, is_fast in [
            (even, 1, True), (even, 6, True), (even, 10, True), (even, 24, False), (even[:2000], 24, True), (even, 33, False),
            (apart, 1, True), (apart, 10, True), (apart, 24, True), (apart, 33, False),
        ]:  # fmt: skip
            with self.subTest(dimensions=dimensions, n=len(points)):
                space = _points.Space(points[:, :dimensions], 2)
                self.assertEqual(_points.trees_for(space) is not None, is_fast)

    def test_many_copies(self):
        draw = np.random.default_rng(16)
        for dimensions in (2, 3, 10):
            points = draw.integers(0, 2, (3000, dimensions)).astype(float)
            places = np.unique(points, axis=0)
            heights = spanning_tree(points).w
            self.assertEqual(heights.tolist(), [0.0] * (3000 - len(places)) + [1.0] * (len(places) - 1))

    @unittest.skipUnless(hierarchy, "there is no scipy")
    def test_larger_ones_compared_with_scipys(self):
        draw = np.random.default_rng(17)
        for dimensions in (2, 4, 8, 30):
            for kind, points in enumerate(clouds(draw, 2000, dimensions)):
                with self.subTest(dimensions=dimensions, kind=kind):
                    scale = 2.0 ** np.frexp(np.abs(points).max())[1]
                    expected = hierarchy.linkage(points / scale, "single")[:, 2] * scale
                    np.testing.assert_allclose(spanning_tree(points).w, expected, rtol=1e-12, atol=0)


@unittest.skipUnless(hierarchy, "there is no scipy")
class Clustered(unittest.TestCase):
    """Points in separated clusters, in a few groups: bounds between these select the pairs that are compared."""

    def heights(self, points, nearest=None, **pattern):
        """By scipy's distances and single linkage."""
        distances = pdist(points, **pattern)
        if nearest:
            square = squareform(distances)
            core = np.sort(square, axis=1)[:, nearest - 1]
            distances = squareform(np.maximum(np.maximum(square, core[:, None]), core[None]) * (1 - np.eye(len(points))))
        return hierarchy.linkage(distances, "single")[:, 2]

    def groups(self, draw, n, dimensions):
        """Points in groups of several kinds, all of them separated except the last."""
        centres, which = draw.random((7, dimensions)) * 30, draw.integers(0, 7, n)
        apart = draw.normal(size=(n, dimensions))
        yield centres[which] + apart
        yield centres[which] + 1e-6 * apart
        yield 1e9 + centres[which] + apart
        yield np.round(centres[which] + apart)
        yield np.where(which[:, None] < 3, centres[which] + apart, 100 * apart)
        # concentric rings
        yield (1 + which[:, None] // 2 * 3) * apart / np.linalg.norm(apart, axis=1)[:, None]
        yield apart * [9] + which[:, None] / 2

    def test_each_metric_and_mutual_reachability(self):
        draw, compared = np.random.default_rng(23), []

        def lightest(self, *given):
            compared.append(own(self, *given))
            return compared[-1]

        own = Across.lightest
        with mock.patch.object(Across, "lightest", lightest), mock.patch("boruvka._across._WORTH", 0):
            for dimensions in (2, 3, 6, 9):
                for kind, points in enumerate(self.groups(draw, 500, dimensions)):
                    for pattern in ({}, {"metric": "cityblock"}, {"metric": "chebyshev"}, {"metric": "minkowski", "p": 1.5}):
                        for nearest in (None, 6):
                            with self.subTest(dimensions=dimensions, kind=kind, nearest=nearest, **pattern):
                                found = spanning_tree(points, **pattern, min_samples=nearest).w
                                np.testing.assert_allclose(found, self.heights(points, nearest, **pattern), rtol=1e-9 if kind == 2 else 1e-12, atol=0)
        self.assertGreater(len(compared), 100)

    def test_where_few_pairs_are_compared_or_all(self):
        draw = np.random.default_rng(24)
        for pairs, ends in [(0, 1), (0, 32), (1 << 40, 1), (4, 3)]:
            with mock.patch.multiple("boruvka._across", _PAIRS=pairs, _ENDS=ends, _NEAR=50, _WORTH=0):
                for dimensions in (2, 8):
                    for kind, points in enumerate(self.groups(draw, 400, dimensions)):
                        for nearest in (None, 4):
                            with self.subTest(pairs=pairs, ends=ends, dimensions=dimensions, kind=kind, nearest=nearest):
                                found = spanning_tree(points, min_samples=nearest).w
                                np.testing.assert_allclose(found, self.heights(points, nearest), rtol=1e-9 if kind == 2 else 1e-12, atol=0)

    def test_bounds_are_below_all_distances(self):
        draw = np.random.default_rng(25)
        for p in (1.0, 1.1, 2.0, 3.5, np.inf):
            for dimensions in (2, 5, 20):
                for kind, points in enumerate(self.groups(draw, 90, dimensions)):
                    space, group = _points.Space(points, p), draw.integers(0, 5, 90).astype(np.int32)
                    gaps = Across(space, None, group, 5).gaps
                    one, other = np.triu_indices(90, 1)
                    with self.subTest(p=p, dimensions=dimensions, kind=kind):
                        self.assertTrue((gaps[group[one], group[other]] <= space.lengths(one, other)).all())
                        # (for two groups of one point each the bound is their distance)
                        two = _points.Space(points[:2], p)
                        alone = Across(two, None, np.array([0, 1], np.int32), 2).gaps[0, 1]
                        self.assertGreater(alone, two.lengths(np.array([0]), np.array([1]))[0] * (1 - 1e-6) - 1e-9)


class Lengths(unittest.TestCase):
    """A length depends on its two points alone, and lengths from two sources are compared with a margin."""

    def test_a_length_depends_on_its_two_points_alone(self):
        draw = np.random.default_rng(26)
        for dimensions in (1, 2, 7, 8, 9, 16, 20, 33, 130):
            points = draw.normal(size=(40, dimensions))
            for p in (1.0, 2.0, 2.5, np.inf):
                space = _points.Space(points, p)
                steps = space.columns[:, 1:] - space.columns[:, :1]
                expected = space.norms(steps.copy()).tolist()
                with self.subTest(dimensions=dimensions, p=p):
                    self.assertEqual(space.norms(steps.copy(order="F")).tolist(), expected)
                    self.assertEqual([space.norms(steps[:, it : it + 1].copy())[0] for it in range(39)], expected)
                    self.assertEqual([space.norms(steps[:, it - 1 : it + 1].copy())[-1] for it in range(1, 39)], expected[1:])
                    self.assertEqual(space.norms(-steps).tolist(), expected)

    def test_heights_are_lengths_of_the_pairs_to_the_last_bit(self):
        """So do the lengths from trees, from a grid and from rows, and core distances."""
        draw = np.random.default_rng(27)
        for dimensions, n in [(2, 5000), (3, 5000), (5, 400), (9, 400), (40, 400)]:
            points = draw.normal(size=(n, dimensions))
            space = _points.Space(points, 2)
            tree = spanning_tree(points)
            self.assertEqual(tree.w.tolist(), space.heights(tree.u, tree.v).tolist())
            if n < 1000:
                one, other = np.triu_indices(n, 1)
                square = np.zeros((n, n))
                square[one, other] = square[other, one] = space.heights(one, other)
                core = np.sort(square, axis=1)[:, 4]
                tree = spanning_tree(points, min_samples=5)
                self.assertEqual(tree.w.tolist(), np.maximum(square, np.maximum(core[:, None], core))[tree.u, tree.v].tolist())

    @unittest.skipUnless(hierarchy, "there is no scipy")
    def test_lengths_that_differ_by_the_last_bit_around_the_reach_of_a_grid(self):
        """Two clouds, and an edge between them whose length is the grid's reach for numpy, and a bit less for a k-d tree."""
        for seed in (1, 3, 4):
            points = self.beside_the_reach(seed, 2.5)
            self.assertIsNotNone(points)
            # (also reversed, because only one endpoint notes the edge)
            for given in (points, [2.04, 0] + points * [-1, 1]):
                expected = hierarchy.linkage(pdist(given, "minkowski", p=2.5), "single")[:, 2]
                found = spanning_tree(given, metric="minkowski", p=2.5).w
                np.testing.assert_allclose(found, expected, rtol=1e-12, atol=0)

    def beside_the_reach(self, seed, p):
        """About 5,000 points in two clouds, with a pair at their facing edges that is so far apart; or None."""
        from scipy.spatial import cKDTree

        draw = np.random.default_rng(seed)
        left, right = draw.random((2600, 2)), draw.random((2400, 2)) + [1.04, 0]
        left = left[(left[:, 0] < 0.97) | (left[:, 0] < 0.985) & (abs(left[:, 1] - 0.5) < 0.1)]
        right = right[(right[:, 0] > 1.06) | (right[:, 0] > 1.045) & (abs(right[:, 1] - 0.5) < 0.1)]
        # (so that the last two points don't change the grid)
        left[0], right[0] = (0, 0), (2.04, 1)
        one = np.array([1.0, 0.5])
        made = [np.concatenate([left, right, [one, [1.03, 0.5]]])]
        space, reach = self.reach_of(made[0], p)
        unit, heights = 2.0**space.scale, 0.5 + draw.random(50_000) * 0.01
        steps = (reach**p - ((heights - 0.5) * unit) ** p) ** (1 / p) / unit
        for bits in range(-3, 4):
            places = 1.0 + steps + bits * np.spacing(1.0 + steps)
            lengths = space.norms(np.stack([(1.0 - places) * unit, (0.5 - heights) * unit]))
            for it in np.flatnonzero(np.abs(lengths - reach) <= 3 * np.spacing(reach)):
                other = np.array([places[it], heights[it]])
                shorter = cKDTree([one * unit]).query(other[None] * unit, [1], p=p)[0][0, 0]
                if lengths[it] >= reach > shorter:
                    made.append(np.concatenate([left, right, [one, other]]))
                    return made[1] if self.reach_of(made[1], p)[1] == reach else None
        return None

    def reach_of(self, points, p):
        space = _points.Space(points, p)
        grid = _rounds.fitting_grid(space.columns)
        return space, 0.0 if grid is None else grid.reach


WORDS = [{}, {"metric": "manhattan"}, {"metric": "chebyshev"}, {"metric": "minkowski", "p": 2.5}, {"min_samples": 6}]
METRICS = {
    "euclidean": math.dist,
    "manhattan": lambda a, b: math.fsum(abs(x - y) for x, y in zip(a, b)),
    "chebyshev": lambda a, b: max(abs(x - y) for x, y in zip(a, b)),
    "minkowski": lambda a, b: math.fsum(abs(x - y) ** 3 for x, y in zip(a, b)) ** (1 / 3),
    "haversine": lambda a, b: 2 * math.asin(math.sqrt(math.sin((a[0] - b[0]) / 2) ** 2 + math.cos(a[0]) * math.cos(b[0]) * math.sin((a[1] - b[1]) / 2) ** 2)),
    "cosine": lambda a, b: 1 - math.fsum(x * y for x, y in zip(a, b)) / math.hypot(*a) / math.hypot(*b),
}


class Metrics(unittest.TestCase):
    def heights(self, points, metric, nearest=1):
        """The heights of the tree of mutual reachability by Kruskal's algorithm on all pairs."""
        rows = points.tolist()
        lengths = [[METRICS[metric](a, b) if a is not b else 0.0 for b in rows] for a in rows]
        core = [sorted(it)[nearest - 1] for it in lengths]
        pairs = list(combinations(range(len(rows)), 2))
        heights = [max(lengths[i][j], core[i], core[j]) for i, j in pairs]
        order = sorted(range(len(pairs)), key=heights.__getitem__)
        return [heights[it] for it in kruskal(len(rows), [it[0] for it in pairs], [it[1] for it in pairs], order)]

    def test_each_metric_and_mutual_reachability(self):
        draw = np.random.default_rng(18)
        for metric in METRICS:
            for dimensions in (2, 12):
                if metric == "haversine" and dimensions > 2:
                    continue
                points = draw.normal(size=(50, dimensions)) * 0.4
                points[40:] = points[:10]
                pattern = {"metric": metric, "p": 3} if metric == "minkowski" else {"metric": metric}
                for nearest in (1, 4, 50):
                    with self.subTest(metric=metric, dimensions=dimensions, nearest=nearest):
                        found = spanning_tree(points, **pattern, min_samples=nearest).w
                        np.testing.assert_allclose(found, self.heights(points, metric, nearest), rtol=1e-7, atol=1e-12)
                plain = spanning_tree(points, **pattern)
                np.testing.assert_allclose(plain.w, self.heights(points, metric), rtol=1e-7, atol=1e-12)
                self.assertEqual(single_linkage(points, **pattern)[:, 2].tolist(), plain.w.tolist())

    def test_mutual_reachability_of_points_of_all_kinds(self):
        draw = np.random.default_rng(19)
        for dimensions in (1, 3, 10):
            for kind, points in enumerate(clouds(draw, 60, dimensions)):
                with self.subTest(dimensions=dimensions, kind=kind):
                    found = spanning_tree(points, min_samples=4).w
                    np.testing.assert_allclose(found, self.heights(np.asarray(points, float), "euclidean", 4), rtol=1e-13)

    def test_distances_of_all_pairs(self):
        """As a square, up to rounding, and in one dimension, with mutual reachability too."""
        draw = np.random.default_rng(31)
        for n in (2, 3, 30):
            points = draw.normal(size=(n, 4))
            square = np.array([[math.dist(a, b) for b in points] for a in points])
            rounded = square * (1 + 1e-14 * draw.integers(0, 9, square.shape)) + np.diag(1e-9 * draw.random(n))
            low, high = np.triu_indices(n, 1)
            for nearest in (None, 1, 2, n):
                expected = self.heights(points, "euclidean", nearest or 1)
                for given in (square, rounded, square[low, high], square.tolist()):
                    with self.subTest(n=n, nearest=nearest):
                        tree = spanning_tree(given, metric="precomputed", min_samples=nearest)
                        np.testing.assert_allclose(tree.w, expected, rtol=1e-12)
                        self.assertEqual((low[tree.index].tolist(), high[tree.index].tolist()), (tree.u.tolist(), tree.v.tolist()))
            self.assertEqual(single_linkage(square, metric="precomputed").tolist(), single_linkage(square[low, high]).tolist())
        self.assertEqual(len(spanning_tree([[0.0]], metric="precomputed")), 0)
        # (more of them, which are compared block by block)
        points = draw.normal(size=(600, 2))
        one, other = np.triu_indices(600, 1)
        square = np.zeros((600, 600))
        square[one, other] = square[other, one] = [math.dist(points[i], points[j]) for i, j in zip(one.tolist(), other.tolist())]
        np.testing.assert_allclose(spanning_tree(square, metric="precomputed").w, spanning_tree(points).w, rtol=1e-12)
        for place, number in [((590, 270), 7.25), ((3, 599), -1.0)]:
            wrong = square.copy()
            wrong[place] = number
            with self.assertRaisesRegex(ValueError, rf"y\[{place[0]}, {place[1]}\] is {number}"):
                spanning_tree(wrong, metric="precomputed")
        # (the lesser of (i, j) and (j, i) counts, and the array isn't written)
        given = np.array([[0, 1 + 1e-7], [1.0, 1e-9]])
        self.assertEqual(spanning_tree(given, metric="precomputed").w.tolist(), [1.0])
        self.assertEqual(given.tolist(), [[0, 1 + 1e-7], [1.0, 1e-9]])

    def test_latitudes_and_longitudes(self):
        """Munich, Paris and London, compared with a table of air distances in kilometres."""
        latitude, longitude = np.radians([48.137, 48.857, 51.507]), np.radians([11.575, 2.351, -0.128])
        expected = [344, 685]
        rows = np.column_stack([latitude, longitude])
        np.testing.assert_allclose(spanning_tree(rows, metric="haversine").w * 6371, expected, rtol=0.01)

    @unittest.skipUnless(there("pandas"), "there is no pandas")
    def test_names_of_columns_say_which_is_the_latitude(self):
        import pandas

        latitude, longitude = np.radians([48.137, 48.857, 51.507]), np.radians([11.575, 2.351, -0.128])
        for north, east in [("lat", "lon"), ("Latitude", "Longitude"), ("lat", "lng"), (" lat", "long ")]:
            for columns in ({north: latitude, east: longitude}, {east: longitude, north: latitude}):
                with warnings.catch_warnings():
                    warnings.simplefilter("error")
                    tree = spanning_tree(pandas.DataFrame(columns), metric="haversine")
                np.testing.assert_allclose(tree.w * 6371, [344, 685], rtol=0.01)
        for names in (("x", "y"), ("X", "Y"), ("east", "north"), ("easting", "northing")):
            with self.assertWarnsRegex(UserWarning, f"^the columns '{names[0]}' and '{names[1]}' are taken as latitude and longitude: ") as output:
                spanning_tree(pandas.DataFrame(dict(zip(names, (longitude, latitude)))), metric="haversine")
            self.assertEqual(output.filename, __file__)
        with warnings.catch_warnings():
            warnings.simplefilter("error")
            spanning_tree(pandas.DataFrame({"y": latitude, "x": longitude}), metric="haversine")
            spanning_tree(pandas.DataFrame({"x": latitude, "y": longitude}))
            spanning_tree(pandas.DataFrame({"a": latitude, "b": longitude}), metric="haversine")

    def test_swapped_columns_without_names(self):
        """There is a warning if a latitude is near a pole, and every longitude could be a latitude."""
        chicago, saint_louis, oslo, tromso, suva = np.radians([[41.9, -87.6], [38.6, -90.2], [59.9, 10.8], [69.6, 19.0], [-18.1, 178.4]])
        with self.assertWarnsRegex(UserWarning, r"^the latitude of the point 1 is -1\.528\d*, near a pole, and every longitude could be a latitude: the columns may be swapped\. The latitude comes first$") as caught:
            spanning_tree([saint_louis[::-1] + [0.1, 0], chicago[::-1]], metric="haversine")
        self.assertEqual(caught.filename, __file__)
        with self.assertRaisesRegex(ValueError, r"^the latitude of the point 0 is -1\.574\d*, beyond a right angle: y\[:, ::-1\] puts latitudes before longitudes$"):
            spanning_tree([saint_louis[::-1], chicago[::-1]], metric="haversine")
        with warnings.catch_warnings():
            warnings.simplefilter("error")
            for points in ([chicago, saint_louis], [oslo, tromso, suva], [oslo[::-1], tromso[::-1]], np.radians([[89.0, 10.0], [80.0, -170.0]]), np.radians([[75.0, 0.0], [-75.0, 1.0]])):
                spanning_tree(points, metric="haversine")

    def test_rejected(self):
        points = np.zeros((4, 3))
        for pattern, given in [
            ("^there is no metric 'euclid': it is one of euclidean, ", {"metric": "euclid"}),
            ("^p is 0.5, ", {"metric": "minkowski", "p": 0.5}),
            ("^p is nan, ", {"metric": "minkowski", "p": math.nan}),
            ("^min_samples is 0, but has to be from 1 to 4", {"min_samples": 0}),
            ("^min_samples is 5, ", {"min_samples": 5}),
            ("^y has 3 columns, but haversine takes two", {"metric": "haversine"}),
            ("^the point 0 is 0, which has no direction", {"metric": "cosine"}),
        ]:
            for call in (spanning_tree, single_linkage):
                with self.assertRaisesRegex(ValueError, pattern):
                    call(points, **given)
        with self.assertRaisesRegex(ValueError, "^the latitude of the point 1 is 51.5, .*radians"):
            spanning_tree([[0, 0], [51.5, 0.1]], metric="haversine")
        with self.assertRaisesRegex(ValueError, "^the latitude of the point 0 is 1.6, beyond a right angle"):
            spanning_tree([[1.6, 0], [0, 0]], metric="haversine")
        with self.assertRaisesRegex(ValueError, r"^the latitude of the point 1 is -2.5, beyond a right angle: y\[:, ::-1\] puts latitudes before longitudes$"):
            spanning_tree([[0.5, 0.7], [-2.5, 0.6]], metric="haversine")
        poles = spanning_tree([[np.pi / 2, 0], [-np.pi / 2, 0]], metric="haversine")
        self.assertEqual(poles.w.tolist(), [np.pi])
        for given in ({"metric": "cosine"}, {"min_samples": 2}, {"p": 3}, {"p": "2"}):
            with self.assertRaisesRegex(TypeError, "^y is an array of one dimension, so it has distances: "):
                spanning_tree([1.0, 2.0, 3.0], **given)
        with self.assertRaises(TypeError):
            spanning_tree(points, min_samples=2.5)


class Drawn(unittest.TestCase):
    def test_labels_of_drawn_forests(self):
        for seed in range(200):
            graph = Graph(seed)
            forest = minimum_spanning_forest(graph.n, *graph.held)
            k = len(forest.w)
            for kept in {0, k // 2, k}:
                with self.subTest(seed=seed, kept=kept):
                    components = Components(graph.n)
                    for u, v in zip(forest.u[:kept].tolist(), forest.v[:kept].tolist()):
                        components.join(u, v)
                    roots = [components.root(it) for it in range(graph.n)]
                    expected = [sorted(set(roots)).index(it) for it in roots]
                    self.assertEqual(labels(graph.n, forest, clusters=graph.n - kept).tolist(), expected)
                    backwards = Forest(*(it[:kept][::-1] for it in forest))
                    self.assertEqual(labels(graph.n, backwards, clusters=graph.n - kept).tolist(), expected)


@unittest.skipUnless(hierarchy, "there is no scipy")
class Scipys(unittest.TestCase):
    def test_drawn_points(self):
        draw = np.random.default_rng(3)
        for n, dimensions in [(2, 1), (3, 2), (40, 5), (60, 2), (160, 1), (160, 2), (160, 3), (300, 2)]:
            for kind, points in enumerate(clouds(draw, n, dimensions)):
                with self.subTest(n=n, dimensions=dimensions, kind=kind):
                    self.expect_scipys(single_linkage(points), pdist(points), kind == 0)

    def test_drawn_distances(self):
        draw = np.random.default_rng(4)
        for n in (2, 3, 10, 60):
            for distances in (draw.random(n * (n - 1) // 2), draw.integers(0, 4, n * (n - 1) // 2).astype(float)):
                found = single_linkage(distances)
                self.expect_scipys(found, distances, len(set(distances)) == len(distances))
                self.assertEqual(found[:, 2].tolist(), hierarchy.linkage(distances, "single")[:, 2].tolist())

    def expect_scipys(self, found, distances, is_exact):
        """Scipy's matrix if no two distances are equal; otherwise the same clusters at each height."""
        expected = hierarchy.linkage(distances, "single")
        self.assertTrue(hierarchy.is_valid_linkage(found))
        np.testing.assert_allclose(found[:, 2], expected[:, 2], rtol=1e-9, atol=1e-9)
        if is_exact:
            self.assertEqual(found[:, [0, 1, 3]].tolist(), expected[:, [0, 1, 3]].tolist())
        np.testing.assert_allclose(hierarchy.cophenet(found), hierarchy.cophenet(expected), rtol=1e-9, atol=1e-9)

    @unittest.skipUnless(there("fastcluster"), "there is no fastcluster")
    def test_points_compared_with_fastclusters(self):
        import fastcluster

        draw = np.random.default_rng(32)
        for n, dimensions in [(100, 2), (400, 3), (400, 10), (400, 40)]:
            centres = draw.random((8, dimensions)) * 10
            points = centres[draw.integers(8, size=n)] + draw.normal(size=(n, dimensions))
            found, expected = single_linkage(points), fastcluster.linkage_vector(points, "single")
            self.assertEqual(found[:, [0, 1, 3]].tolist(), expected[:, [0, 1, 3]].tolist())
            np.testing.assert_allclose(found[:, 2], expected[:, 2], rtol=1e-12)

    def test_distances_of_a_sparse_matrix(self):
        from scipy.sparse import coo_matrix
        from scipy.sparse.csgraph import connected_components

        draw = np.random.default_rng(20)
        for form in ("csr", "coo", "lil"):
            rows, columns, lengths = draw.integers(0, 60, 90), draw.integers(0, 60, 90), draw.random(90)
            given = coo_matrix((lengths, (rows, columns)), shape=(60, 60))
            given.sum_duplicates()
            given = given.asformat(form)
            forest = spanning_tree(given)
            self.assertEqual(given.tocoo().data[forest.index].tolist(), forest.w.tolist())
            matrix, summed = np.full((60, 60), np.inf), given.toarray()
            matrix[summed > 0] = summed[summed > 0]
            parts = connected_components(np.isfinite(matrix), directed=False)[0]
            self.assertEqual(len(forest.w), 60 - parts)
            low, high = np.triu_indices(60, 1)
            lightest = np.minimum(matrix, matrix.T)[low, high]
            order = [int(it) for it in np.argsort(lightest) if np.isfinite(lightest[it])]
            self.assertEqual(forest.w.tolist(), [lightest[it] for it in kruskal(60, low.tolist(), high.tolist(), order)])
        for wrong, pattern in [(coo_matrix((2, 3)), "square"), (coo_matrix(([-1.0], ([0], [1])), shape=(2, 2)), "negative"), (coo_matrix(([np.nan], ([0], [1])), shape=(2, 2)), "finite")]:
            with self.assertRaisesRegex(ValueError, pattern):
                spanning_tree(wrong)
        with self.assertRaisesRegex(TypeError, "^y is a sparse matrix, so it has distances"):
            spanning_tree(coo_matrix((3, 3)), min_samples=2)

    @unittest.skipUnless(there("sklearn"), "there is no scikit-learn")
    def test_cuts_of_mutual_reachability_are_dbscans_core_points(self):
        from sklearn.cluster import DBSCAN

        draw = np.random.default_rng(21)
        for dimensions in (2, 6, 15):
            points = np.concatenate([draw.normal(size=(200, dimensions)), draw.normal(3, 0.5, (150, dimensions)), draw.uniform(-6, 6, (100, dimensions))])
            for nearest in (2, 5, 12):
                tree = spanning_tree(points, min_samples=nearest)
                for height in np.quantile(tree.w, [0.2, 0.5, 0.8, 0.95]) * (1 + 1e-9):
                    found = DBSCAN(eps=height, min_samples=nearest).fit(points)
                    core = found.core_sample_indices_
                    self.expect_same_parts(labels(len(points), tree, height=height)[core], found.labels_[core])

    def test_clusters_of_points(self):
        draw = np.random.default_rng(5)
        points = draw.normal(size=(500, 2))
        tree, matrix = spanning_tree(points), hierarchy.linkage(points, "single")
        for clusters in (1, 2, 7, 100, 500):
            self.expect_same_parts(labels(500, tree, clusters=clusters), hierarchy.cut_tree(matrix, clusters)[:, 0])
        for height in (0.01, 0.1, 0.3, 2.0):
            self.expect_same_parts(labels(500, tree, height=height), hierarchy.fcluster(matrix, height, "distance"))

    def expect_same_parts(self, one, other):
        pairs = set(zip(one.tolist(), other.tolist()))
        self.assertEqual((len(pairs), len(pairs)), (len(set(one.tolist())), len(set(other.tolist()))))

    def test_without_scipy(self):
        points = np.random.default_rng(7).normal(size=(200, 2))
        expected = single_linkage(points)
        with mock.patch.dict("sys.modules", {"scipy": None, "scipy.spatial": None}):
            np.testing.assert_allclose(single_linkage(points), expected, rtol=1e-12)


if __name__ == "__main__":
    unittest.main()
