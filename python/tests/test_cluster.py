"""The estimators, compared with their definitions, with scikit-learn's estimators, and by its checks."""

import unittest

import numpy as np

try:
    import pandas
except ImportError:
    pandas = None
try:
    import matplotlib
except ImportError:
    matplotlib = None
try:
    import sklearn
except ImportError:
    sklearn = None
else:
    from boruvka.cluster import HDBSCAN, SingleLinkage


def components(near):
    """The components of a graph, as sorted lists; `near` has the adjacent vertices."""
    left, found = set(range(len(near))), []
    while left:
        waiting, part = [left.pop()], []
        while waiting:
            here = waiting.pop()
            part.append(here)
            adjacent = {it for it in left if near[here][it]}
            left -= adjacent
            waiting += adjacent
        found.append(sorted(part))
    return found


class Definition:
    """HDBSCAN by its definition: a cluster splits at each height of a pair within it, from the greatest on."""

    def __init__(self, points, least, nearest):
        gaps = np.sqrt(((points[:, None] - points[None]) ** 2).sum(axis=2))
        core = np.sort(gaps, axis=1)[:, nearest - 1]
        self.reach, self.least = np.maximum(gaps, np.maximum(core[:, None], core[None])), least
        np.fill_diagonal(self.reach, 0)
        self.taken = self.best(list(range(len(points))), 0.0, True)[1]

    def best(self, members, birth, is_whole=False):
        """The stability of the best selection among these clusters, and the selection, with the points of each."""
        whole, lasting = members, 0.0
        while True:
            among = self.reach[np.ix_(members, members)]
            heights = np.unique(among[np.triu_indices(len(members), 1)])
            # the greatest height below which they aren't connected; they aren't connected below lesser ones either
            low, high = 0, len(heights)
            while high - low > 1:
                middle = (low + high) // 2
                low, high = (middle, high) if len(components(among < heights[middle])) > 1 else (low, middle)
            height = heights[low]
            parts = components(among < height)
            density = 1 / height
            parts = [[members[it] for it in part] for part in parts]
            large = [it for it in parts if len(it) >= self.least]
            staying = len(large[0]) if len(large) == 1 else 0
            lasting += (len(members) - staying) * (density - birth)
            if len(large) != 1:
                break
            (members,) = large
        inner = [self.best(it, density) for it in large]
        if is_whole or sum(it[0] for it in inner) > lasting:
            return sum(it[0] for it in inner), [one for it in inner for one in it[1]]
        return lasting, [whole]


class Node:
    """A cluster by its definition: its points, the height at which it is born, and the heights at which its points leave."""

    def __init__(self, reach, least, members, born, parent=None):
        self.members, self.born, self.parent, self.leaves, self.children = members, born, parent, {}, []
        staying = members
        while staying:
            among = reach[np.ix_(staying, staying)]
            heights = np.unique(among[np.triu_indices(len(staying), 1)])
            # (they are connected only at heights above the one at which they split)
            height = max(it for it in heights if len(components(among < it)) > 1)
            parts = [[staying[it] for it in part] for part in components(among < height)]
            large = [it for it in parts if len(it) >= least]
            staying = large[0] if len(large) == 1 else []
            self.leaves.update((it, height) for part in parts for it in part if part is not staying)
            if len(large) > 1:
                self.children = [Node(reach, least, it, height, self) for it in large]

    def all(self):
        """This cluster and those within it."""
        return [self, *(it for child in self.children for it in child.all())]

    def lasting(self):
        return sum(1 / it - 1 / self.born for it in self.leaves.values())

    def best(self, most, whole):
        """The stability of the best selection among this cluster and those within it, and the selection."""
        found = [it.best(most, whole) for it in self.children]
        lasting, choice = sum(it[0] for it in found), [it for one in found for it in one[1]]
        if lasting > self.lasting() or len(self.members) > most or not (self.parent or whole):
            return lasting, choice
        return self.lasting(), [self]

    def last(self, point):
        """The last cluster of a point."""
        return next((it.last(point) for it in self.children if point in it.members), self)

    def end(self):
        """The height at which it ends."""
        return min(self.leaves.values())


def whole_of(points, least, nearest):
    """The cluster of all points, and within it all others."""
    gaps = np.sqrt(((points[:, None] - points[None]) ** 2).sum(axis=2))
    core = np.sort(gaps, axis=1)[:, nearest - 1]
    reach = np.maximum(gaps, np.maximum(core[:, None], core[None]))
    return Node(reach, least, list(range(len(points))), np.inf)


class Reference:
    """HDBSCAN by its definitions, on the clusters of `Node`."""

    def __init__(self, root, method="eom", epsilon=0.0, whole=False, most=np.inf):
        self.root, self.n, self.epsilon = root, len(root.members), epsilon
        taken = root.best(most, whole)[1] if method == "eom" else [it for it in root.all() if not it.children and (it.parent or whole)]
        self.taken = {self.climbed(it, epsilon, whole) for it in taken}

    def climbed(self, node, epsilon, whole):
        while node.parent and node.born < epsilon and (node.parent.parent or whole):
            node = node.parent
        return node

    def memberships(self):
        """The clusters as sorted lists, and the membership strength of each point."""
        parts, strengths = [], np.zeros(self.n)
        for node in self.taken:
            leaves = {it: self.root.last(it).leaves[it] for it in node.members}
            part = node.members
            if node is self.root:
                last = self.epsilon or node.end()
                part = [it for it in part if leaves[it] <= last]
            for it in part:
                strengths[it] = min(1, node.end() / leaves[it])
            # (epsilon may be below the height of every point)
            parts += [sorted(part)] if part else []
        return sorted(parts), strengths

    def outlier_scores(self):
        found = np.zeros(self.n)
        for point in range(self.n):
            node = self.root.last(point)
            found[point] = 1 - min(it.end() for it in node.all()) / node.leaves[point]
        return found

    def rows(self):
        """For each cluster: the heights at which points leave for good, and the sizes and heights of its children."""
        return sorted(
            (
                sorted(node.members),
                sorted(height for it, height in node.leaves.items() if node is self.root.last(it)),
                sorted((len(it.members), it.born) for it in node.children),
            )
            for node in self.root.all()
        )


def drawn_points(draw, kind, n=60):
    if kind == "even":
        return draw.random((n, 2))
    if kind == "grid":
        return draw.integers(0, 9, (n, 2)) + 1e-3 * draw.random((n, 1))
    centres = draw.normal(size=(4, 3)) * 6
    return centres[draw.integers(0, 4, n)] + draw.normal(size=(n, 3)) * draw.choice([0.3, 1.0], (n, 1))


@unittest.skipUnless(sklearn, "there is no scikit-learn")
class Density(unittest.TestCase):
    def test_clusters_are_those_of_the_definition(self):
        draw = np.random.default_rng(1)
        kinds = 0
        for kind in ("even", "grid", "clouds"):
            for least, nearest in [(2, 1), (3, 3), (5, 5), (5, 2), (8, 4)]:
                points = drawn_points(draw, kind)
                with self.subTest(kind=kind, least=least, nearest=nearest):
                    expected = Definition(points, least, nearest).taken
                    found = HDBSCAN(least, min_samples=nearest).fit(points)
                    kinds += len(expected) > 1
                    parts = [np.flatnonzero(found.labels_ == it).tolist() for it in range(found.labels_.max() + 1)]
                    self.assertEqual(sorted(parts), sorted(expected))
                    # (numbered by their first points)
                    self.assertEqual(parts, sorted(parts))
                    self.assertEqual((found.probabilities_ > 0).tolist(), (found.labels_ >= 0).tolist())
                    self.assertEqual({found.probabilities_[it].max() for it in parts}, {1.0} if parts else set())
        self.assertGreater(kinds, 5)

    def test_each_choice_of_clusters_is_that_of_the_definition(self):
        draw, counts = np.random.default_rng(7), {}
        for kind in ("even", "grid", "clouds"):
            for least, nearest in [(2, 1), (3, 2), (4, 6)]:
                points = drawn_points(draw, kind, 45)
                root = whole_of(points, least, nearest)
                born = sorted(it.born for it in root.all() if it.parent)
                sizes = sorted(len(it.members) for it in root.all())
                for word, choices in {
                    "cluster_selection_epsilon": [0.0, *(it * (1 + 1e-9) for it in born[:: max(len(born) // 3, 1)]), 1e9],
                    "max_cluster_size": [None, *(max(it, least) for it in sizes[:: max(len(sizes) // 3, 1)])],
                }.items():
                    for choice in choices:
                        for method in ("eom", "leaf"):
                            for single in (False, True):
                                made = HDBSCAN(least, min_samples=nearest, cluster_selection_method=method, allow_single_cluster=single, **{word: choice})
                                more = {"epsilon": choice} if "epsilon" in word else {"most": choice or np.inf}
                                expected = Reference(root, method, whole=single, **more)
                                with self.subTest(kind=kind, least=least, method=method, single=single, **{word: choice}):
                                    self.expect(made.fit(points), expected)
                                counts[word, method, single] = counts.get((word, method, single), set()) | {tuple(made.labels_)}
        # (each of these parameters makes a difference)
        self.assertEqual([it for it, found in counts.items() if len(found) < 9], [])

    def expect(self, found, expected):
        parts, strengths = expected.memberships()
        self.assertEqual([np.flatnonzero(found.labels_ == it).tolist() for it in range(found.labels_.max() + 1)], parts)
        np.testing.assert_allclose(found.probabilities_, strengths, rtol=1e-9)
        np.testing.assert_allclose(found.outlier_scores_, expected.outlier_scores(), rtol=1e-7, atol=1e-9)
        self.expect_rows(found.condensed_tree_.to_numpy(), expected)

    def expect_rows(self, rows, expected):
        """The condensed tree has the clusters of the definition, and their points leave at its heights."""
        n, members, found = expected.n, {}, []
        for it in sorted({*rows["parent"].tolist()}, reverse=True):
            own = rows[rows["parent"] == it]
            members[it] = sorted([each for child in own["child"].tolist() for each in (members[child] if child >= n else [child])])
            points, clusters = own[own["child"] < n], own[own["child"] >= n]
            self.assertTrue((points["child_size"] == 1).all())
            self.assertEqual(clusters["child_size"].tolist(), [len(members[child]) for child in clusters["child"].tolist()])
            found.append((members[it], sorted(1 / points["lambda_val"]), sorted(zip(clusters["child_size"].tolist(), 1 / clusters["lambda_val"]))))
        self.assertEqual(min(members), n)
        for (one, heights, births), (other, heights_wanted, births_wanted) in zip(sorted(found), expected.rows()):
            self.assertEqual((one, len(births)), (other, len(births_wanted)))
            np.testing.assert_allclose(heights, heights_wanted, rtol=1e-9)
            np.testing.assert_allclose(np.array(births).reshape(-1, 2), np.array(births_wanted).reshape(-1, 2), rtol=1e-9)

    def test_worked_examples_of_each_choice(self):
        def fit(points, **pattern):
            found = HDBSCAN(3, min_samples=1, **pattern).fit(np.array(points, float)[:, None])
            return found, found.labels_.tolist()

        # two pairs of triples: the triples of a pair are 2 apart, and the pairs are 24 apart. The stability of a triple
        # is 3 (1 - 1/2), that of a pair 6 (1/2 - 1/24).
        threes = [0, 1, 2, 4, 5, 6, 30, 31, 32, 34, 35, 36]
        four, two, one = [0] * 3 + [1] * 3 + [2] * 3 + [3] * 3, [0] * 6 + [1] * 6, [0] * 12
        self.assertEqual(fit(threes)[1], four)
        self.assertEqual(fit(threes, cluster_selection_epsilon=2)[1], four)
        self.assertEqual(fit(threes, cluster_selection_epsilon=2.5)[1], two)
        self.assertEqual(fit(threes, cluster_selection_epsilon=24)[1], two)
        self.assertEqual(fit(threes, cluster_selection_epsilon=25)[1], two)
        self.assertEqual(fit(threes, cluster_selection_epsilon=25, allow_single_cluster=True)[1], one)
        self.assertEqual(fit(threes, cluster_selection_method="leaf", cluster_selection_epsilon=2.5)[1], two)
        # triples that are 1.5 apart have the stability 3 (1 - 2/3), and pairs of them 6 (2/3 - 1/24)
        nearer = [0, 1, 2, 3.5, 4.5, 5.5, 30, 31, 32, 33.5, 34.5, 35.5]
        self.assertEqual(fit(nearer)[1], two)
        self.assertEqual(fit(nearer, max_cluster_size=6)[1], two)
        self.assertEqual(fit(nearer, max_cluster_size=5)[1], four)
        self.assertEqual(fit(nearer, cluster_selection_method="leaf")[1], four)
        # five in a row, and one that is 5 away
        row = [0, 1, 2, 3, 4, 9]
        self.assertEqual(fit(row)[1], [-1] * 6)
        found, labels = fit(row, allow_single_cluster=True)
        self.assertEqual((labels, found.probabilities_.tolist()), ([0] * 5 + [-1], [1] * 5 + [0]))
        self.assertEqual(found.outlier_scores_.tolist(), [0] * 5 + [1 - 0.2])
        found, labels = fit(row, allow_single_cluster=True, cluster_selection_epsilon=5)
        self.assertEqual((labels, found.probabilities_.tolist()), ([0] * 6, [1] * 5 + [0.2]))
        self.assertEqual(fit(row, allow_single_cluster=True, cluster_selection_method="leaf")[1], [0] * 5 + [-1])
        rows = found.condensed_tree_.to_numpy()
        self.assertEqual(rows.dtype.names, ("parent", "child", "lambda_val", "child_size"))
        self.assertEqual(rows.tolist(), [(6, 5, 0.2, 1)] + [(6, it, 1.0, 1) for it in range(5)])
        # equal points stay at any density, and all others are far from them
        found, labels = fit([7, 7, 7, 7, 8, 40, 40, 40])
        self.assertEqual((labels, found.outlier_scores_.tolist()), ([0] * 5 + [1] * 3, [0] * 4 + [1] + [0] * 3))

    def test_distances_instead_of_points(self):
        draw = np.random.default_rng(8)
        points = drawn_points(draw, "clouds", 80)
        square = np.sqrt(((points[:, None] - points[None]) ** 2).sum(axis=2))
        for made in (HDBSCAN(4), HDBSCAN(4, min_samples=2, cluster_selection_method="leaf"), SingleLinkage(5), SingleLinkage(5, min_samples=3)):
            expected = made.fit_predict(points).tolist()
            self.assertGreater(max(expected), 1)
            made.set_params(metric="precomputed")
            self.assertEqual(made.fit_predict(square).tolist(), expected)
            with self.assertRaisesRegex(ValueError, "^y has the shape "):
                made.fit(points)

    @unittest.skipUnless(pandas, "there is no pandas")
    def test_the_condensed_tree_as_a_frame(self):
        found = HDBSCAN(3, min_samples=1).fit(np.array([[0.0], [1.0], [2.0], [4.0], [40.0], [41.0], [42.0]]))
        frame = found.condensed_tree_.to_frame()
        self.assertEqual(list(frame), ["parent", "child", "lambda_val", "child_size"])
        # cluster 7 has all points and splits at height 36; point 3 is 2 away from the rest of its cluster
        expected = [(7, 8, 1 / 36, 4), (7, 9, 1 / 36, 3), (8, 3, 0.5, 1), *((8, it, 1.0, 1) for it in range(3)), *((9, it, 1.0, 1) for it in (4, 5, 6))]
        rows = {(tuple(sorted([it for it in frame.child[frame.parent == row[1]].tolist()])) if row[1] > 7 else row[1], row[2], row[3]) for row in frame.itertuples(index=False)}
        self.assertEqual(rows, {((0, 1, 2, 3) if it[3] == 4 else (4, 5, 6) if it[3] == 3 else it[1], it[2], it[3]) for it in expected})
        self.assertTrue(frame.equals(found.condensed_tree_.to_pandas()))

    @unittest.skipUnless(matplotlib, "there is no matplotlib")
    def test_the_condensed_tree_as_a_picture(self):
        matplotlib.use("Agg")
        from matplotlib import pyplot
        from matplotlib.colors import to_hex

        draw = np.random.default_rng(9)
        points = np.concatenate([drawn_points(draw, "clouds", 200), np.zeros((12, 3))])
        found = HDBSCAN(8).fit(points)
        rows = found.condensed_tree_.to_numpy()
        axes = found.condensed_tree_.plot(pyplot.figure().gca())
        shapes = axes.collections
        clusters = sorted({*rows["parent"].tolist()})
        self.assertEqual(len(shapes), len(clusters))
        for it, shape in zip(clusters, shapes):
            (low, _), (high, _) = shape.get_paths()[0].get_extents().get_points()
            births = rows["child_size"][rows["child"] == it]
            # (at first as wide as it has points, and within its parent)
            self.assertAlmostEqual(high - low, births[0] if len(births) else len(points))
            for parent in rows["parent"][rows["child"] == it].tolist():
                (left, _), (right, _) = shapes[clusters.index(parent)].get_paths()[0].get_extents().get_points()
                self.assertTrue(left - 1e-9 <= low <= high <= right + 1e-9)
        colours = [to_hex(it.get_facecolor()[0]) for it in shapes]
        self.assertEqual({*colours} - {to_hex("silver")}, {to_hex(f"C{it}") for it in range(found.labels_.max() + 1)})
        plain = found.condensed_tree_.plot(pyplot.figure().gca(), select_clusters=False)
        self.assertEqual({to_hex(it.get_facecolor()[0]) for it in plain.collections}, {to_hex("silver")})
        pyplot.close("all")

    def test_a_worked_example(self):
        # two clusters of three points in a line, with gaps of 1 and of 2, and one point far away; with min_samples=1
        # heights are gaps
        points = np.array([[0.0], [1.0], [2.0], [12.0], [14.0], [16.0], [100.0]])
        found = HDBSCAN(3, min_samples=1).fit(points)
        self.assertEqual(found.labels_.tolist(), [0, 0, 0, 1, 1, 1, -1])
        self.assertEqual(found.probabilities_.tolist(), [1.0] * 6 + [0.0])
        # one point that leaves at half the density of the others
        points = np.array([[0.0], [1.0], [2.0], [4.0], [40.0], [41.0], [42.0]])
        found = HDBSCAN(3, min_samples=1).fit(points)
        self.assertEqual(found.labels_.tolist(), [0, 0, 0, 0, 1, 1, 1])
        self.assertEqual(found.probabilities_.tolist(), [1, 1, 1, 0.5, 1, 1, 1])
        # one point that leaves at half the density at which the others split into two less stable clusters
        points = np.array([[0.0], [0.5], [1.0], [2.0], [2.5], [3.0], [5.0], [100.0], [100.5], [101.0]])
        found = HDBSCAN(3, min_samples=1).fit(points)
        self.assertEqual(found.labels_.tolist(), [0] * 7 + [1] * 3)
        self.assertEqual(found.probabilities_.tolist(), [1.0] * 6 + [0.5] + [1.0] * 3)

    def test_leaves(self):
        draw = np.random.default_rng(2)
        points = np.concatenate([draw.normal(it, 0.1, (20, 2)) for it in ((0, 0), (1, 0), (20, 20))])
        found = HDBSCAN(10, cluster_selection_method="leaf").fit_predict(points)
        self.assertEqual(found.max(), 2)
        for start in (0, 20, 40):
            part = found[start : start + 20]
            self.assertEqual(set(part[part >= 0].tolist()), {start // 20})

    def test_copies(self):
        points = np.repeat([[0.0, 0.0], [5.0, 5.0], [90.0, 0.0]], [10, 10, 1], axis=0)
        found = HDBSCAN(5).fit(points)
        self.assertEqual(found.labels_.tolist(), [0] * 10 + [1] * 10 + [-1])
        self.assertEqual(found.probabilities_.tolist(), [1.0] * 20 + [0.0])
        self.assertEqual(set(HDBSCAN(5).fit_predict(np.zeros((20, 2)))), {-1})

    def test_clusters_are_those_of_the_same_points_in_a_smaller_unit(self):
        # (multiples of the least double are exact)
        draw = np.random.default_rng(6)
        points = np.concatenate([draw.integers(low, high, (20, 2)) for low, high in [(0, 9), (30, 60), (190, 200)]]).astype(np.float64)
        for method in ("eom", "leaf"):
            made = HDBSCAN(5, metric="manhattan", cluster_selection_method=method)
            labels, strengths = made.fit_predict(points), made.probabilities_
            self.assertGreater(labels.max(), 1)
            for unit in (2.0**-1022, 2.0**-1030, 5e-324):
                self.assertEqual(made.fit_predict(points * unit).tolist(), labels.tolist())
                self.assertEqual(made.probabilities_.tolist(), strengths.tolist())

    def test_compared_with_scikit_learns(self):
        try:
            from sklearn.cluster import HDBSCAN as Theirs
        except ImportError:
            self.skipTest("scikit-learn is older than 1.3, and has no HDBSCAN")
        draw = np.random.default_rng(3)
        for least in (3, 5, 10):
            points = drawn_points(draw, "clouds", 300)
            ours, theirs = HDBSCAN(least).fit(points), Theirs(min_cluster_size=least).fit(points)
            self.assertEqual({*zip(ours.labels_, theirs.labels_)}.__len__(), len(set(ours.labels_)))
            np.testing.assert_allclose(ours.probabilities_, theirs.probabilities_, rtol=1e-9)


@unittest.skipUnless(sklearn, "there is no scikit-learn")
class Estimators(unittest.TestCase):
    def test_checks_of_scikit_learn(self):
        from sklearn.utils.estimator_checks import check_estimator

        for estimator in (SingleLinkage(), HDBSCAN(), HDBSCAN(3, cluster_selection_method="leaf"), HDBSCAN(3, allow_single_cluster=True)):
            check_estimator(estimator)

    def test_rows_and_columns_of_distances_go_together(self):
        """So that scikit-learn selects both rows and columns, as for its own estimators of precomputed distances."""
        from sklearn.model_selection import cross_val_score

        square = np.abs(np.subtract.outer(np.arange(40.0) ** 2, np.arange(40.0) ** 2))
        sizes = []

        def score(estimator, X, y=None):
            sizes.append(np.shape(X))
            return 0.0

        cross_val_score(SingleLinkage(2, metric="precomputed"), square, scoring=score, cv=4)
        self.assertEqual(sizes, [(10, 30)] * 4)

    def test_merges_compared_with_scikit_learns(self):
        from sklearn.cluster import AgglomerativeClustering

        points = np.random.default_rng(10).normal(size=(150, 3))
        ours = SingleLinkage(4).fit(points)
        theirs = AgglomerativeClustering(4, linkage="single", compute_distances=True).fit(points)
        self.assertEqual(np.sort(ours.children_, axis=1).tolist(), np.sort(theirs.children_, axis=1).tolist())
        np.testing.assert_allclose(ours.distances_, theirs.distances_, rtol=1e-12)
        self.assertEqual((ours.children_.dtype.kind, ours.n_clusters_), ("i", theirs.n_clusters_))

    def test_warnings_name_the_line_that_calls(self):
        square = np.abs(np.subtract.outer(np.arange(9.0) ** 2, np.arange(9.0) ** 2))
        for made in (SingleLinkage(2), HDBSCAN(3)):
            for call in (made.fit, made.fit_predict):
                with self.assertWarnsRegex(UserWarning, "its rows are taken as points") as output:
                    call(square)
                self.assertEqual(output.filename, __file__)

    @unittest.skipUnless(pandas, "there is no pandas")
    def test_names_of_columns_say_which_is_the_latitude(self):
        rows = np.radians([[48.1, 11.6], [48.9, 2.4], [51.5, -0.1], [-34.6, -58.4], [-33.4, -70.7], [-34.9, -56.2]])
        expected = SingleLinkage(2, metric="haversine").fit(rows)
        frame = pandas.DataFrame({"lon": rows[:, 1], "lat": rows[:, 0]})
        for made in (SingleLinkage(2, metric="haversine"), HDBSCAN(3, min_samples=1, metric="haversine")):
            self.assertEqual(made.fit(frame).labels_.tolist(), [0, 0, 0, 1, 1, 1])
            if isinstance(made, SingleLinkage):
                self.assertEqual(made.distances_.tolist(), expected.distances_.tolist())
            with self.assertWarnsRegex(UserWarning, "^the columns 'x' and 'y' are taken") as output:
                made.fit(pandas.DataFrame({"x": rows[:, 1], "y": rows[:, 0]}))
            self.assertEqual(output.filename, __file__)

    def test_single_linkage_compared_with_scikit_learns(self):
        from sklearn.cluster import AgglomerativeClustering

        draw = np.random.default_rng(4)
        for metric in ("euclidean", "manhattan"):
            points = draw.normal(size=(200, 3))
            for clusters in (1, 2, 9, 200):
                ours = SingleLinkage(clusters, metric=metric).fit_predict(points)
                word = "metric" if "metric" in AgglomerativeClustering().get_params() else "affinity"
                theirs = AgglomerativeClustering(clusters, linkage="single", **{word: metric}).fit_predict(points)
                self.assertEqual((len({*zip(ours, theirs)}), len(set(ours))), (clusters, clusters))

    def test_thresholds_and_numbers_of_clusters_as_others_have_them(self):
        """What COMING_FROM.md says about equal heights."""
        from scipy.cluster.hierarchy import fcluster, linkage
        from sklearn.cluster import AgglomerativeClustering

        points = [[0.0], [1.0], [3.0], [4.0]]
        ours = SingleLinkage(None, distance_threshold=1.0).fit(points)
        self.assertEqual((ours.labels_.tolist(), ours.n_clusters_), ([0, 0, 1, 1], 2))
        self.assertEqual(AgglomerativeClustering(None, distance_threshold=1.0, linkage="single").fit(points).n_clusters_, 4)
        merges = linkage(points, "single")
        self.assertEqual(fcluster(merges, 1.0, "distance").max(), 2)
        self.assertEqual((ours.tree_.labels(clusters=3).max() + 1, fcluster(merges, 3, "maxclust").max()), (3, 2))

    def test_the_order_of_points_does_not_choose_the_clusters(self):
        draw = np.random.default_rng(12)
        for least, nearest in [(3, 2), (5, 4), (4, 1)]:
            # (with many equal heights)
            points = np.unique(draw.integers(0, 14, (70, 2)), axis=0).astype(float)
            expected = HDBSCAN(least, min_samples=nearest, cluster_selection_method="leaf").fit(points)
            self.assertLess(len(np.unique(expected.tree_.w)), 12)
            for _ in range(20):
                order = draw.permutation(len(points))
                found = HDBSCAN(least, min_samples=nearest, cluster_selection_method="leaf").fit(points[order])
                self.assertEqual(len({*zip(found.labels_, expected.labels_[order])}), len({*expected.labels_}))
                self.assertEqual(found.outlier_scores_.tolist(), expected.outlier_scores_[order].tolist())

    def test_numbers_that_are_none(self):
        points = np.random.default_rng(0).random((10, 2))
        for pattern, made in [
            ("min_cluster_size is '5'", HDBSCAN("5")),
            ("min_cluster_size is 5.0", HDBSCAN(5.0)),
            ("min_samples is '2'", HDBSCAN(min_samples="2")),
            ("n_clusters is '2'", SingleLinkage(n_clusters="2")),
            ("n_clusters is True", SingleLinkage(n_clusters=True)),
            ("min_samples is 2.5", SingleLinkage(min_samples=2.5)),
            ("min_size is '2'", SingleLinkage(min_size="2")),
            ("max_cluster_size is 9.5", HDBSCAN(max_cluster_size=9.5)),
        ]:
            with self.assertRaisesRegex(TypeError, f"^{pattern}, but has to be a whole number$"):
                made.fit(points)

    def test_whole_numbers_that_doubles_round(self):
        apart = [[2**53, 0], [2**53 + 1, 0], [2**53 + 2, 0]]
        for points in (apart, np.array(apart), np.array(apart, np.uint64)):
            for made in (SingleLinkage(), HDBSCAN(2)):
                with self.assertRaisesRegex(ValueError, r"^X\[1, 0\] is 9007199254740993, which a double would round: subtract the least"):
                    made.fit(points)
        for made in (SingleLinkage(), HDBSCAN(2)):
            with self.assertRaisesRegex(ValueError, r"^X\[1\]\[0\] is 9007199254740993, which numpy would round to"):
                made.fit(np.array(apart, object))
        even = np.array(apart) // 2
        self.assertEqual(SingleLinkage(distance_threshold=0.5, n_clusters=None).fit_predict(even).tolist(), [0, 0, 1])

    def test_what_would_be_made_doubles(self):
        """scikit-learn would convert them: the differences of the long doubles would be 0, and the last text would
        change by one.
        """
        longs = np.array([[1], [2], [3]], np.longdouble)
        for points, output in [
            (1 + longs * np.finfo(np.longdouble).eps, "dtype float128"),
            (np.array([["1"], ["2"], ["9007199254740993"]]), r"dtype <U16, because X\[0, 0\] is '1'"),
            (np.array([["2020-01-01"], ["2020-01-02"], ["2020-03-02"]], "M8[D]"), r"dtype datetime64\[D\]"),
            (np.array([[1], [2], [5]], "m8[s]"), r"dtype timedelta64\[s\]"),
        ]:
            for made in (SingleLinkage(), HDBSCAN(2)):
                with self.assertRaisesRegex(TypeError, f"^X has the {output}, but has to be real numbers of up to 64 bits$"):
                    made.fit(points)

    def test_masked_points(self):
        hidden = np.ma.masked_equal([[0.0, 0.0], [1.0, 1.0], [99.0, 99.0]], 99)
        for points in (hidden, [*hidden]):
            for made in (SingleLinkage(), HDBSCAN(2)):
                with self.assertRaisesRegex(ValueError, r"^X has masked entries, such as X\[[\d, ]+\]: leave them out first$"):
                    made.fit(points)

    def test_choices_that_cannot_be(self):
        points = np.random.default_rng(5).random((9, 2))
        for error, pattern, made in [
            (ValueError, "^cluster_selection_epsilon is -1, but a distance is at least 0$", HDBSCAN(cluster_selection_epsilon=-1)),
            (ValueError, "^cluster_selection_epsilon is nan, ", HDBSCAN(cluster_selection_epsilon=np.nan)),
            (TypeError, "^cluster_selection_epsilon is '1', but has to be a distance, a real number$", HDBSCAN(cluster_selection_epsilon="1")),
            (TypeError, "^cluster_selection_epsilon is True, ", HDBSCAN(cluster_selection_epsilon=True)),
            (TypeError, "^allow_single_cluster is 'no', but has to be True or False$", HDBSCAN(allow_single_cluster="no")),
            (ValueError, "^max_cluster_size is 4, but has to be at least min_cluster_size, which is 5: None sets no limit$", HDBSCAN(max_cluster_size=4)),
            (ValueError, "^max_cluster_size is 0, ", HDBSCAN(max_cluster_size=0)),
            (ValueError, "^min_cluster_size is 10, but X has only 9 points: ", HDBSCAN(10)),
            (ValueError, "^min_size is -2, ", SingleLinkage(min_size=-2)),
        ]:
            with self.assertRaisesRegex(error, pattern):
                made.fit(points)
        self.assertEqual(set(HDBSCAN(10, min_samples=2, allow_single_cluster=True).fit_predict(points)), {-1})

    def test_rejected(self):
        points = np.random.default_rng(5).random((9, 2))
        for wrong in (SingleLinkage(None), SingleLinkage(2, distance_threshold=1.0), SingleLinkage(10), HDBSCAN(1), HDBSCAN(5, min_samples=10), HDBSCAN(cluster_selection_method="best"), HDBSCAN(metric="none")):
            with self.assertRaises(ValueError):
                wrong.fit(points)


if __name__ == "__main__":
    unittest.main()
