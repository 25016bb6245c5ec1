"""Paths, their heaviest edges, labels and replacements: by name and by number, one and many.

They are compared with searches and with Kruskal's algorithm.
"""

import copy
import pickle
import time
import unittest
from unittest import mock

import numpy as np

import boruvka
from boruvka import Forest, _paths, from_edges, minimum_spanning_forest
from graphs import Graph, replaced, searched

try:
    import pandas
except ImportError:
    pandas = None
try:
    from scipy import sparse
except ImportError:
    sparse = None

ROADS = {"from": ["Ely", "Bath", "Ely", "Rye"], "to": ["Bath", "York", "York", "Hove"], "km": [226, 330, 235, 80]}


class ByNames(unittest.TestCase):
    def setUp(self):
        self.forest = from_edges(ROADS, "from", "to", weight="km")

    def test_one_question(self):
        self.assertEqual(self.forest.path("Bath", "York"), ["Bath", "Ely", "York"])
        self.assertEqual(self.forest.path("York", "York"), ["York"])
        self.assertEqual(self.forest.bottleneck("Bath", "York"), ("Ely", "York", 235, 2, 2))
        self.assertEqual(self.forest.bottleneck("York", "Bath")._fields, ("u", "v", "w", "index", "position"))
        self.assertEqual({type(it) for it in self.forest.bottleneck("Rye", "Hove")}, {str, int})

    def test_many_questions(self):
        self.assertEqual(self.forest.path(["Bath", "Hove"], ["York", "Rye"]), [["Bath", "Ely", "York"], ["Hove", "Rye"]])
        self.assertEqual(self.forest.path("Bath", ["York", "Bath"]), [["Bath", "Ely", "York"], ["Bath"]])
        self.assertEqual(self.forest.path(np.array(["York"]), "Bath"), [["York", "Ely", "Bath"]])
        self.assertEqual(self.forest.path([], []), [])
        found = self.forest.bottleneck(["Bath", "Hove"], ["York", "Rye"])
        self.assertEqual((found.u, found.v, found.w.tolist(), found.index.tolist(), found.position.tolist()), (["Ely", "Hove"], ["York", "Rye"], [235, 80], [2, 3], [2, 0]))
        if pandas:
            towns = pandas.Series(["York", "Ely"], index=[7, 9])
            self.assertEqual(self.forest.bottleneck("Bath", towns).w.tolist(), [235, 226])

    def test_names_that_are_numbers_or_tuples(self):
        forest = from_edges({"u": [30, 10, (1, 2)], "v": [10, 20, "a"], "w": [1, 2, 3]})
        self.assertEqual(forest.path(30, 20), [30, 10, 20])
        self.assertEqual(forest.path((1, 2), "a"), [(1, 2), "a"])
        self.assertEqual(forest.path(np.int64(30), 20.0), [30, 10, 20])
        with self.assertRaisesRegex(ValueError, r"^0 isn't a vertex: their names are such as 10, 20, 30$"):
            forest.path(0, 10)

    def test_labels(self):
        self.assertEqual(self.forest.names, ["Bath", "Ely", "Hove", "Rye", "York"])
        self.assertEqual(self.forest.labels_by_name(height=230), {"Bath": 0, "Ely": 0, "Hove": 1, "Rye": 1, "York": 2})
        self.assertEqual(self.forest.labels_by_name(clusters=4, min_size=2), {"Bath": -1, "Ely": -1, "Hove": 0, "Rye": 0, "York": -1})
        self.assertEqual(self.forest.labels(height=230, of=["York", "Bath", "York"]).tolist(), [2, 0, 2])
        if pandas:
            table = pandas.DataFrame({"town": ["York", "Rye", "Bath"]}, index=[5, 6, 7])
            table["cluster"] = self.forest.labels(clusters=2, of=table["town"])
            self.assertEqual(table["cluster"].tolist(), [0, 1, 0])
            self.assertEqual(table["town"].map(self.forest.labels_by_name(clusters=2)).tolist(), [0, 1, 0])
        plain = self.forest._replace(names=None)
        self.assertEqual(plain.labels_by_name(clusters=2), {0: 0, 1: 0, 2: 1, 3: 1, 4: 0})
        self.assertEqual(plain.labels(clusters=2, of=np.array([4, 2])).tolist(), [0, 1])

    def test_a_notebook_shows_names(self):
        self.assertIn("<td>Ely</td><td>York</td><td>235</td><td>2</td>", self.forest._repr_html_())
        marked = from_edges({"u": ["<b>"], "v": ["a"], "w": [1]})
        self.assertIn("<td>&lt;b&gt;</td>", marked._repr_html_())

    def test_what_is_no_vertex(self):
        for call in (self.forest.path, self.forest.bottleneck):
            for given, pattern in [
                (("Bth", "York"), "^'Bth' isn't a vertex: did you mean 'Bath'\?$"),
                (("Bath", "Oslo"), "^'Oslo' isn't a vertex: their names are such as 'Bath', 'Ely', 'Hove'$"),
                ((0, 1), "^0 isn't a vertex: their names are such as 'Bath', "),
                (("Bath", None), "^None isn't a vertex: "),
                (("Bath", ("York",)), r"^\('York',\) isn't a vertex: "),
                ((["Bath", "Yrk"], "Ely"), r"^a\[1\] is 'Yrk', which isn't a vertex: did you mean 'York'\?$"),
                (("Bath", [["York"]]), r"^b\[0\] is \['York'\], which isn't a vertex: "),
                ((["Bath"], ["York", "Ely"]), "^a and b differ in length: 1 and 2$"),
                (("Bath", "Rye"), "^'Bath' and 'Rye' are in different components$"),
                ((["Bath", "Ely"], ["York", "Hove"]), "^'Ely' and 'Hove' are in different components$"),
            ]:
                with self.subTest(given), self.assertRaisesRegex(ValueError, pattern):
                    call(*given)
        with self.assertRaisesRegex(ValueError, "^there is no edge from 'Ely' to itself$"):
            self.forest.bottleneck(["Bath", "Ely"], ["York", "Ely"])
        with self.assertRaisesRegex(ValueError, "^'1' isn't a vertex: did you mean 1\?$|^'1' isn't a vertex: their names are such as 1, 2$"):
            from_edges({"u": [1], "v": [2], "w": [3]}).path("1", 2)
        twice = self.forest._replace(names=["a", "b", "c", "b", "d"])
        with self.assertRaisesRegex(ValueError, r"^names\[3\] and names\[1\] are both 'b': "):
            twice.path("a", "b")
        plain = self.forest._replace(names=None)
        for given, error, pattern in [
            (("Bath", 1), TypeError, "^a is 'Bath', but has to be a whole number: the forest has no names$"),
            (((0, 1), 1), TypeError, r"^a is \(0, 1\), but has to be a whole number"),
            (([0, 9], 1), ValueError, r"^a\[1\] is 9, but a vertex is at least 0 and below n = 5"),
            (([0.5], 1), TypeError, r"^a has the dtype float64, because a\[0\] is 0\.5, but vertices are whole numbers$"),
        ]:
            with self.subTest(given), self.assertRaisesRegex(error, pattern):
                plain.path(*given)


class Drawn(unittest.TestCase):
    def test_paths_and_bottlenecks_compared_with_a_search(self):
        for seed in range(150):
            graph = Graph(seed)
            maximum = seed % 2 == 1
            forest = minimum_spanning_forest(graph.n, *graph.held, maximum=maximum)
            edges = list(zip(forest.u.tolist(), forest.v.tolist()))
            place = {it: i for i, it in enumerate(edges)}
            draw = np.random.default_rng(seed)
            a, b = (it.tolist() for it in draw.integers(0, graph.n, (2, 12)))
            ways = [searched(edges, *it) for it in zip(a, b)]
            there = [it for it, way in enumerate(ways) if way]
            some = [a[it] for it in there], [b[it] for it in there]
            with self.subTest(seed=seed):
                self.assertEqual(forest.path(*some), [ways[it] for it in there])
                moved = [it for it in there if a[it] != b[it]]
                found = forest.bottleneck([a[it] for it in moved], [b[it] for it in moved])
                worst = [max(place[min(it), max(it)] for it in zip(ways[one], ways[one][1:])) for one in moved]
                self.assertEqual(found.position.tolist(), worst)
                self.assertEqual(found.w.tolist(), forest.w[worst].tolist())
                for one in moved[:2]:
                    self.assertEqual(forest.bottleneck(a[one], b[one]).position, forest.bottleneck([a[one]], b[one]).position[0])
                for one in {*range(12)} - {*there}:
                    for call in (forest.path, forest.bottleneck):
                        with self.assertRaisesRegex(ValueError, f"^{a[one]} and {b[one]} are in different components$"):
                            call(a[one], b[one])

    @unittest.skipUnless(sparse, "there is no scipy")
    def test_by_scipys_search_and_by_our_own(self):
        for seed in range(100):
            graph = Graph(seed)
            forest = minimum_spanning_forest(graph.n, *graph.held)
            pairs = np.random.default_rng(seed).integers(0, graph.n, (2, 10)).tolist()
            output = []
            for least in (0, 10**9):
                with mock.patch.object(_paths, "_LARGE", least):
                    rooted = _paths.Rooted(forest)
                    output.append([rooted.path(*it) for it in zip(*pairs)])
            self.assertEqual(*output)

    def test_forests_in_another_order(self):
        """The heaviest edge is found in a forest that isn't sorted, too."""
        forest = Forest([0, 1, 2], [1, 2, 3], [5, 9, 1], [0, 1, 2])
        self.assertEqual(forest.bottleneck(0, 3), (1, 2, 9, 1, 1))
        self.assertEqual(forest._replace(maximum=True).bottleneck(0, 3), (2, 3, 1, 2, 2))

    def test_what_closes_a_cycle_is_no_forest(self):
        for u, v in [([0, 1, 2], [1, 2, 0]), ([0, 0], [1, 1]), ([1], [1])]:
            forest = Forest(u, v, [1] * len(u), range(len(u)))
            for call in (forest.path, forest.bottleneck):
                with self.assertRaises(ValueError):
                    call(0, 1)

    def test_what_was_computed_once_stays_true(self):
        forest = minimum_spanning_forest([0, 1], [1, 2], [1, 2])
        self.assertEqual(forest.path(0, 2), [0, 1, 2])
        with self.assertRaisesRegex(ValueError, "read-only"):
            forest.u[0] = 2
        other = forest._replace(u=np.array([0, 0]), v=np.array([1, 2]))
        self.assertEqual((other.path(1, 2), forest.path(0, 2)), ([1, 0, 2], [0, 1, 2]))
        for again in (pickle.loads(pickle.dumps(forest)), copy.deepcopy(forest), copy.copy(forest)):
            self.assertEqual((again, again.path(0, 2)), (forest, [0, 1, 2]))
        self.assertLess(len(pickle.dumps(forest)), len(pickle.dumps(forest._replace())) + 10)


class Replaced(unittest.TestCase):
    def test_500_graphs_compared_with_forests_without_the_edge(self):
        kinds, tried = set(), 0
        for seed in range(700):
            graph = Graph(seed, ("ties", "yes and no", "special doubles", "all of 64 bits"))
            if graph.n > 60:
                continue
            kinds.add(graph.kind)
            tried += 1
            for maximum in (False, True):
                with self.subTest(seed=seed, maximum=maximum):
                    forest = minimum_spanning_forest(graph.n, *graph.held, maximum=maximum)
                    self.assertEqual(forest.replacements(*graph.held).tolist(), replaced(graph, forest.index.tolist(), maximum))
        self.assertEqual((len(kinds), tried > 500), (4, True))

    def test_names(self):
        forest = from_edges(ROADS, "from", "to", weight="km")
        self.assertEqual(forest.index.tolist(), [3, 0, 2])
        self.assertEqual(forest.replacements(ROADS["from"], ROADS["to"], ROADS["km"]).tolist(), [-1, 1, 1])
        if pandas:
            table = pandas.DataFrame(ROADS)
            self.assertEqual(forest.replacements(table["from"], table["to"], table["km"]).tolist(), [-1, 1, 1])
        for seed in range(40):
            graph = Graph(seed, ("ties",))
            if 2 < graph.n < 60 and graph.w:
                shuffled = np.random.default_rng(seed).permutation(graph.n)
                u, v = (shuffled[it] for it in graph.held[:2])
                named = from_edges({"u": u, "v": v, "w": graph.held[2]})
                plain = minimum_spanning_forest(graph.n, u, v, graph.held[2])
                self.assertEqual(named.replacements(u, v, graph.held[2]).tolist(), plain.replacements(u, v, graph.held[2]).tolist())

    def test_edges_of_another_graph(self):
        u, v, w = [0, 1, 2, 3, 0], [1, 2, 3, 0, 2], [1.5, 0.5, 2.5, 3.5, 1.0]
        forest = minimum_spanning_forest(6, u, v, w)
        self.assertEqual(forest.replacements(u, v, w).tolist(), [0, 0, 3])
        for given, pattern in [
            ((u[:2], v[:2], w[:2]), "^the forest has the edge 4, but only 2 edges are passed: pass all edges of the graph$"),
            ((v[::-1], u[::-1], w[::-1]), "^the edge [124] differs from the forest's edge with this index: pass the edges in the order"),
            ((u, v, [1.5, 0.25, 2.5, 3.5, 1.0]), "^the edge 1 differs from the forest's edge"),
            (([*u, 0], [*v, 5], [*w, 9]), "^the edge 5 joins two components of the forest, so this isn't the forest of these edges$"),
            (([*u, 0], [*v, 6], [*w, 9]), r"^v\[5\] is 6, but a vertex is at least 0 and below n = 6"),
            ((u, v, w[:4]), "^u, v and w differ in length"),
            (([*u, 2], [*v, 0], [*w, 0.75]), "^an edge outside the forest is better than one that it could replace, so this isn't the forest"),
        ]:
            with self.subTest(pattern), self.assertRaisesRegex(ValueError, pattern):
                forest.replacements(*given)
        with self.assertRaisesRegex(ValueError, "^index has chunks and rows"):
            boruvka.forest_of_chunks(6, [(u, v, w)]).replacements(u, v, w)
        named = from_edges(ROADS, "from", "to", weight="km")
        with self.assertRaisesRegex(ValueError, r"^u\[1\] is 'Oslo', which isn't a vertex"):
            named.replacements(["Ely", "Oslo", "Ely", "Rye"], ROADS["to"], ROADS["km"])

    def test_no_edges(self):
        self.assertEqual(minimum_spanning_forest(4, [], [], []).replacements([], [], []).tolist(), [])


class Quick(unittest.TestCase):
    def test_a_question_costs_little_once_one_was_asked(self):
        """It takes far less than the first question, so everything else is computed once. bench.py measures the times."""
        n = 100_000
        draw = np.random.default_rng(1)
        u, v = np.arange(1, n), draw.integers(0, np.arange(1, n))
        forest = minimum_spanning_forest(n, u, v, draw.random(n - 1))
        for call in (forest.path, forest.bottleneck):
            times = []
            for a, b in [(0, 1), *draw.integers(0, n, (20, 2)).tolist()]:
                start = time.process_time()
                call(a, b)
                times.append(time.process_time() - start)
            self.assertLess(sorted(times[1:])[10], times[0] / 20)


if __name__ == "__main__":
    unittest.main()
