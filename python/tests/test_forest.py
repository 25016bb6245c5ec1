"""`minimum_spanning_forest` on the graphs of the documents, at its limits, and on drawn graphs."""

import contextlib
import ctypes
import decimal
import fractions
import importlib.util
import math
import mmap
import os
import subprocess
import sys
import threading
import unittest
from collections import deque
from unittest import mock

import numpy as np

import boruvka
from boruvka import Forest, _threads, minimum_spanning_forest
from graphs import KINDS, Components, Graph, by_key

try:
    from scipy import sparse
    from scipy.sparse import csgraph
except ImportError:
    sparse = None

# examples/small.gr, whose forest README.md shows; vertices are numbered from 0
SMALL = ([0, 0, 1, 2, 3, 3, 4, 4], [1, 2, 3, 4, 2, 5, 1, 5], [17, 10, 2, 0, 0, 3, 0, 20])
SMALL_FOREST = [[1, 2, 2, 3, 0], [4, 3, 4, 5, 2], [0, 0, 0, 3, 10], [6, 4, 3, 5, 1]]


def listed(forest):
    return [it.tolist() for it in forest]


@contextlib.contextmanager
def without_subnormals():
    """Make the processor treat denormal floats as 0 in this thread, as a library built for speed may do."""
    with mmap.mmap(-1, mmap.PAGESIZE, prot=mmap.PROT_READ | mmap.PROT_WRITE | mmap.PROT_EXEC) as page:
        page.write(bytes.fromhex("0fae17c3"))  # ldmxcsr [rdi]; ret
        start = ctypes.c_char.from_buffer(page)
        load = ctypes.CFUNCTYPE(None, ctypes.POINTER(ctypes.c_uint32))(ctypes.addressof(start))
        load(ctypes.c_uint32(0x9FC0))
        try:
            yield
        finally:
            load(ctypes.c_uint32(0x1F80))
            del start


class Documented(unittest.TestCase):
    def test_the_small_net(self):
        forest = minimum_spanning_forest(6, *SMALL)
        self.assertEqual(listed(forest), SMALL_FOREST)
        self.assertEqual([it.dtype for it in forest], [np.intp, np.intp, np.int64, np.intp])

    def test_ties_go_by_the_endpoints_and_then_by_the_index(self):
        forest = minimum_spanning_forest(4, [3, 2, 1, 0, 3, 1, 0], [2, 3, 2, 3, 1, 0, 1], [5] * 7)
        self.assertEqual(listed(forest), [[0, 0, 1], [1, 3, 2], [5, 5, 5], [5, 3, 2]])

    def test_loops_are_left_out_and_the_lightest_parallel_counts(self):
        forest = minimum_spanning_forest(3, [1, 0, 1, 0, 2], [1, 1, 0, 1, 2], [-9, 4, 3, 3, -9])
        self.assertEqual(listed(forest), [[0], [1], [3], [2]])

    def test_components_stay_apart(self):
        forest = minimum_spanning_forest(6, [0, 5, 3], [1, 4, 4], [2.5, 1.5, 0.5])
        self.assertEqual(listed(forest), [[3, 4, 0], [4, 5, 1], [0.5, 1.5, 2.5], [2, 1, 0]])


class Knowing(unittest.TestCase):
    """The properties and methods of a forest."""

    def setUp(self):
        self.forest = minimum_spanning_forest(7, *SMALL)

    def test_its_attributes(self):
        forest = self.forest
        self.assertEqual((forest.n, len(forest), forest.components, forest.total, forest.maximum), (7, 5, 2, 13, False))
        u, v, w, index = forest
        self.assertEqual([u.tolist(), v.tolist(), w.tolist(), index.tolist()], SMALL_FOREST)
        self.assertEqual(repr(forest), "<Forest of 7 vertices, 5 edges, 2 components, total 13>")
        self.assertIn("<td>4</td>", forest._repr_html_())
        self.assertNotIn("more", forest._repr_html_())
        path = minimum_spanning_forest(range(40), range(1, 41), [1.5] * 40)
        self.assertIn("and 30 more", path._repr_html_())
        whole = minimum_spanning_forest(range(10), range(1, 11), [1.5] * 10)._repr_html_()
        self.assertEqual((whole.count("<td>1.5</td>"), "more" in whole), (10, False))
        self.assertEqual(Forest([0, 4], [1, 2], [5, 6], [0, 1]).n, 5)
        with self.assertRaisesRegex(ValueError, r"shapes \(2,\), \(1,\), "):
            Forest([0, 4], [1], [5, 6], [0, 1])

    def test_equal_forests(self):
        self.assertEqual(self.forest, minimum_spanning_forest(7, *SMALL))
        self.assertNotEqual(self.forest, minimum_spanning_forest(6, *SMALL))
        self.assertNotEqual(self.forest, self.forest._replace(maximum=True))
        self.assertNotEqual(self.forest, self.forest._replace(w=self.forest.w + 1))
        self.assertFalse(self.forest == 5)

        def named(*first):
            return self.forest._replace(names=[*first, *range(7 - len(first))])

        self.assertEqual(named("a", 1), named("a", 1.0))
        self.assertNotEqual(named("a"), named("b"))
        self.assertNotEqual(named("a"), self.forest)
        self.assertNotEqual(self.forest, named("a"))
        for one, equal, other in [
            (np.array([1, 2]), np.array([1.0, 2.0]), np.array([1, 3])),
            (np.array([1, 2]), np.array([1, 2]), np.array([[1, 2]])),
            (np.array([1, 1]), np.array([1, 1]), 1),
            (np.array([]), np.array([]), np.array([0])),
            (("a", np.array([1, 2])), ("a", np.array([1, 2])), ("a", np.array([2, 2]))),
            ((1, 2), (1, 2), [1, 2]),
            ((1, 2), (1, 2), (1, 2, 3)),
        ]:
            self.assertEqual(named(one), named(equal))
            self.assertIs(named(one) == named(other), False)
            self.assertIs(named(other) == named(one), False)
        with self.assertRaises(TypeError):
            hash(self.forest)
        with self.assertRaises(AttributeError):
            self.forest.n = 9

    def test_totals_are_exact(self):
        for w in ([2**63 - 1] * 3, [-(2**63)] * 3, [2**62 + 1, -(2**63), 7], np.array([2**63 - 1] * 3, np.uint64), [True, False, True]):
            forest = minimum_spanning_forest(4, [0, 1, 2], [1, 2, 3], w)
            self.assertEqual(forest.total, sum(map(int, w)))
        for w in ([0.1] * 3, [1e308, 1e308, -1e308], [1e16, 1.0, -1e16]):
            forest = minimum_spanning_forest(4, [0, 1, 2], [1, 2, 3], w)
            self.assertEqual(forest.total, float(sum(map(fractions.Fraction, w))))
        # (a partial sum overflows)
        for w, total in (([-1e308] * 2 + [1e308] * 2 + [5.0], 5.0), ([-1.5e308] * 2 + [math.inf], math.inf), ([-1.5e308] * 3 + [1.0], -math.inf)):
            self.assertEqual(minimum_spanning_forest(None, range(len(w)), range(1, len(w) + 1), w).total, total)
        self.assertEqual(Forest([0, 1], [1, 2], np.array([2**63, 2**64 - 1], np.uint64), [0, 1]).total, 2**63 + 2**64 - 1)
        self.assertEqual(minimum_spanning_forest(3, [0, 1], [1, 2], [1e308, 1e308]).total, math.inf)
        self.assertTrue(math.isnan(minimum_spanning_forest(3, [0, 1], [1, 2], [-math.inf, math.inf]).total))
        self.assertEqual(minimum_spanning_forest(3, [], [], []).total, 0)

    def test_ways_and_their_bottlenecks(self):
        # (as README.md draws the small graph)
        self.assertEqual(self.forest.path(0, 5), [0, 2, 4, 3, 5][:1] + self.forest.path(2, 5))
        for seed in range(60):
            graph = Graph(seed)
            for maximum in (False, True):
                forest = minimum_spanning_forest(graph.n, *graph.held, maximum=maximum)
                position_of = {frozenset(it[:2]): i for i, it in enumerate(zip(forest.u.tolist(), forest.v.tolist()))}
                components = Components(graph.n)
                for it in position_of:
                    components.join(*it)
                for a, b in [(0, graph.n - 1), (graph.n // 2, 0), (0, 0)]:
                    if components.root(a) != components.root(b):
                        for call in (forest.path, forest.bottleneck):
                            with self.assertRaisesRegex(ValueError, "different components"):
                                call(a, b)
                        continue
                    way = forest.path(a, b)
                    self.assertEqual((way[0], way[-1], len(set(way))), (a, b, len(way)))
                    places = [position_of[frozenset(it)] for it in zip(way, way[1:])]
                    if places:
                        best = min if maximum else max
                        self.assertEqual(forest.bottleneck(a, b).w, best(forest.w[places]))
                    else:
                        with self.assertRaisesRegex(ValueError, "no edge"):
                            forest.bottleneck(a, b)
        for call in (self.forest.path, self.forest.bottleneck):
            for wrong in (-1, 7):
                with self.assertRaisesRegex(ValueError, f"^{wrong} isn't a vertex"):
                    call(0, wrong)

    def test_clusters(self):
        self.assertEqual(self.forest.labels(clusters=2).tolist(), [0, 0, 0, 0, 0, 0, 1])
        self.assertEqual(self.forest.labels(height=0).tolist(), [0, 1, 1, 1, 1, 2, 3])
        self.assertEqual(self.forest.labels(height=0, min_size=2).tolist(), [-1, 0, 0, 0, 0, -1, -1])
        self.assertEqual(self.forest.labels(clusters=4, min_size=9).tolist(), [-1] * 7)
        # similarities, of which the greatest count
        likes = minimum_spanning_forest(5, [0, 1, 2, 3, 0], [1, 2, 3, 4, 4], [9, 1, 8, 7, 2], maximum=True)
        self.assertEqual(likes.w.tolist(), [9, 8, 7, 2])
        self.assertEqual(likes.labels(clusters=2).tolist(), [0, 0, 1, 1, 1])
        self.assertEqual(likes.labels(height=8).tolist(), [0, 0, 1, 1, 2])
        self.assertEqual(likes._replace(u=likes.u[::-1], v=likes.v[::-1], w=likes.w[::-1]).labels(height=8).tolist(), [0, 0, 1, 1, 2])
        with self.assertRaisesRegex(ValueError, "maximum forest"):
            likes.linkage()

    @unittest.skipUnless(sparse, "there is no scipy")
    def test_as_a_matrix(self):
        matrix = self.forest.to_csr()
        self.assertEqual((matrix.shape, matrix.nnz, matrix[0, 2], matrix[3, 5]), ((7, 7), 5, 10, 3))
        self.assertEqual(csgraph.connected_components(matrix, directed=False)[0], 2)

    def test_as_a_frame(self):
        try:
            import pandas
        except ImportError:
            self.skipTest("there is no pandas")
        frame = self.forest.to_frame()
        self.assertEqual([frame[it].tolist() for it in ("u", "v", "w", "index")], SMALL_FOREST)
        self.assertEqual(minimum_spanning_forest(7, *(pandas.Series(it) for it in SMALL)), self.forest)

    def test_as_a_graph_of_networkx(self):
        try:
            import networkx as nx
        except ImportError:
            self.skipTest("there is no networkx")
        graph = self.forest.to_networkx("abcdefg")
        self.assertEqual(list(graph), list("abcdefg"))
        self.assertEqual(sorted(graph.edges(data="weight")), [("a", "c", 10), ("b", "e", 0), ("c", "d", 0), ("c", "e", 0), ("d", "f", 3)])
        self.assertEqual(nx.number_connected_components(self.forest.to_networkx()), 2)
        with self.assertRaisesRegex(ValueError, "^there are 2 names for 7 vertices"):
            self.forest.to_networkx("ab")
        with self.assertRaisesRegex(ValueError, r"^names\[3\] and names\[1\] are both 'b': networkx would make one vertex of both$"):
            self.forest.to_networkx("abcbefg")
        with self.assertRaisesRegex(TypeError, r"^names\[2\] is a list, which isn't hashable, as vertices of networkx have to be$"):
            self.forest.to_networkx([0, 1, [2], 3, 4, 5, 6])

    def test_ends_that_are_no_vertices_of_it(self):
        for u, v in [([-1], [1]), ([0], [2])]:
            forest = Forest(u, v, [1], [0], n=2, names=["a", "b"])
            for call, module in [(forest.to_frame, "pandas"), (forest.to_networkx, "networkx"), (lambda: forest.plot([[0, 0], [1, 1]]), "matplotlib"), (lambda: forest.path("a", "b"), "numpy")]:
                if importlib.util.find_spec(module):
                    with self.assertRaisesRegex(ValueError, "^an edge of the forest has an endpoint that isn't one of its 2 vertices$"):
                        call()

    def test_as_a_picture(self):
        try:
            import matplotlib
        except ImportError:
            self.skipTest("there is no matplotlib")
        matplotlib.use("Agg")
        points = np.random.default_rng(1).random((7, 2))
        axes = self.forest.plot(points, labels=self.forest.labels(clusters=3))
        self.assertEqual((len(axes.collections[0].get_segments()), len(axes.collections[1].get_offsets())), (5, 7))
        grey = self.forest.plot(points, labels=[-1, 0, 1, -1, 11, 2, 3]).collections[-1].get_facecolors()
        self.assertEqual([grey[0].tolist(), grey[2].tolist()], [grey[3].tolist(), grey[4].tolist()])
        self.assertEqual(len(np.unique(grey, axis=0)), 5)
        with self.assertRaisesRegex(ValueError, "shape"):
            self.forest.plot(points[:3])
        with self.assertRaisesRegex(ValueError, r"^points has masked entries, such as points\[\d, \d\]: leave them out first$"):
            self.forest.plot(np.ma.masked_less(points, 0.5))
        with self.assertRaisesRegex(ValueError, r"^labels has the shape \(2,\), but has to be \(7,\), a label for each point$"):
            self.forest.plot(points, labels=[0, 1])


class Called(unittest.TestCase):
    def test_in_each_way(self):
        expected = minimum_spanning_forest(6, *SMALL)
        edges = np.array(SMALL[:2]).T
        u, v, w = SMALL
        for found in [
            minimum_spanning_forest(u, v, w),
            minimum_spanning_forest(u=u, v=v, w=w),
            minimum_spanning_forest(None, u, v, w),
            minimum_spanning_forest(edges, w),
            minimum_spanning_forest(edges.tolist(), w),
            minimum_spanning_forest(6, edges, w),
            minimum_spanning_forest(np.int8(6), edges, np.array(w)),
            minimum_spanning_forest(None, edges, w),
            minimum_spanning_forest(u, v, w, n=6),
            minimum_spanning_forest(edges, w, n=6),
            minimum_spanning_forest(edges, w=w),
            minimum_spanning_forest(u, v, w=w),
            minimum_spanning_forest(u, v=v, w=w, n=6),
            minimum_spanning_forest(6, u, v, w=w),
            minimum_spanning_forest(6, u=u, v=v, w=w),
            minimum_spanning_forest(n=6, u=u, v=v, w=w),
        ]:
            self.assertEqual(found, expected)
        self.assertEqual(minimum_spanning_forest([], [], []).n, 0)
        self.assertEqual(minimum_spanning_forest(9, edges, w).n, 9)
        self.assertEqual(minimum_spanning_forest(np.empty((0, 2), int), []).n, 0)

    def test_wrongly(self):
        for given, pattern in [
            ((), "n may be left out"),
            (([0, 1],), "n may be left out"),
            ((3, [0, 1], [1, 2]), r"^edges have the shape \(2,\)"),
            (([[0, 1, 2]], [1]), r"^edges have the shape \(1, 3\)"),
            ((3.0, [0], [1], [1]), "^n is 3.0, but has to be a whole number"),
            (("3", [0], [1], [1]), "^n is '3', "),
        ]:
            with self.assertRaisesRegex(TypeError, pattern):
                minimum_spanning_forest(*given)
        with self.assertRaisesRegex(ValueError, "^u\\[1\\] is -1, "):
            minimum_spanning_forest([0, -1], [1, 1], [1, 2])
        with self.assertRaisesRegex(ValueError, "^v\\[1\\] is 3, .*n = 3: are they numbered from 1\\?$"):
            minimum_spanning_forest(3, [1, 2], [2, 3], [1, 2])
        with self.assertRaisesRegex(TypeError, "boruvka.from_edges"):
            minimum_spanning_forest(["a"], ["b"], [1])
        if sparse:
            with self.assertRaisesRegex(TypeError, "boruvka.sparse"):
                minimum_spanning_forest(sparse.csr_matrix((2, 2)))


class Limits(unittest.TestCase):
    def test_no_edges(self):
        for n in (0, 1, 7, 2**26):
            for none in ([], np.empty(0, np.int64), np.empty(0, np.float32)):
                self.assertEqual(listed(minimum_spanning_forest(n, [], [], none)), [[]] * 4)

    def test_the_last_of_2_to_the_26_vertices(self):
        n = 2**26
        self.assertEqual(listed(minimum_spanning_forest(n, [n - 1], [0], [1])), [[0], [n - 1], [1], [0]])

    def test_the_ends_of_64_bits(self):
        forest = minimum_spanning_forest(3, [0, 1, 2], [1, 2, 0], [2**63 - 1, -(2**63), 2**63 - 2])
        self.assertEqual(listed(forest), [[1, 0], [2, 2], [-(2**63), 2**63 - 2], [1, 2]])

    def test_natural_numbers_up_to_2_to_the_63(self):
        weights = np.array([2**63 - 1, 2**53 + 1, 2**53], np.uint64)
        forest = minimum_spanning_forest(3, [0, 1, 2], [1, 2, 0], weights)
        self.assertEqual(listed(forest)[2:], [[2**53, 2**53 + 1], [2, 1]])
        self.assertEqual(forest.w.dtype, np.uint64)

    def test_infinities_and_zeros_of_either_sign(self):
        weights = [math.inf, 0.0, -0.0, -math.inf, math.inf]
        forest = minimum_spanning_forest(5, [3, 2, 1, 0, 4], [4, 3, 2, 1, 3], weights)
        self.assertEqual(listed(forest)[3], [3, 2, 1, 0])
        self.assertEqual([math.copysign(1, it) for it in forest.w], [-1, -1, 1, 1])

    def test_doubles_that_differ_in_their_last_bit(self):
        least, one = 5e-324, 1.0
        weights = [np.nextafter(one, 2), one, least, -least, 0.0, -one, np.nextafter(-one, -2)]
        forest = minimum_spanning_forest(8, range(7), range(1, 8), weights)
        self.assertEqual(listed(forest)[3], [6, 5, 3, 4, 2, 1, 0])


class Rejected(unittest.TestCase):
    def expect(self, error, pattern, *given):
        with self.assertRaisesRegex(error, pattern):
            minimum_spanning_forest(*given)

    def test_ends_that_are_no_vertices(self):
        for end, dtype in [(3, np.int64), (-1, np.int64), (-1, np.int8), (-2, np.int32), (2**32, np.int64), (2**32 + 1, np.uint64), (2**32 - 1, np.uint32), (2**63, np.uint64), (-(2**63), np.int64)]:
            wrong = np.array([1, end], dtype)
            self.expect(ValueError, rf"^u\[1\] is {end}, ", 3, wrong, [1, 2], [1, 1])
            self.expect(ValueError, rf"^v\[1\] is {end}, ", 3, [1, 2], wrong, [1, 1])
        self.expect(ValueError, r"^u\[0\] is 0, .*n = 0$", 0, [0], [0], [1])

    def test_numbers_of_vertices_are_not_cut(self):
        for n in (-1, 2**26 + 1, 2**32, 2**32 + 3, 2**64 + 3):
            self.expect(ValueError, f"^n is {n}, ", n, [0], [1], [1])
            self.expect(ValueError, f"^n is {n}, ", n, [], [], [])

    def test_weights_without_an_order(self):
        for dtype in (np.float16, np.float32, np.float64):
            self.expect(ValueError, r"^w\[1\] is NaN", 3, [0, 1], [1, 2], np.array([1, math.nan], dtype))
            self.expect(ValueError, r"^w\[0\] is NaN", 3, [0, 1], [1, 2], np.array([-math.nan, 1], dtype))
        many = np.ones(100_000)
        many[77_777] = math.nan
        self.expect(ValueError, r"^w\[77777\] is NaN", 1, np.zeros(100_000, int), np.zeros(100_000, int), many)
        self.expect(ValueError, rf"^w\[1\] is {2**63}, ", 3, [0, 1], [1, 2], np.array([1, 2**63], np.uint64))
        for weights in ([1j, 2], ["a", "b"], [None, 1], [2**64, 1], np.array([1, 2], np.longdouble), np.array([1, 2], "M8[s]")):
            self.expect(TypeError, "^w has the dtype ", 3, [0, 1], [1, 2], weights)

    def test_ends_that_are_no_whole_numbers(self):
        for wrong in ([0.0, 1.0], [True, False], ["0", "1"], [None, 1], [2**64, 1]):
            self.expect(TypeError, "^u has the dtype ", 3, wrong, [1, 2], [1, 1])
            self.expect(TypeError, "^v has the dtype ", 3, [1, 2], wrong, [1, 1])

    def test_masked_entries(self):
        masked = np.ma.masked_equal([0, 1], 1)
        for place, name in enumerate("uvw"):
            given = [[0, 1], [1, 2], [1, 1]]
            given[place] = masked
            self.expect(ValueError, f"^{name} has masked entries", 3, *given)
        whole = np.ma.masked_equal([3, 4], 1)
        self.assertEqual(minimum_spanning_forest(3, [0, 1], [1, 2], whole).w.tolist(), [3, 4])

    def test_what_numpy_would_round(self):
        for weights in ([2**53 + 1, 0.5, 1], [0.5, 1, -(2**53) - 1], [2**63 + 1, 2**62 + 1, -1], [np.int64(2**53 + 1), np.float32(0.5), 1], [np.uint64(2**63 - 1), np.int64(-1), 2]):
            place = next(i for i, it in enumerate(weights) if abs(int(it)) > 2**53)
            for held in self.containers(weights):
                self.expect(ValueError, rf"^w\[{place}\] is {weights[place]}, which numpy would round", 3, [0, 0, 1], [1, 1, 2], held)

    def test_every_kind_of_sequence(self):
        for weights in ([2**60, 0.5, 1], [2**53, 0.5, 1], [-(2**63), 2.5, 2], [2**62, -1.5, 2**1000 * 1.0], [2**54 + 4, 0.5, True], [np.int64(2**60), np.float32(0.1), 3]):
            for held in self.containers(weights):
                forest = minimum_spanning_forest(4, [0, 1, 2], [1, 2, 3], held)
                order = sorted(range(3), key=lambda i: weights[i])
                self.assertEqual((forest.index.tolist(), forest.w.tolist()), (order, [weights[i] for i in order]))

    def test_buffers_in_forms_that_python_does_not_read(self):
        for dtype in ("f2", ">i4", ">f8", "<u2"):
            ends, weights = (memoryview(np.array(it, dtype)) for it in ([0, 1, 2], [3, 1, 2]))
            self.assertEqual(minimum_spanning_forest(3, [0, 1, 2], [1, 2, 0], weights).index.tolist(), [1, 2])
            if "f" not in dtype:
                self.assertEqual(minimum_spanning_forest(3, ends, [1, 2, 0], weights).index.tolist(), [1, 2])
                self.assertEqual(boruvka.from_edges({"u": ends, "v": ends[::-1], "w": weights}).names, [0, 1, 2])
        for points in (np.array([[2.0**60, 1], [2.0**59, 1]]), np.array([[2**60, 1], [2**59, 1]], ">f8")):
            self.assertEqual(boruvka.linkage.spanning_tree(memoryview(points)).w.tolist(), [2.0**59])

    def containers(self, numbers):
        """The same numbers in every kind of sequence."""
        whole = np.empty(len(numbers), object)
        whole[:] = numbers
        return [numbers, tuple(numbers), deque(numbers), [np.array(it) for it in numbers], deque(map(np.array, numbers)), whole, whole[::-1][::-1]]

    def test_objects_that_are_no_numbers(self):
        for wrong in (decimal.Decimal(1), fractions.Fraction(1, 2), None, "1", [1]):
            for held in ([wrong, 1], np.array([wrong, 1], object)):
                with self.assertRaises((TypeError, ValueError)):
                    minimum_spanning_forest(3, [0, 1], [1, 2], held)
        self.assertEqual(minimum_spanning_forest(3, np.array([0, 1], object), deque([1, 2]), np.array([2, 1], object)).index.tolist(), [1, 0])

    def test_shapes(self):
        for wrong in (0, [[0, 1]], np.zeros((2, 1), int)):
            for place, name in enumerate("uvw"):
                given = [[0, 1], [1, 2], [1, 1]]
                given[place] = wrong
                self.expect(ValueError, f"^{name} (has 2 dimensions|is 0, but )", 3, *given)
        for given in ([[0], [1, 2], [1, 2]], [[0, 1], [1], [1, 2]], [[0, 1], [1, 2], [1]], [[], [], [1]]):
            self.expect(ValueError, "^u, v and w differ in length: ", 3, *given)


class Arrays(unittest.TestCase):
    def test_columns_of_a_table(self):
        table = np.array([SMALL[0], [9] * 8, SMALL[1], SMALL[2]]).T
        self.assertEqual(listed(minimum_spanning_forest(6, table[:, 0], table[:, 2], table[:, 3])), SMALL_FOREST)
        turned = [np.array(it)[::-1] for it in SMALL]
        self.assertEqual(minimum_spanning_forest(6, *turned).index.tolist(), [7 - it for it in SMALL_FOREST[3]])

    def test_fields_of_a_record_that_are_not_aligned(self):
        packed = np.zeros(8, np.dtype([("mark", "u1"), ("u", "u4"), ("v", "i4"), ("w", "i8")]))
        packed["u"], packed["v"], packed["w"] = SMALL
        self.assertEqual(listed(minimum_spanning_forest(6, packed["u"], packed["v"], packed["w"])), SMALL_FOREST)
        whole = np.frombuffer(b"x" + np.array(SMALL[2], "i8").tobytes(), "i8", offset=1)
        self.assertEqual(listed(minimum_spanning_forest(6, *SMALL[:2], whole)), SMALL_FOREST)

    def test_one_array_for_both_endpoints(self):
        ends = np.arange(5, dtype=np.uint32)
        self.assertEqual(listed(minimum_spanning_forest(5, ends, ends, np.ones(5, np.int64))), [[]] * 4)
        table = np.array([0, 1, 2, 3], np.uint32)
        self.assertEqual(listed(minimum_spanning_forest(4, table[:-1], table[1:], np.array([3, 2, 1]))), [[2, 1, 0], [3, 2, 1], [1, 2, 3], [2, 1, 0]])

    def test_what_is_given_is_only_read(self):
        for ends in (np.uint32, np.int32, np.int64):
            for weights in (np.int64, np.float64, np.int32):
                given = [np.array(SMALL[0], ends), np.array(SMALL[1], ends), np.array(SMALL[2], weights)]
                for it in given:
                    it.flags.writeable = False
                forest = minimum_spanning_forest(6, *given)
                self.assertEqual(listed(forest), SMALL_FOREST)
                self.assertEqual([it.tolist() for it in given], [list(it) for it in SMALL])
                self.assertFalse(any(np.shares_memory(one, other) for one in forest for other in given))


class Drawn(unittest.TestCase):
    def test_a_thousand_graphs_against_kruskal_and_scipy(self):
        kinds = set()
        for seed in range(1000):
            graph = Graph(seed)
            kinds.add(graph.kind)
            before = [it.tobytes() for it in graph.held]
            with self.subTest(seed=seed, kind=graph.kind):
                forest, expected = minimum_spanning_forest(graph.n, *graph.held), by_key(graph)
                self.assertEqual(forest.index.tolist(), expected)
                ends = [(min(graph.u[i], graph.v[i]), max(graph.u[i], graph.v[i])) for i in expected]
                self.assertEqual(list(zip(forest.u.tolist(), forest.v.tolist())), ends)
                self.assertEqual(forest.w.tobytes(), graph.held[2][expected].tobytes())
                self.assertEqual([it.tobytes() for it in graph.held], before)
                if sparse:
                    self.expect_scipys(graph, forest)
        self.assertEqual(kinds, set(KINDS))

    def test_maximum_spanning_forests_against_kruskal(self):
        for seed in range(1000):
            graph = Graph(seed)
            with self.subTest(seed=seed, kind=graph.kind):
                before = [it.tobytes() for it in graph.held]
                forest = minimum_spanning_forest(graph.n, *graph.held, maximum=True)
                self.assertEqual(forest.index.tolist(), by_key(graph, maximum=True))
                self.assertEqual(forest.w.tobytes(), graph.held[2][forest.index].tobytes())
                self.assertEqual([it.tobytes() for it in graph.held], before)

    def expect_scipys(self, graph, forest):
        """The number of edges that connect scipy's components, and scipy's total weight, as far as doubles are exact."""
        weights = np.array(graph.w, np.float64)
        # (scipy drops edges of weight 0, and adds up parallel ones unless a csr_matrix is built with them)
        order = np.argsort(graph.u, kind="stable")
        starts = np.concatenate([[0], np.cumsum(np.bincount(graph.u, minlength=graph.n))]) if graph.u else np.zeros(graph.n + 1, int)
        matrix = sparse.csr_matrix((weights[order], np.array(graph.v, int)[order], starts), shape=(graph.n, graph.n))
        self.assertEqual(len(forest.w), graph.n - csgraph.connected_components(matrix, directed=False)[0])
        found = forest.w.astype(np.float64)
        self.assertEqual(sorted(found[found != 0]), sorted(csgraph.minimum_spanning_tree(matrix).data))

    def test_a_larger_one_of_each_dtype(self):
        draw = np.random.default_rng(1)
        n, m = 3000, 20000
        u, v = draw.integers(0, n, m), draw.integers(0, n, m)
        for dtype in "b B h H i I l L e f d ?".split():
            graph = Graph(0)
            graph.n, graph.u, graph.v = n, u.tolist(), v.tolist()
            weights = draw.integers(0, 2 if dtype == "?" else 100, m).astype(dtype)
            graph.w = weights.tolist()
            with self.subTest(dtype=dtype):
                for maximum in (False, True):
                    found = minimum_spanning_forest(n, u, v, weights, maximum=maximum)
                    self.assertEqual(found.index.tolist(), by_key(graph, maximum))

    def test_the_ends_of_each_dtype(self):
        for dtype in "b B h H i I l e f d ?".split():
            about = np.finfo(dtype) if dtype in "efd" else np.iinfo(dtype) if dtype != "?" else None
            least, most = (about.min, about.max) if about else (False, True)
            ends = [most, least, 1, 0, least, most, least + 1 if about else True]
            ends += [about.smallest_subnormal, -about.smallest_subnormal, np.inf, -np.inf, -0.0] if dtype in "efd" else []
            weights = np.array(ends, dtype)
            graph = Graph(0)
            graph.n, graph.u, graph.v, graph.w = 4, [i % 4 for i in range(len(ends))], [(i // 4 + i + 1) % 4 for i in range(len(ends))], weights.tolist()
            with self.subTest(dtype=dtype):
                for maximum in (False, True):
                    found = minimum_spanning_forest(4, graph.u, graph.v, weights, maximum=maximum)
                    self.assertEqual(found.index.tolist(), by_key(graph, maximum))

    def test_floats_next_to_0_keep_their_order_where_they_are_switched_off(self):
        for dtype in (np.float16, np.float32, np.float64, np.dtype(">f8")):
            step = float(np.finfo(dtype).smallest_subnormal)
            weights = np.array([3 * step, -2 * step, step, 0, -0.0, -step, 2 * step], dtype)
            ends = np.arange(7)
            expected = sorted(range(7), key=lambda i: weights[i])
            with without_subnormals():
                is_off = float(np.float64(5e-324) + np.float64(0)) == 0
                found = minimum_spanning_forest(8, ends, ends + 1, weights).index.tolist()
            self.assertTrue(is_off)
            self.assertEqual(found, expected)
        # (equal edges are in the order of their endpoints)
        self.assertEqual(expected, [1, 5, 3, 4, 2, 6, 0])


# another thread writes an array while calls read it
RACE = """
import sys, threading, time
import numpy as np
from boruvka import minimum_spanning_forest
draw = np.random.default_rng(0)
n, m = 50_000, 200_000
u, v, w = draw.integers(0, n, m).astype("i4"), draw.integers(0, n, m).astype(sys.argv[1]), draw.integers(0, 10**9, m)
written, values = {"u": (u, [2**31 - 1, -5]), "v": (v, [n, -5]), "w": (w, [-(2**63), 2**63 - 1])}[sys.argv[2]]
is_over = False
def write():
    while not is_over:
        place = int(draw.integers(m))
        before = written[place]
        for it in values:
            written[place] = it
            time.sleep(0)
        written[place] = before
thread = threading.Thread(target=write, daemon=True)
thread.start()
end = time.monotonic() + 2.5
seen = set()
while time.monotonic() < end:
    try:
        minimum_spanning_forest(n, u, v, w)
    except ValueError as error:
        seen.add(str(error).split(" ")[-1])
is_over = True
thread.join()
print("whole", *sorted(seen))
"""


class Threads(unittest.TestCase):
    def test_arrays_that_another_thread_writes_end_no_process(self):
        for dtype, name in (("i4", "u"), ("i8", "v"), ("i4", "w")):
            ended = subprocess.run([sys.executable, "-c", RACE, dtype, name], capture_output=True, text=True, timeout=60, env={**os.environ, "PYTHONPATH": os.pathsep.join(sys.path)})
            self.assertEqual((name, ended.returncode, ended.stdout[:5], ended.stderr), (name, 0, "whole", ""))

    def test_the_library_reads_endpoints_of_its_own(self):
        """The checked copy is what the call uses; an array that nobody can write isn't copied."""
        read = []

        def places(n, u, v, w, threads):
            read[:] = u, v
            return _threads.indices_by_threads(n, u, v, w, threads)

        u, v, w = (np.arange(it, it + 4, dtype=np.int32) for it in (0, 1, 0))
        with mock.patch("boruvka._edges.indices_by_threads", places):
            for ends in (u, u.view(np.uint32), u[::-1], u.astype(">i4"), np.repeat(u, 2)[::2]):
                minimum_spanning_forest(5, ends, v, w)
                self.assertFalse(np.shares_memory(read[0], ends) or np.shares_memory(read[1], v))
                view = ends[:]
                view.flags.writeable = False
                minimum_spanning_forest(5, view, v, w)
                self.assertFalse(np.shares_memory(read[0], ends))
            u.flags.writeable = False
            minimum_spanning_forest(5, u, v, w)
            self.assertEqual((np.shares_memory(read[0], u), np.shares_memory(read[1], v)), (True, False))

    def test_four_at_once_over_the_same_arrays(self):
        graphs = [Graph(seed) for seed in range(40)]
        expected = [by_key(it) for it in graphs]
        found = [[] for _ in range(4)]
        together = threading.Barrier(4)

        def run(into):
            together.wait()
            for _ in range(5):
                into += [minimum_spanning_forest(it.n, *it.held).index.tolist() for it in graphs]

        threads = [threading.Thread(target=run, args=[it]) for it in found]
        for it in threads:
            it.start()
        for it in threads:
            it.join()
        self.assertEqual(found, [expected * 5] * 4)


class Names(unittest.TestCase):
    def test_each_public_name_says_what_it_is(self):
        self.assertEqual(boruvka.__all__, ["Forest", "forest_of_chunks", "from_edges", "minimum_spanning_forest", "read_gr", "show", "write_gr"])
        self.assertIs(boruvka.linkage.labels, __import__("boruvka.linkage").linkage.labels)
        self.assertIn("sparse", dir(boruvka))
        # (the version that is installed, if any)
        if hasattr(boruvka, "__version__"):
            self.assertRegex(boruvka.__version__, r"^\d+\.\d+\.\d+$")
        with self.assertRaises(AttributeError):
            boruvka.no_such_name
        for it in map(boruvka.__dict__.get, boruvka.__all__):
            self.assertGreater(len(it.__doc__), 80)


if __name__ == "__main__":
    unittest.main()
