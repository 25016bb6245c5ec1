"""`forest_of_chunks`, and `minimum_spanning_forest` on several threads: both merge forests of parts."""

import contextlib
import doctest
import io
import math
import random
import os
import threading
import tracemalloc
import unittest
import warnings
import weakref
from unittest import mock

import numpy as np

from boruvka import Forest, _chunks, _library, _threads, forest_of_chunks, from_edges, minimum_spanning_forest
from graphs import Graph, by_key
from test_forest import SMALL, SMALL_FOREST, listed


def cut(draw, m, size):
    """The starts of the chunks, and the end of the last one. None is longer than this, and some are empty."""
    cuts = [0]
    while cuts[-1] < m:
        cuts.append(min(m, cuts[-1] + draw.choice([0, 1, size, draw.randint(0, size)])))
    return [*cuts, m]


def chunks_of(columns, cuts):
    return [tuple(it[start:end] for it in columns) for start, end in zip(cuts, cuts[1:])]


def bounded(most):
    """Store at most so many edges per vertex, or so many in all if there are fewer vertices."""
    return mock.patch.multiple(_chunks, _PER_VERTEX=most, _AT_LEAST=most)


def each_part_is_worth_a_thread():
    return mock.patch.multiple(_threads, _WORTH=0, _A_PART=0, _processors=lambda: 64)


class Documented(unittest.TestCase):
    def test_the_small_net_in_two_chunks(self):
        forest = forest_of_chunks(6, chunks_of(SMALL, [0, 3, 8]))
        self.assertEqual(listed(forest), [*SMALL_FOREST[:3], [[1, 3], [1, 1], [1, 0], [1, 2], [0, 1]]])
        self.assertEqual([it.dtype for it in forest], [np.intp, np.intp, np.int64, np.int64])
        self.assertEqual((forest.n, forest.maximum, forest.components), (6, False, 1))

    def test_of_equal_edges_the_first_row_of_the_first_chunk_counts(self):
        chunks = [([1], [0], [4]), ([], [], []), ([0, 0, 1], [1, 1, 0], [3, 3, 3]), ([1, 2, 1], [0, 1, 2], [3, 7, 7])]
        for most in (2, 8):
            with bounded(most):
                self.assertEqual(listed(forest_of_chunks(3, chunks)), [[0, 1], [1, 2], [3, 7], [[2, 0], [3, 1]]])
                self.assertEqual(listed(forest_of_chunks(3, chunks, maximum=True)), [[1, 0], [2, 1], [7, 4], [[3, 1], [0, 0]]])

    def test_no_edges(self):
        for n in (0, 1, 5, 2**26):
            for chunks in ([], [([], [], [])] * 3, iter(()), [(np.empty(0, np.int8),) * 3]):
                forest = forest_of_chunks(n, chunks)
                self.assertEqual(listed(forest), [[]] * 4)
                self.assertEqual((forest.n, forest.index.shape, forest.total), (n, (0, 2), 0))

    def test_forests_of_parts_are_merged(self):
        whole = minimum_spanning_forest(6, *SMALL)
        parts = [minimum_spanning_forest(6, *it) for it in chunks_of(SMALL, [0, 2, 5, 8])]
        merged = forest_of_chunks(6, [(it.u, it.v, it.w) for it in parts])
        self.assertEqual(listed(merged)[:3], listed(whole)[:3])
        self.assertEqual([(0, 2, 5)[part] + int(parts[part].index[row]) for part, row in merged.index], SMALL_FOREST[3])


class Drawn(unittest.TestCase):
    def expect_forest(self, graph, size, maximum, seed):
        """Expect the forest of Kruskal's algorithm on all edges, with the same chunks and rows."""
        cuts = cut(random.Random(seed), len(graph.w), size)
        found = forest_of_chunks(graph.n, iter(chunks_of(graph.held, cuts)), maximum=maximum)
        wanted = by_key(graph, maximum)
        self.assertEqual([cuts[chunk] + row for chunk, row in found.index.tolist()], wanted)
        self.assertTrue(all(row < cuts[chunk + 1] - cuts[chunk] for chunk, row in found.index.tolist()))
        ends = [(min(graph.u[i], graph.v[i]), max(graph.u[i], graph.v[i])) for i in wanted]
        self.assertEqual(list(zip(found.u.tolist(), found.v.tolist())), ends)
        self.assertEqual(found.w.tobytes(), graph.held[2][wanted].astype(found.w.dtype).tobytes())

    def test_in_chunks_of_many_sizes_and_within_many_bounds(self):
        for seed in range(240):
            graph = Graph(seed)
            most, size, maximum = ((2, 3, 8)[seed % 3], (1, 5, 40, 1000)[seed % 4], seed // 3 % 2 == 1)
            before = [it.tobytes() for it in graph.held]
            with self.subTest(seed=seed, kind=graph.kind), bounded(most):
                self.expect_forest(graph, size, maximum, seed)
                self.assertEqual([it.tobytes() for it in graph.held], before)

    def test_with_many_ties_between_few_vertices(self):
        for seed in range(240, 300):
            graph = Graph(seed, ["ties", "yes and no"])
            with self.subTest(seed=seed), bounded(2):
                self.expect_forest(graph, 7, seed % 2 == 1, seed)

    def test_at_the_bound(self):
        """As many edges as can be stored, one more and one less: in one chunk, in two, and one by one."""
        most = 64
        with mock.patch.multiple(_chunks, _PER_VERTEX=8, _AT_LEAST=1):
            for m in [*range(most - 1, most + 2), *range(most + 56, most + 60)]:
                for seed in range(6):
                    graph = Graph(0)
                    draw = random.Random(seed)
                    graph.n = 8
                    graph.u, graph.v = ([draw.randrange(8) for _ in range(m)] for _ in "uv")
                    # descending, ascending, and all equal: then every edge, the first few, or those with the least
                    # endpoints are chosen
                    graph.w = [(-place, place, 3)[seed % 3] for place in range(m)]
                    graph.held = [np.array(it) for it in (graph.u, graph.v, graph.w)]
                    for size in (1, m // 2, m):
                        with self.subTest(m=m, seed=seed, size=size):
                            self.expect_forest(graph, size, seed > 3, seed)

    def test_one_past_every_inner_size(self):
        draw = np.random.default_rng(81)
        graph = Graph(0)
        graph.n, m = 9000, 200_000
        graph.held = [draw.integers(0, graph.n, m), draw.integers(0, graph.n, m), draw.integers(0, 50, m)]
        graph.u, graph.v, graph.w = (it.tolist() for it in graph.held)
        self.assertGreater(m, 2 * max(_chunks._PER_VERTEX * graph.n, _chunks._AT_LEAST))
        for size in (m, 30_000):
            self.expect_forest(graph, size, False, size)


class Kept(unittest.TestCase):
    """The memory used during a call."""

    def test_no_more_than_the_bound_and_a_chunk(self):
        n, rows, parts = 2000, 20_000, 100
        draw = np.random.default_rng(1)
        sizes = []

        def chunks():
            for _ in range(parts):
                yield draw.integers(0, n, rows, np.int32), draw.integers(0, n, rows, np.int32), draw.integers(0, 10**6, rows)

        def places(count, u, v, w):
            sizes.append(len(w))
            return reduced(count, u, v, w)

        reduced = _chunks.indices_of_checked
        most = max(_chunks._PER_VERTEX * n, _chunks._AT_LEAST)
        tracemalloc.start()
        self.addCleanup(tracemalloc.stop)
        with mock.patch.object(_chunks, "indices_of_checked", places):
            forest = forest_of_chunks(n, chunks())
        peak = tracemalloc.get_traced_memory()[1]
        self.assertEqual((len(forest), max(sizes)), (n - 1, most))
        self.assertLess(len(sizes), 2 + rows * parts / (most - n))
        # (the library's own memory isn't traced; all edges at once are 32 MB)
        self.assertLess(peak, 60 * most + 3 * 16 * rows)

    def test_forests_of_parts_are_chunks(self):
        for seed in range(60):
            graph = Graph(seed)
            maximum = seed % 2 == 1
            cuts = sorted(np.random.default_rng(seed).integers(0, len(graph.w) + 1, 2).tolist())
            parts = [[held[one:other] for held in graph.held] for one, other in zip([0, *cuts], [*cuts, len(graph.w)])]
            forests = [minimum_spanning_forest(graph.n, *it, maximum=maximum) for it in parts]
            whole = minimum_spanning_forest(graph.n, *graph.held, maximum=maximum)
            for mixed in (forests, [forests[0], tuple(parts[1]), forests[2]]):
                found = forest_of_chunks(graph.n, mixed, maximum=maximum)
                self.assertEqual((found.u.tolist(), found.v.tolist(), found.w.tolist()), (whole.u.tolist(), whole.v.tolist(), whole.w.tolist()))
                for (chunk, row), w in zip(found.index.tolist(), found.w.tolist()):
                    self.assertEqual(mixed[chunk].w[row] if isinstance(mixed[chunk], Forest) else mixed[chunk][2][row], w)

    def test_one_chunk_at_a_time(self):
        last = []

        def chunks():
            for number in range(5):
                self.assertTrue(all(it() is None for it in last), number)
                chunk = [np.array([0, 1]), np.array([1, 2]), np.array([number, 5.5])]
                last[:] = map(weakref.ref, chunk)
                yield chunk
                del chunk

        self.assertEqual(forest_of_chunks(3, chunks()).index.tolist(), [[0, 0], [0, 1]])

    def test_arrays_that_are_used_again_for_the_next_chunk(self):
        u, v, w = np.zeros(2, np.uint32), np.zeros(2, np.uint32), np.zeros(2, np.int64)

        def chunks():
            for edges in ([(0, 1, 9), (1, 2, 8)], [(2, 3, 7), (0, 3, 6)], [(0, 0, 0), (0, 0, 0)]):
                u[:], v[:], w[:] = zip(*edges)
                yield u, v, w

        self.assertEqual(listed(forest_of_chunks(4, chunks())), [[0, 2, 1], [3, 3, 2], [6, 7, 8], [[1, 1], [1, 0], [0, 1]]])

    def test_results_share_no_memory(self):
        given = [np.tile(it, 1000) for it in SMALL]
        for it in given:
            it.flags.writeable = False
        forest = forest_of_chunks(6, [given])
        self.assertEqual(listed(forest)[:3], SMALL_FOREST[:3])
        self.assertFalse(any(np.shares_memory(one, other) for one in forest for other in given))
        # (nor does it refer to the capacity of the stored columns)
        self.assertTrue(all(it.base is None or it.base.nbytes < 1000 for it in forest))


class Weights(unittest.TestCase):
    """The weights of chunks of different dtypes."""

    def forest(self, *weights, **pattern):
        """For a path with one edge per chunk: the chunks, and the weights expected."""
        forest = forest_of_chunks(len(weights) + 1, [([i], [i + 1], it) for i, it in enumerate(weights)], **pattern)
        held = dict(zip(forest.index[:, 0].tolist(), forest.w.tolist()))
        return forest, [held[i] for i in range(len(weights))]

    def test_a_dtype_for_all_weights(self):
        for dtypes, wanted in [
            ("bb", "b"), ("bB", "h"), ("iI", "l"), ("lL", "l"), ("Ll", "l"), ("bL", "l"), ("LL", "L"), ("??", "?"), ("?b", "b"), ("?d", "d"),
            ("ef", "f"), ("be", "e"), ("he", "f"), ("if", "d"), ("fi", "d"), ("lf", "d"), ("dL", "d"), ("Lbl", "l"), ("BhI", "l"), ("lLd", "d"),
        ]:  # fmt: skip
            for most in (2, 100):
                with self.subTest(dtypes=dtypes, most=most), bounded(most):
                    forest, held = self.forest(*(np.array([i % 2], it) for i, it in enumerate(dtypes)))
                    self.assertEqual((forest.w.dtype, held), (np.dtype(wanted), [i % 2 for i in range(len(dtypes))]))

    def test_lists_of_whole_numbers_and_of_decimals(self):
        forest, held = self.forest([3], [2.5], [2])
        self.assertEqual((held, forest.index[:, 0].tolist(), forest.w.dtype), ([3, 2.5, 2], [2, 1, 0], np.dtype(float)))

    def test_a_chunk_without_edges_has_no_say(self):
        for none in ([], np.empty(0, np.float64)):
            forest = forest_of_chunks(3, [(none, none, none), ([0, 1], [1, 2], [2**53 + 1, 2**53]), (none, none, none)])
            self.assertEqual((forest.w.tolist(), forest.w.dtype), ([2**53, 2**53 + 1], np.dtype(np.int64)))

    def test_whole_numbers_that_are_doubles_may_be_large(self):
        for whole in (2**53, -(2**53), 2**53 + 2, 2**62, 2**63 - 1024, -(2**63)):
            for weights in ([[whole], [0.5]], [[0.5], [whole]]):
                self.assertEqual(self.forest(*weights)[1], [it[0] for it in weights])
        self.assertEqual(self.forest(np.array([2**63 - 1024], np.uint64), [0.5])[1], [2**63 - 1024, 0.5])

    def test_no_whole_number_is_rounded(self):
        """No conversion overflows, of which numpy would warn."""
        strict = warnings.catch_warnings()
        strict.__enter__()
        self.addCleanup(strict.__exit__, None, None, None)
        warnings.simplefilter("error")
        for whole in (2**53 + 1, -(2**53) - 1, 2**62 + 1, 2**63 - 1, 2**63 - 1023, 1 - 2**63):
            for held in ([0, whole], np.array([0, whole]), np.array([0, abs(whole)], np.uint64)):
                bad = ([0, 1], [1, 2], held)
                fine, floats = ([0], [1], [1]), ([0], [1], [1.0])
                output = rf"w\[1\] of chunk {{}} is {held[1]}, which would be rounded, because chunk {{}} has floats: use one dtype$"
                for chunks, number, row, first in [
                    ([bad, floats], 1, 0, 1), ([floats, bad], 1, 1, 0), ([fine, bad, fine, floats], 3, 1, 3), ([fine, floats, floats, bad], 3, 3, 1),
                ]:  # fmt: skip
                    # (whether it is still stored or not)
                    for most in (2, 100):
                        with bounded(most), self.assertRaisesRegex(ValueError, f"^chunk {number}: {output.format(row, first)}"):
                            forest_of_chunks(3, chunks)

    def test_a_weight_that_was_left_out_counts_too(self):
        heavy = ([0] * 40, [1] * 40, [2**53 + 1] * 40)
        light = ([0] * 40, [1] * 40, [1] * 40)
        for most in (2, 1000):
            with bounded(most), self.assertRaisesRegex(ValueError, r"^chunk 2: w\[0\] of chunk 0 is 9007199254740993, "):
                forest_of_chunks(3, [heavy, light, ([0], [1], [0.5])])

    def test_special_floats(self):
        forest, held = self.forest([math.inf], [-0.0], np.array([-math.inf], np.float32), np.array([5e-324], ">f8"))
        self.assertEqual((held, forest.index[:, 0].tolist()), ([math.inf, 0, -math.inf, 5e-324], [2, 1, 3, 0]))
        self.assertEqual(math.copysign(1, held[1]), -1)
        for weights in ([], [[1.5]], [np.array([1.5], ">f4")]):
            forest, held = self.forest(np.array([5e-324], ">f8"), *weights)
            self.assertEqual((forest.w.dtype, held[0]), (np.dtype(np.float64), 5e-324))
            self.assertTrue(forest.w.dtype.isnative)


class Rejected(unittest.TestCase):
    FINE = ([0, 1], [1, 2], [1, 1])

    def expect(self, error, pattern, *chunks, n=3):
        with self.assertRaisesRegex(error, pattern):
            forest_of_chunks(n, chunks)

    def test_what_is_no_vertex_no_weight_or_no_column(self):
        for error, pattern, chunk in [
            (ValueError, r"u\[1\] is 3, but a vertex is at least 0 and below n = 3$", ([0, 3], [1, 2], [1, 1])),
            (ValueError, r"v\[0\] is -1, ", ([0, 1], [-1, 2], [1, 1])),
            (ValueError, r"v\[1\] is 4294967296, ", ([0, 1], [1, 2**32], [1, 1])),
            (ValueError, r"v\[1\] is 3, .*: are they numbered from 1\?$", ([1, 2], [2, 3], [1, 1])),
            (TypeError, r"u has the dtype float64, .*: \.astype\(int\)", ([0.0, 1.0], [1, 2], [1, 1])),
            (TypeError, r"v has the dtype <U1, .*: boruvka.from_edges", ([0, 1], ["a", "b"], [1, 1])),
            (ValueError, r"w\[1\] is NaN, which can't be ordered", ([0, 1], [1, 2], [1, math.nan])),
            (ValueError, r"w\[0\] is 9223372036854775808, but a weight", ([0], [1], np.array([2**63], np.uint64))),
            (ValueError, r"w\[0\] is 9007199254740993, which numpy would round", ([0, 1], [1, 2], [2**53 + 1, 0.5])),
            (TypeError, r"w has the dtype complex128", ([0], [1], [1j])),
            (TypeError, r"w has the dtype object", ([0], [1], [None])),
            (ValueError, r"w has masked entries", ([0, 1], [1, 2], np.ma.array([1, 1], mask=[0, 1]))),
            (ValueError, r"u has masked entries", (np.ma.array([0, 1], mask=[0, 1]), [1, 2], [1, 1])),
            (ValueError, r"u, v and w differ in length: 2, 2 and 1$", ([0, 1], [1, 2], [1])),
            (ValueError, r"u, v and w differ in length: 2, 1 and 2$", ([0, 1], [1], [1, 1])),
            (TypeError, r"it has numbers instead of columns, so it may be a column: \[\(u, v, w\)\] has one chunk$", (0, 1, 5)),
            (ValueError, r"u is 0, but has to be an array or a list", (0, [1], [5])),
            (ValueError, r"u has 2 dimensions", ([[0, 1]], [[1, 2]], [[1, 1]])),
            (TypeError, r"it has the length 2, but needs three columns", ([[0, 1], [1, 2]], [1, 1])),
            (TypeError, r"it has the length 4, ", tuple(minimum_spanning_forest(3, *self.FINE))),
            (TypeError, r"it has the length 0, ", ()),
            (TypeError, r"it is a NoneType, ", None),
            (ValueError, r"it is a maximum forest, which lacks edges that a minimum forest may need: find both with", minimum_spanning_forest(3, *self.FINE, maximum=True)),
            (ValueError, r"it is a forest with names, .*: boruvka\.from_edges takes pandas\.concat", from_edges({"u": ["a"], "v": ["b"], "w": [1]})),
            (ValueError, r"v\[0\] is 8, but a vertex is at least 0 and below n = 3", minimum_spanning_forest([0], [8], [1])),
            (TypeError, r"it is a ndarray, ", np.zeros((3, 3), int)),
            (TypeError, r"it is a dict, ", dict(zip("uvw", self.FINE))),
            (TypeError, r"it is a str, ", "uvw"),
        ]:
            with self.subTest(pattern=pattern):
                self.expect(error, f"^chunk 0: {pattern}", chunk)
                self.expect(error, f"^chunk 2: {pattern}", self.FINE, ([], [], []), chunk, self.FINE)

    def test_chunks_are_not_asked_for_before_n_is_judged(self):
        for error, pattern, n in [
            (TypeError, "^n is None, but has to be a whole number", None),
            (TypeError, "^n is 3.0, ", 3.0),
            (TypeError, r"^n is \[", [[0, 1]]),
            (ValueError, "^n is -1, but has to be from 0 to 2\\^26$", -1),
            (ValueError, "^n is 67108865, ", 2**26 + 1),
        ]:
            with self.assertRaisesRegex(error, pattern):
                forest_of_chunks(n, iter(lambda: self.fail("a chunk was asked for"), 0))
        self.expect(ValueError, r"^chunk 0: u\[0\] is 0, .*n = 0$", ([0], [0], [1]), n=0)

    def test_what_are_no_chunks(self):
        for chunks in (None, 5, forest_of_chunks):
            with self.assertRaisesRegex(TypeError, "^chunks is .*, but has to be an iterable of"):
                forest_of_chunks(3, chunks)
        # (three columns instead of chunks)
        with self.assertRaisesRegex(TypeError, "^chunk 0: it has numbers instead of columns, so it may be a column"):
            forest_of_chunks(3, ([0, 1, 2], [1, 2, 0], [1, 1, 1]))
        with self.assertRaisesRegex(TypeError, r"^chunks is <Forest of .*, but has to be an iterable of .*: \[\(u, v, w\)\] has one chunk$"):
            forest_of_chunks(3, minimum_spanning_forest(3, *self.FINE))
        with self.assertRaisesRegex(TypeError, "^chunk 0: it is a ndarray"):
            forest_of_chunks(3, tuple(map(np.array, self.FINE)))
        with self.assertRaisesRegex(TypeError, "^chunk 0: it is a str"):
            forest_of_chunks(3, dict(zip("uvw", self.FINE)))

    def test_what_the_iterable_raises_is_passed_on(self):
        for error in (ValueError("the file ends"), OSError(5, "no disk"), KeyboardInterrupt(), MemoryError("mine")):

            def chunks(error=error):
                yield self.FINE
                raise error

            with self.assertRaises(type(error)) as raised:
                forest_of_chunks(3, chunks())
            self.assertIs(raised.exception, error)

    def test_a_generator_that_ends_early_has_given_what_it_gave(self):
        def chunks():
            yield self.FINE
            return
            yield ([0], [1], [0])

        self.assertEqual(forest_of_chunks(3, chunks()).index.tolist(), [[0, 0], [0, 1]])


class Pairs(unittest.TestCase):
    """A forest whose `index` has chunks and rows."""

    def setUp(self):
        self.forest = forest_of_chunks(7, chunks_of(SMALL, [0, 3, 8]))

    def test_what_it_tells(self):
        self.assertIn("<td>[1, 3]</td>", self.forest._repr_html_())
        self.assertEqual(self.forest, forest_of_chunks(7, chunks_of(SMALL, [0, 3, 8])))
        self.assertNotEqual(self.forest, forest_of_chunks(7, chunks_of(SMALL, [0, 2, 8])))
        self.assertNotEqual(self.forest, minimum_spanning_forest(7, *SMALL))
        self.assertEqual(self.forest.labels(clusters=2).tolist(), [0, 0, 0, 0, 0, 0, 1])
        self.assertEqual(self.forest.bottleneck(0, 5)._replace(index=1), minimum_spanning_forest(7, *SMALL).bottleneck(0, 5))
        chunk, row = self.forest.index.T
        self.assertEqual((chunk.tolist(), row.tolist()), ([1, 1, 1, 1, 0], [3, 1, 0, 2, 1]))

    def test_as_a_frame(self):
        try:
            import pandas  # noqa: F401
        except ImportError:
            self.skipTest("there is no pandas")
        frame = self.forest.to_frame()
        self.assertEqual(list(frame), ["u", "v", "w", "chunk", "row"])
        self.assertEqual([frame[it].tolist() for it in frame], [*SMALL_FOREST[:3], [1, 1, 1, 1, 0], [3, 1, 0, 2, 1]])

    def test_no_other_shape(self):
        for index in (np.zeros((2, 3), int), np.zeros((1, 2), int), np.zeros((2, 2, 2), int), 0):
            with self.assertRaisesRegex(ValueError, "^u, v, w and index have the shapes"):
                Forest([0, 1], [1, 2], [5, 6], index)


class Documents(unittest.TestCase):
    def test_the_examples_and_the_parts_of_the_docstring(self):
        output = io.StringIO()
        with contextlib.redirect_stdout(output):
            failed, tried = doctest.testmod(_chunks, verbose=False)
        self.assertEqual((failed, output.getvalue()), (0, ""))
        self.assertGreaterEqual(tried, 5)
        for part in ("Parameters", "Returns", "Raises", "Notes", "Examples"):
            self.assertIn(f"    {part}\n    ---", forest_of_chunks.__doc__)


class Threads(unittest.TestCase):
    """`threads` of `minimum_spanning_forest`."""

    def test_the_same_forest_and_indices(self):
        for seed in range(200):
            graph = Graph(seed)
            maximum = seed % 2 == 1
            with self.subTest(seed=seed, kind=graph.kind), each_part_is_worth_a_thread():
                for threads in (1, 2, 3 + seed % 5):
                    found = minimum_spanning_forest(graph.n, *graph.held, maximum=maximum, threads=threads)
                    self.assertEqual(found.index.tolist(), by_key(graph, maximum))

    def test_a_larger_one_with_many_ties(self):
        draw = np.random.default_rng(2)
        graph = Graph(0)
        graph.n, m = 1000, 40_000
        graph.held = [draw.integers(0, graph.n, m), draw.integers(0, graph.n, m), draw.integers(0, 9, m) / 8]
        graph.u, graph.v, graph.w = (it.tolist() for it in graph.held)
        wanted = by_key(graph)
        for threads in (1, 2, 4, np.int8(7), 1000):
            self.assertEqual(minimum_spanning_forest(*graph.held, threads=threads).index.tolist(), wanted)

    def test_as_many_as_are_worth_it(self):
        """Each thread has a part of the edges, and all run at once; then one call merges their forests."""
        n, calls = 50, []

        def places(count, u, v, w):
            calls.append((len(w), threading.get_ident()))
            if parts > 1 and len(w) == m // parts:
                together.wait(30)
            return whole(count, u, v, w)

        whole = _library.indices
        few = [(1, 4, 9, 1), (15, 4, 9, 1), (15, 2, 9, 1), (16, 4, 9, 2), (16, 2, 9, 2), (18, 9, 9, 3), (24, 4, 9, 4), (24, 9, 9, 4)]
        many = [(64, 1, 9, 1), (64, 3, 9, 3), (64, 10**6, 9, 9), (64, 10**6, 5, 5), (64, 10**30, 1, 1), (64, 4, 2, 2), (24, 10**6, 9, 4)]
        for edges, threads, processors, parts in few + many:
            m = n * edges // parts * parts
            ends = np.arange(m) % n
            together = threading.Barrier(parts)
            calls.clear()
            with mock.patch.object(_library, "indices", places), mock.patch.object(_threads, "_processors", lambda: processors):
                forest = minimum_spanning_forest(n, ends, (ends + 1) % n, np.arange(m), threads=threads)
            self.assertEqual(forest.index.tolist(), list(range(n - 1)))
            self.assertEqual([it[0] for it in calls], [m // parts] * parts + [parts * (n - 1)] * (parts > 1))
            self.assertEqual(len({it[1] for it in calls[:parts]}), parts)

    def test_no_more_than_processors(self):
        self.assertEqual(_threads._processors(), len(os.sched_getaffinity(0)))
        # (with two vertices, ten thousand parts would each be large enough for a thread)
        m = 120_000
        before, most = threading.active_count(), []
        whole = _library.indices

        def places(count, u, v, w):
            most.append(threading.active_count() - before)
            return whole(count, u, v, w)

        with mock.patch.object(_library, "indices", places):
            weights = np.arange(m, 0, -1, np.int64)
            forest = minimum_spanning_forest(2, np.zeros(m, np.int32), np.ones(m, np.int32), weights, threads=10**6)
        self.assertEqual(forest.index.tolist(), [m - 1])
        self.assertLessEqual(max(most), _threads._processors())

    def test_errors_name_the_rows_of_the_whole(self):
        with each_part_is_worth_a_thread():
            for pattern, column, wrong in [(r"^u\[17\] is 9, ", 0, 9), (r"^v\[17\] is -1, ", 1, -1), (r"^w\[17\] is NaN", 2, math.nan)]:
                columns = [[0] * 20, [1] * 20, [0.5] * 20]
                columns[column][17] = wrong
                with self.assertRaisesRegex(ValueError, pattern):
                    minimum_spanning_forest(3, *columns, threads=4)

    def test_no_number_of_threads(self):
        for threads in (0, -1):
            with self.assertRaisesRegex(ValueError, f"^threads is {threads}, but has to be at least 1$"):
                minimum_spanning_forest(2, [0], [1], [1], threads=threads)
        for threads in (1.0, None, "2", True):
            with self.assertRaisesRegex(TypeError, "^threads is .*, but has to be a whole number$"):
                minimum_spanning_forest(2, [0], [1], [1], threads=threads)

    def test_an_error_in_a_thread_is_passed_on(self):
        def places(count, u, v, w):
            raise MemoryError("no memory for the forest")

        with mock.patch.object(_library, "indices", places), each_part_is_worth_a_thread():
            with self.assertRaises(MemoryError):
                minimum_spanning_forest(2, [0, 0], [1, 1], [1, 2], threads=2)


if __name__ == "__main__":
    unittest.main()
