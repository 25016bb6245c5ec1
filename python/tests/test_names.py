"""Names of vertices: their order, the rows that they choose, and names that are rejected or suspicious."""

import datetime
import decimal
import fractions
import math
import random
import unittest
import uuid
import warnings

import numpy as np

import boruvka
from boruvka import _names
from graphs import Graph, by_key

try:
    import pandas
except ImportError:
    pandas = None
try:
    import dask.dataframe
except ImportError:
    dask = None

TOWNS = ["Bath", "Ely", "Rye", "York", "bath", "Äskö", "東京", "Zürich", "a", "aa", "ab", "10", "9", "𝔸", "\uffee"]
# kinds of names, each sorted by hand
KINDS = {
    "near numbers": list(range(-7, 8)),
    "far numbers": [it * 10**15 for it in range(-7, 8)],
    "past 2^63": [2**63 + it * 10**17 for it in range(8)],
    "halves": [it / 2 for it in range(-7, 8)],
    "texts": sorted(TOWNS, key=lambda it: [ord(letter) for letter in it]),
    "numbers and texts": [-3, -0.5, 0, 2, 2.5, 10**20, "B", "Z", "a", "aa", "b"],
    "bytes": [b"A", b"B", b"a", b"\xff"],
    "days": [datetime.date(2020, 1, it) for it in range(1, 15)],
    "times": [datetime.datetime(2020, it, 2, 3) for it in range(1, 13)],
    "numpy's days": list(np.arange("2020-01-28", "2020-02-05", dtype="M8[D]").astype("M8[ns]")),
    "pairs": [(0, 10), (0.5, 9), (1, "B"), (1, "a"), (2, 0), ("A", 1), ("a", -5)],
    "identifiers": [uuid.UUID(int=it) for it in range(8)],
    "exact numbers": [fractions.Fraction(-1, 3), decimal.Decimal("0.1"), 0.1, fractions.Fraction(1, 3), 2, decimal.Decimal("2.5")],
    "spans of time": list(np.arange(-3, 5).astype("m8[s]")),
    "long doubles": [fractions.Fraction(-1, 3), np.longdouble(1) / 5, 0.2, 1, np.longdouble(5) / 3, decimal.Decimal(2), decimal.Decimal("Infinity")],
    "complex numbers": [-1j, 2j, 1 - 1j, 1, 1 + 2j, 3],
    "truths": [False, True],
    "mixed": [-1, 3.5, "1a", "b", b"b", datetime.date(2020, 1, 2), (1, 2)],
}


def rows_of(seed, kind):
    """A table with many ties and no equal rows, as lists; and the numbers of the names in it."""
    draw = random.Random(f"{seed} {kind}")
    names = KINDS[kind]
    rows = {}
    for _ in range(4 * len(names)):
        a, b, w = draw.randrange(len(names)), draw.randrange(len(names)), draw.randint(0, 2)
        rows.setdefault((min(a, b), max(a, b), w), draw.choice([(a, b), (b, a)]))
    rows = [(*ends, w) for (*_, w), ends in rows.items()]
    draw.shuffle(rows)
    return draw, rows, {it for row in rows for it in row[:2]}


class Ranked(unittest.TestCase):
    def table(self, kind, rows):
        names = KINDS[kind]
        return {"u": [names[it[0]] for it in rows], "v": [names[it[1]] for it in rows], "w": [it[2] for it in rows]}

    def frames(self, kind, table):
        """The same rows in every kind of table that can have them."""
        yield table
        if pandas:
            yield pandas.DataFrame(table)
        if kind in ("near numbers", "far numbers", "past 2^63", "halves", "texts", "bytes", "truths", "numpy's days"):
            yield {**table, "u": np.array(table["u"]), "v": np.array(table["v"])}

    def test_the_order_of_rows_and_of_their_ends_changes_nothing(self):
        """Each forest is that of Kruskal's algorithm on the ranks of the names."""
        for seed in range(14):
            for kind in KINDS:
                draw, rows, there = rows_of(seed, kind)
                for turn in range(3):
                    graph = Graph(0)
                    graph.n, (graph.u, graph.v, graph.w) = len(KINDS[kind]), (list(it) for it in zip(*rows))
                    expected = [rows[it] for it in by_key(graph)]
                    for frame in self.frames(kind, self.table(kind, rows)):
                        with self.subTest(kind=kind, seed=seed, turn=turn, frame=type(frame)), warnings.catch_warnings():
                            warnings.simplefilter("ignore")
                            forest = boruvka.from_edges(frame)
                            self.assertEqual(forest.names, [it for place, it in enumerate(KINDS[kind]) if place in there])
                            self.assertEqual([rows[it] for it in forest.index.tolist()], expected)
                    if turn == 0:
                        first = {(min(it[:2]), max(it[:2]), it[2]) for it in expected}
                    self.assertEqual({(min(it[:2]), max(it[:2]), it[2]) for it in expected}, first)
                    draw.shuffle(rows)
                    rows = [(b, a, w) if draw.random() < 0.5 else (a, b, w) for a, b, w in rows]

    def test_three_towns_as_far_apart(self):
        for rows in (["AB", "BC", "AC"], ["BC", "AB", "AC"], ["CA", "CB", "BA"]):
            forest = boruvka.from_edges({"u": [it[0] for it in rows], "v": [it[1] for it in rows], "w": [1] * 3})
            self.assertEqual({"".join(sorted(rows[it])) for it in forest.index}, {"AB", "AC"})

    def test_of_parallel_edges_of_equal_weight_the_first_row_counts(self):
        table = {"u": ["b", "a", "b"], "v": ["a", "b", "a"], "w": [2, 1, 1]}
        self.assertEqual(boruvka.from_edges(table).index.tolist(), [1])

    def test_names_that_python_calls_equal_are_one_vertex(self):
        one = [1, 1.0, True, np.int8(1), fractions.Fraction(1), decimal.Decimal(1), 1 + 0j]
        for name in one:
            forest = boruvka.from_edges({"u": [name, "a", 0.5], "v": [0.5, name, "a"], "w": [1, 1, 1]})
            self.assertEqual((forest.names, forest.index.tolist()), ([0.5, 1, "a"], [0, 2]))

    def test_whole_numbers_and_floats_are_compared_exactly(self):
        u, v = np.array([2**53 + 1, 2**53 + 3]), np.array([0.5, 1.5])
        self.assertEqual(boruvka.from_edges({"u": u, "v": v, "w": [1, 2]}).names, [0.5, 1.5, 2**53 + 1, 2**53 + 3])
        wide = np.array([2**63 + 1, 5], np.uint64)
        self.assertEqual(boruvka.from_edges({"u": wide, "v": np.array([-1, 5]), "w": [1, 2]}).names, [-1, 5, 2**63 + 1])

    def test_numbers_of_each_dtype(self):
        draw = np.random.default_rng(4)
        for dtype in ("i1", "u1", ">i2", "u2", ">i4", ">u4", ">i8", "u8", ">u8", "f2", ">f2", "f4", ">f4", "f8", ">f8"):
            kind = np.dtype(dtype)
            about = (-1000, 1000) if kind.kind == "f" else (np.iinfo(kind).min, np.iinfo(kind).max)
            names = draw.integers(*about, 40, dtype=kind.newbyteorder("=") if kind.kind != "f" else np.int64).astype(dtype)
            names = names / 4 if kind.kind == "f" else names
            u, v = draw.choice(names, (2, 100)).astype(dtype)
            with self.subTest(dtype=dtype):
                forest = boruvka.from_edges({"u": u, "v": v, "w": np.ones(100)})
                expected = sorted({*u.tolist(), *v.tolist()})
                self.assertEqual(forest.names, expected)
                self.assertEqual([{expected[a], expected[b]} for a, b in zip(forest.u, forest.v)], [{u[it].item(), v[it].item()} for it in forest.index])
        near = np.array([-(2**63), -(2**63) + 5, -(2**63) + 2])
        self.assertEqual(boruvka.from_edges({"u": near, "v": near[::-1], "w": [1, 2, 3]}).names, sorted(near.tolist()))

    def test_with_and_without_pandas(self):
        import sys
        from unittest import mock

        draw = np.random.default_rng(3)
        for names in (draw.integers(-(2**62), 2**62, 50), draw.random(50)):
            u, v = draw.choice(names, (2, 200))
            output = []
            for modules in ({}, {"pandas": pandas} if pandas else {}):
                kept = {it: held for it, held in sys.modules.items() if it != "pandas"}
                with mock.patch.dict(sys.modules, {**kept, **modules}, clear=True):
                    output.append(_names.numbered([("u", u), ("v", v)]))
            expected = sorted({*u.tolist(), *v.tolist()})
            for found, (tails, heads) in output:
                self.assertEqual(found, expected)
                self.assertEqual([expected[it] for it in tails], u.tolist())
                self.assertEqual([expected[it] for it in heads], v.tolist())

    @unittest.skipUnless(dask, "there is no dask")
    def test_frames_of_dask(self):
        table = pandas.DataFrame({"u": ["c", "a", "b", "c"], "v": ["b", "c", "a", "d"], "w": [1, 1, 1, 1]})
        for parts in (1, 3):
            forest = boruvka.from_edges(dask.dataframe.from_pandas(table, npartitions=parts))
            self.assertEqual((forest.names, forest.index.tolist()), (list("abcd"), [2, 1, 3]))

    def test_what_has_no_order_is_reported(self):
        class Place:
            pass

        one, other = Place(), Place()
        with self.assertWarnsRegex(UserWarning, "^names of the type Place can't be ordered, so the order of the rows decides") as output:
            self.assertEqual(boruvka.from_edges({"u": [one], "v": [other], "w": [1]}).n, 2)
        self.assertEqual(output.filename, __file__)
        groups = [frozenset("ab"), frozenset("cda"), frozenset("b")]
        for order in ([0, 1, 2], [2, 1, 0]):
            table = {"u": [groups[it] for it in order], "v": [groups[it] for it in order[::-1]], "w": [1, 1, 1]}
            self.assertEqual(boruvka.from_edges(table).names, [frozenset("ab"), frozenset("acd"), frozenset("b")])


class Rejected(unittest.TestCase):
    def expect(self, error, pattern, table):
        with self.assertRaisesRegex(error, pattern):
            boruvka.from_edges(table)

    def test_floats_that_may_stand_for_several_whole_numbers(self):
        ids = 1234567890123456789 + np.arange(3)
        pattern = r"^row 0 of the column 'u' is .*1\.2345678901234568e\+18.*, but from 2\^53 on a float may stand for several whole numbers: read .* nullable integers \(dtype 'Int64'\) or as text$"
        for floats in (ids.astype(float), ids.astype(float).tolist(), [*ids.astype(float)], [ids.astype(float)[0], "a", "b"]):
            self.expect(ValueError, pattern, {"u": floats, "v": np.roll(ids, 1), "w": [1, 2, 3]})
        self.expect(ValueError, "^row 1 of the column 'v' is .*9007199254740992", {"u": [1.0, 2.0], "v": [3.0, 2.0**53], "w": [1, 2]})
        self.expect(ValueError, r"^row 1 of the column 'u' is .*16777216.*from 2\^24 on", {"u": np.float32([1, 2**24]), "v": np.float32([3, 4]), "w": [1, 2]})
        self.expect(ValueError, r"^row 0 of the column 'u' is .*from 2\^11 on", {"u": [np.float16(2048)], "v": ["a"], "w": [1]})
        for name in (2.0**53 - 1, -(2.0**53) + 1, math.inf, -math.inf):
            self.assertEqual(boruvka.from_edges({"u": [name], "v": [0.5], "w": [1]}).n, 2)
            self.assertEqual(boruvka.from_edges({"u": np.array([name]), "v": np.array([0.5]), "w": [1]}).n, 2)
        self.assertEqual(boruvka.from_edges({"u": ids, "v": np.roll(ids, 1), "w": [1, 2, 3]}).names, ids.tolist())
        if pandas:
            gaps = pandas.DataFrame({"u": [*ids, None], "v": [*ids[::-1], ids[0]], "w": [1, 2, 3, 4]})
            self.expect(ValueError, "^row 3 has no name in the column 'u'|^row 0 of the column 'u' is", gaps)
            nullable = gaps.dropna().assign(u=pandas.array(ids, "Int64"))
            self.assertEqual(boruvka.from_edges(nullable).names, ids.tolist())

    def test_names_that_are_missing(self):
        self.expect(ValueError, "^row 0 has no name in the column 'u'", {"u": [(1, math.nan)], "v": [(1, 2)], "w": [1]})
        self.expect(ValueError, r"^row 0 of the column 'u' is \(1, 1e\+16\), but from 2\^53 on", {"u": [(1, 1e16)], "v": [(1, 2)], "w": [1]})
        self.expect(TypeError, "^the column 'u' has a Decimal in row 0, which isn't hashable", {"u": [decimal.Decimal("sNaN")], "v": ["a"], "w": [1]})
        self.assertEqual(boruvka.from_edges({"u": [(1, None)], "v": [(1, "a")], "w": [1]}).n, 2)
        for missing in (math.nan, np.float32("nan")):
            self.expect(ValueError, "^row 1 has no name in the column 'v'", {"u": [1.0, 2.0], "v": [3.0, missing], "w": [1, 1]})
            self.expect(ValueError, "^row 1 has no name in the column 'v'", {"u": np.array([1.0, 2.0]), "v": np.array([3.0, missing]), "w": [1, 1]})
        self.expect(ValueError, "^row 1 has no name in the column 'u'", {"u": np.ma.masked_equal([1, 2], 2), "v": [3, 1], "w": [1, 1]})

    def test_spans_of_time_and_numbers(self):
        """To numpy, a timedelta64 equals its number."""
        span = np.timedelta64(7, "s")
        for number in (5, 5.5, np.int8(1), True):
            pattern = r"^some endpoints are times of numpy \(timedelta64\[s\]\), and some have the type \w+: numpy\.asarray\(column, 'timedelta64\[s\]'\) converts"
            self.expect(TypeError, pattern, {"u": [number, span], "v": ["a", "b"], "w": [1, 2]})

    @unittest.skipUnless(pandas, "there is no pandas")
    def test_columns_whose_rows_have_other_labels(self):
        frame = pandas.DataFrame({"u": list("abc"), "v": list("bca"), "w": [3, 1, 2]})
        u, v, w = (frame[it] for it in "uvw")
        pattern = r"^the columns 'u' and 'w' are Series with different indexes: pandas\.DataFrame aligns their rows by the labels, and \.to_numpy\(\) of each"
        self.expect(ValueError, pattern, {"u": u, "v": v, "w": w.sort_values()})
        self.expect(ValueError, "^the columns 'u' and 'v' are Series", {"u": u, "v": v[1:], "w": w})
        ends = u.map("abc".index), v.map("abc".index)
        for call in (lambda w: boruvka.minimum_spanning_forest(*ends, w), lambda w: boruvka.forest_of_chunks(3, [(*ends, w)])):
            with self.assertRaisesRegex(ValueError, "the columns 'u' and 'w' are Series with different indexes"):
                call(w.sort_values())
            self.assertEqual(call(w).w.tolist(), call(w.sort_index()).w.tolist())
            self.assertEqual(call(w.sort_values().to_numpy()).w.tolist(), [1, 2])
        aligned = boruvka.from_edges(pandas.DataFrame({"u": u, "v": v, "w": w.sort_values()}))
        self.assertEqual(aligned, boruvka.from_edges(frame))
        self.assertEqual(boruvka.from_edges({"u": u, "v": v.tolist(), "w": w.sort_values().to_numpy()}).w.tolist(), [1, 2])


class Suspicious(unittest.TestCase):
    """Two vertices that should probably be one, and vertices that should probably not exist."""

    def expect(self, pattern, *names):
        table = {"u": [*names], "v": [*names[1:], "z"], "w": [1] * len(names)}
        with self.assertWarnsRegex(UserWarning, pattern) as output:
            forest = boruvka.from_edges(table)
        self.assertEqual((output.filename, forest.n), (__file__, len(names) + 1))

    def test_texts_of_missing_entries(self):
        for text in ("", "nan", "NaN", "None", "NaT", "<NA>"):
            self.expect(f"^the text {text!r} names a vertex, but it is the text of a missing entry: leave", "a", text)
        self.expect("^the text 'nan' names a vertex", 1, "nan")
        if pandas:
            column = pandas.Series(["a", None, "b"]).astype(str)
            with self.assertWarnsRegex(UserWarning, "^the text 'None' names a vertex"):
                boruvka.from_edges(pandas.DataFrame({"u": column, "v": list("xyz"), "w": 1}))

    def test_texts_that_differ_in_outer_spaces_alone(self):
        for one, other in [("Ely", "Ely "), (" Ely", "Ely"), ("Ely\t", " Ely"), ("Ely\xa0", "Ely")]:
            first, second = sorted([one, other])
            self.expect(f"^the texts {first!r} and {second!r} name two vertices: .str.strip.. on both".replace("\\", r"\\"), one, other)

    def test_what_is_not_suspicious(self):
        with warnings.catch_warnings():
            warnings.simplefilter("error")
            for names in (["Nan", "none", "Ely s", "El y"], ["a b", "ab"], [" x", "y "], [1, 2], [b"a", b"a "]):
                self.assertEqual(boruvka.from_edges({"u": names, "v": names, "w": [1] * len(names)}).n, len(names))


if __name__ == "__main__":
    unittest.main()
