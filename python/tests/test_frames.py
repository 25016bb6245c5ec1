"""`from_edges` on dicts, arrays, pandas frames, and frames that have only the interchange protocol."""

import ctypes
import datetime
import math
import pathlib
import re
import unittest
import uuid
import warnings

import numpy as np

import boruvka

try:
    import pandas
except ImportError:
    pandas = None

ROADS = {"from": ["Ely", "Bath", "Ely", "Rye"], "to": ["Bath", "York", "York", "Rye"], "km": [226, 330, 235, 1]}


class Buffer:
    def __init__(self, array):
        self.held = array
        self.ptr, self.bufsize = array.ctypes.data, array.nbytes


class Column:
    """A column of the protocol: its kind, the width of an entry, its buffers, and how it marks missing entries."""

    def __init__(self, kind, bits, size, data, offset=0, offsets=None, null=(0, None), validity=None, categories=None, order="="):
        self.kind, self.dtype, self.size, self.offset, self.describe_null = kind, (kind, bits, "", order), size, offset, null
        letter = {0: "i", 1: "u", 2: "f", 20: "b", 21: "U", 23: "i"}[kind]
        self.buffers = {"data": (Buffer(data), (0 if kind == 23 else kind, bits, letter, order)), "offsets": None, "validity": None}
        if offsets is not None:
            self.buffers["offsets"] = Buffer(offsets), (0, 8 * offsets.itemsize, "l", "=")
        if validity is not None:
            self.buffers["validity"] = Buffer(validity), (20, 1 if null[0] == 3 else 8, "b", "=")
        self.describe_categorical = {"is_ordered": False, "is_dictionary": True, "categories": categories}

    def num_chunks(self):
        return 1

    def get_buffers(self):
        return self.buffers


class Chunks:
    """A column in several chunks."""

    def __init__(self, *chunks):
        self.chunks = chunks

    def num_chunks(self):
        return len(self.chunks)

    def get_chunks(self):
        return iter(self.chunks)


class Table:
    """A frame that has only the protocol."""

    def __init__(self, columns):
        self.columns = columns

    def __dataframe__(self, nan_as_null=False, allow_copy=True):
        return self

    def column_names(self):
        return iter(self.columns)

    def get_column_by_name(self, name):
        return self.columns[name]


def whole(numbers, dtype="i8", **more):
    array = np.array(numbers, dtype)
    kind = {"i": 0, "u": 1, "f": 2}[array.dtype.kind]
    return Column(kind, 8 * array.itemsize, len(array), array, **more)


def texts(names, width="i4", **more):
    data = np.frombuffer("".join(it or "" for it in names).encode() or b"\0", np.uint8)
    offsets = np.cumsum([0, *(len((it or "").encode()) for it in names)]).astype(width)
    return Column(21, 8, len(names), data, offsets=offsets, **more)


class Frames(unittest.TestCase):
    def expect_roads(self, frame):
        forest = boruvka.from_edges(frame, "from", "to", weight="km")
        self.assertEqual((forest.names, forest.n, forest.total), (["Bath", "Ely", "Rye", "York"], 4, 461))
        self.assertEqual([it.tolist() for it in forest], [[0, 1], [1, 3], [226, 235], [0, 2]])
        self.assertEqual(boruvka.from_edges(frame, "from", "to", weight="km", maximum=True).total, 565)
        self.assertEqual(forest.labels(height=230).tolist(), [0, 0, 1, 2])

    def test_dicts_of_columns(self):
        self.expect_roads(ROADS)
        self.expect_roads({it: tuple(held) for it, held in ROADS.items()})
        self.expect_roads({it: np.array(held) for it, held in ROADS.items()})
        self.expect_roads({it: np.array(held, object) for it, held in ROADS.items()})

    def test_names_of_any_kind(self):
        mixed = boruvka.from_edges({"u": [("a", 1), 5, None.__class__], "v": [5, 2.5, 5], "w": [1.0, 2.0, 3.0]})
        self.assertEqual(mixed.names, [2.5, 5, ("a", 1), None.__class__])
        days = np.array(["2020-01-01", "2020-01-02"], "M8[ns]")
        self.assertEqual(boruvka.from_edges({"u": days, "v": days[::-1], "w": [1, 2]}).names, list(days))

    def test_arrays(self):
        rows = np.array([[10, 20, 5], [20, 30, 4], [10, 30, 9], [7, 7, 1]])
        expected = boruvka.from_edges({"u": rows[:, 0], "v": rows[:, 1], "w": rows[:, 2]})
        self.assertEqual((expected.names, expected.total), ([7, 10, 20, 30], 9))
        for frame in (rows, np.asfortranarray(rows), rows.astype(np.int16), np.asmatrix(rows)):
            self.assertEqual(boruvka.from_edges(frame, 0, 1, weight=2).index.tolist(), expected.index.tolist())
        fields = np.array([(10, 20, 5.0), (20, 30, 4.0), (10, 30, 9.0), (7, 7, 1.0)], [("u", "i4"), ("v", "i8"), ("w", "f4")])
        self.assertEqual(boruvka.from_edges(fields).index.tolist(), expected.index.tolist())

        class Held:
            def __array__(self, dtype=None, copy=None):
                return fields

        self.assertEqual(boruvka.from_edges(Held()).names, expected.names)

        class Tensor:
            """`[]` returns rows, as for tensors of torch and arrays of dask."""

            def __array__(self, dtype=None, copy=None):
                return rows

            def __getitem__(self, it):
                return rows[it]

        self.assertEqual(boruvka.from_edges(Tensor(), 0, 1, weight=2).names, [7, 10, 20, 30])

    def test_texts_of_numbers_and_of_bytes(self):
        """They are two vertices, as in Python, and there is a warning."""
        for one, other in [(1, "1"), (2.0, "2"), (2, "2.0"), (7, " 7"), (1, np.str_("1"))]:
            with self.assertWarnsRegex(UserWarning, f"^the text '{other}' and the number .* name two vertices: ") as output:
                forest = boruvka.from_edges({"u": [one, 5], "v": ["a", other], "w": [1, 2]})
            self.assertEqual((forest.names, output.filename), ([*sorted([one, 5]), *sorted(["a", other])], __file__))
        for one, other in [
            (datetime.datetime(2020, 1, 2), "2020-01-02"),
            (datetime.datetime(2020, 1, 2), "2020-01-02T00:00:00"),
            (datetime.datetime(2020, 1, 2, 3, 4), "2020-01-02 03:04:00"),
            (datetime.date(2020, 1, 2), "2020-01-02"),
            (np.datetime64("2020-01-02"), "2020-01-02"),
            (uuid.UUID(int=5), "00000000-0000-0000-0000-000000000005"),
        ]:
            with self.assertWarnsRegex(UserWarning, f"^the text '{other}' and the {type(one).__name__} {one} name two vertices: both columns need"):
                self.assertEqual(boruvka.from_edges({"u": [one, one], "v": ["a", other], "w": [1, 2]}).names, [*sorted(["a", other]), one])
        encoded = np.array([b"a", b"b"])
        with self.assertWarnsRegex(UserWarning, r"^the text 'b' and the bytes b'b' name two vertices: numpy\.char\.decode\(column\)"):
            self.assertEqual(boruvka.from_edges({"u": encoded, "v": ["b", "c"], "w": [1, 2]}).n, 4)
        self.assertEqual(boruvka.from_edges({"u": np.char.decode(encoded), "v": ["b", "c"], "w": [1, 2]}).n, 3)
        with warnings.catch_warnings():
            warnings.simplefilter("error")
            self.assertEqual(boruvka.from_edges({"u": [1, 2], "v": ["a1", "inf"], "w": [1, 2]}).n, 4)
            self.assertEqual(boruvka.from_edges({"u": ["1"], "v": ["1.0"], "w": [1]}).n, 2)
            self.assertEqual(boruvka.from_edges({"u": [b"a", 7], "v": ["b", "\ud800"], "w": [1, 2]}).n, 4)

    @unittest.skipUnless(pandas, "there is no pandas")
    def test_texts_of_times_of_pandas(self):
        days = ["2020-01-02", "2020-01-03"]
        rows = pandas.DataFrame({"u": pandas.to_datetime(days), "v": days[::-1], "w": [1, 2]})
        with self.assertWarnsRegex(UserWarning, "^the text '2020-01-02' and the Timestamp 2020-01-02 00:00:00 name two vertices: both columns need"):
            self.assertEqual(boruvka.from_edges(rows).n, 4)
        self.assertEqual(boruvka.from_edges(rows.assign(v=pandas.to_datetime(rows["v"]))).n, 2)

    @unittest.skipUnless(pandas, "there is no pandas")
    def test_what_pandas_returns_instead_of_columns(self):
        rows = pandas.DataFrame({"u": ["a", "b"], "v": ["b", "c"], "w": [2, 1]})
        for indexed in (rows.set_index(["u", "v"]), rows.set_index(["u", "v"])["w"]):
            with self.assertRaisesRegex(KeyError, r"no column 'u'; it has .*; frame\.reset_index\(\) makes columns of its index"):
                boruvka.from_edges(indexed)
            self.assertEqual(boruvka.from_edges(indexed.reset_index()).names, ["a", "b", "c"])
        with self.assertRaisesRegex(KeyError, "no column 'u'; it has 0, 1"):
            boruvka.from_edges(rows.T)
        with self.assertRaisesRegex(TypeError, "^the column 'u' has a tuple in row 0"):
            boruvka.from_edges(rows.groupby("v"))
        named = boruvka.from_edges(rows.astype({"u": "category", "v": "category"}))
        self.assertEqual((named.names, named.w.tolist()), (["a", "b", "c"], [1, 2]))
        with self.assertRaisesRegex(ValueError, "^row 1 has no name in the column 'u'"):
            boruvka.from_edges(rows.assign(u=pandas.Categorical(["a", None])))
        with self.assertRaisesRegex(TypeError, r"^w has the dtype <U2, because w\[0\] is '10', but weights are"):
            boruvka.from_edges(rows.assign(w=pandas.Categorical(["10", "9"])))
        self.assertEqual(boruvka.from_edges(rows.assign(w=pandas.Categorical([10, 9]))).w.tolist(), [9, 10])
        for empty in (rows.iloc[:0], pandas.DataFrame(columns=["u", "v", "w"])):
            self.assertEqual((boruvka.from_edges(empty).n, boruvka.from_edges(empty).names), (0, []))
        days = pandas.Series(np.array(["2020-01-01", "2020-01-02"], "M8[ns]"))
        turned = days[::-1].reset_index(drop=True)
        self.assertEqual(boruvka.from_edges({"u": days, "v": turned, "w": [1, 2]}).n, 2)
        with self.assertRaisesRegex(TypeError, r"^some endpoints are times of numpy \(datetime64\[ns\]\), and some have the type Timestamp: "):
            boruvka.from_edges({"u": days.to_numpy(), "v": days[::-1], "w": [1, 2]})
        self.assertEqual(boruvka.from_edges({"u": days.to_numpy(), "v": np.asarray(days[::-1], "datetime64[ns]"), "w": [1, 2]}).n, 2)

    @unittest.skipUnless(pandas, "there is no pandas")
    def test_frames_of_pandas(self):
        frame = pandas.DataFrame(ROADS)
        for one in [
            frame,
            frame.astype({"from": "category", "to": "string", "km": "Int64"}),
            frame.astype({"km": "UInt8"} if max(ROADS["km"]) < 256 else {"km": "Float32"}),
            frame.set_index(pandas.Index([7, 7, 1, 0])),
        ]:
            self.expect_roads(one)
        numbers = pandas.DataFrame({"u": [1, 2], "v": [2, 3], "w": [1, 1]}).astype("Int64")
        self.assertEqual(boruvka.from_edges(numbers).names, [1, 2, 3])
        numbers.loc[1, "v"] = pandas.NA
        with self.assertRaisesRegex(ValueError, "^row 1 has no name in the column 'v': leave such edges out first$"):
            boruvka.from_edges(numbers)
        with self.assertRaisesRegex(ValueError, "^the column 'u' has 2 dimensions: do two columns have this name"):
            boruvka.from_edges(pandas.DataFrame([[1, 2, 3, 4]], columns=["u", "u", "v", "w"]))

    @unittest.skipUnless(pandas and hasattr(pandas.DataFrame, "__dataframe__"), "there is no pandas that speaks the protocol")
    def test_pandas_by_the_protocol(self):
        class Spoken:
            def __init__(self, frame):
                self.frame = frame

            def __dataframe__(self, nan_as_null=False, allow_copy=True):
                return self.frame.__dataframe__()

        frame = pandas.DataFrame(ROADS)
        for kinds in ({}, {"from": "category", "to": "category"}, {"km": np.float32}, {"km": np.uint16}, {"to": "string"}):
            self.expect_roads(Spoken(frame.astype(kinds)))
        with self.assertRaisesRegex(ValueError, "^row 3 has no name in the column 'to'"):
            boruvka.from_edges(Spoken(frame.assign(to=pandas.Categorical(["a", "b", "c", None]))), "from", "to", weight="km")
        with self.assertRaisesRegex(TypeError, "^the column 'from' has entries of the kind"):
            boruvka.from_edges(Spoken(frame.assign(**{"from": pandas.Timestamp(0)})), "from", "to", weight="km")

    def test_names_are_handed_on(self):
        forest = boruvka.from_edges(ROADS, "from", "to", weight="km")
        self.assertNotEqual(forest, forest._replace(names=None))
        if not pandas:
            self.skipTest("there is no pandas")
        self.assertEqual(forest.to_frame()["v"].tolist(), ["Ely", "York"])


class Protocol(unittest.TestCase):
    def names(self, column):
        """The entries of a column, by the names of the vertices that they become."""
        size = sum(it.size for it in column.chunks) if isinstance(column, Chunks) else column.size
        return boruvka.from_edges(Table({"u": column, "v": column, "w": whole(range(size))})).names

    def test_numbers(self):
        for dtype in "i1 i2 i4 i8 u1 u2 u4 u8 f4 f8".split():
            self.assertEqual(self.names(whole([7, 0, 100], dtype)), [0, 7, 100])
        self.assertEqual(self.names(whole([2**63, 1], "u8")), [1, 2**63])
        self.assertEqual(self.names(Column(0, 32, 2, np.array([1, 256], ">i4"), order=">")), [1, 256])
        self.assertEqual(self.names(Column(20, 8, 2, np.array([True, False]))), [False, True])
        # (from the third bit on)
        self.assertEqual(self.names(Column(20, 1, 2, np.array([0b1011], np.uint8), offset=2)), [False, True])
        self.assertEqual(self.names(Column(0, 64, 2, np.arange(5), offset=3)), [3, 4])

    def test_texts(self):
        for width in ("i4", "i8"):
            with self.assertWarnsRegex(UserWarning, "^the text '' names a vertex, but it is the text of a missing entry"):
                self.assertEqual(self.names(texts(["Ely", "", "Zürich", "東京"], width)), ["", "Ely", "Zürich", "東京"])
        cut = texts(["a", "bc", "def"])
        cut.offset, cut.size = 1, 2
        self.assertEqual(self.names(cut), ["bc", "def"])

    def test_categories(self):
        for about in (lambda it: it, lambda it: lambda: it):
            column = Column(23, 8, 3, np.array([1, 0, 1], np.int8), categories=texts(["a", "b"]))
            column.describe_categorical = about(column.describe_categorical)
            self.assertEqual(self.names(column), ["a", "b"])

    def test_several_pieces(self):
        self.assertEqual(self.names(Chunks(texts(["a", "b"]), texts([]), texts(["c"]))), ["a", "b", "c"])

    def test_a_piece_without_entries_may_have_no_offsets(self):
        for offsets in ((Buffer(np.empty(0, np.int32)), (0, 32, "l", "=")), None):
            empty = texts([])
            empty.buffers["offsets"] = offsets
            self.assertEqual((self.names(empty), self.names(Chunks(empty, texts(["a"])))), ([], ["a"]))

    def test_what_is_missing(self):
        bits, bytes_ = np.array([0b101], np.uint8), np.array([1, 0, 1], np.uint8)
        for column in [
            whole([1, 2, 3], null=(2, 2)),
            whole([1.0, math.nan, 3.0], "f8", null=(1, None)),
            whole([1, 2, 3], null=(3, 0), validity=bits),
            whole([1, 2, 3], null=(3, 1), validity=~bits),
            whole([1, 2, 3], null=(4, 0), validity=bytes_),
            whole([1, 2, 3], null=(4, 1), validity=1 - bytes_),
            texts(["a", None, "c"], null=(3, 0), validity=bits),
            Column(23, 8, 3, np.array([0, -1, 1], np.int8), categories=texts(["a", "b"]), null=(2, -1)),
            Column(23, 8, 3, np.array([0, 5, 1], np.int8), categories=texts(["a", "b"])),
        ]:
            with self.assertRaisesRegex(ValueError, "^row 1 has no name in the column 'u'"):
                self.names(column)
        # (marks exist, but mark nothing)
        self.assertEqual(self.names(whole([1, 2], null=(3, 0), validity=np.array([3], np.uint8))), [1, 2])
        self.assertEqual(self.names(whole([1, 2], null=(3, 0))), [1, 2])

    def test_weights(self):
        ends = {"u": whole([0, 1, 2]), "v": whole([1, 2, 0])}
        self.assertEqual(boruvka.from_edges(Table({**ends, "w": whole([2**62 + 1, 2**62, 2**62 + 2])})).w.tolist(), [2**62, 2**62 + 1])
        with self.assertRaisesRegex(TypeError, r"^w has the dtype object, because w\[2\] is None, but weights are"):
            boruvka.from_edges(Table({**ends, "w": whole([1, 2, 3], null=(2, 3))}))

    def test_buffers_that_are_too_short(self):
        for wrong in (Column(0, 64, 3, np.arange(2)), Column(0, 64, 2, np.arange(2), offset=1), texts(["a", "b"])):
            wrong.size = 3
            with self.assertRaisesRegex(ValueError, "^a buffer of the frame has "):
                boruvka.from_edges(Table({"u": wrong, "v": wrong, "w": whole([1, 2, 3])}))

    def test_buffers_may_go_once_they_are_read(self):
        column = whole([5, 6])
        names = self.names(column)
        ctypes.memset(column.buffers["data"][0].ptr, 255, 16)
        self.assertEqual(names, [5, 6])


class Rejected(unittest.TestCase):
    def expect(self, error, pattern, *given, **more):
        with self.assertRaisesRegex(error, pattern):
            boruvka.from_edges(*given, **more)

    def test_columns_that_are_not_there(self):
        self.expect(KeyError, "the frame has no column 'u'; it has 'from', 'to', 'km'", ROADS)
        self.expect(KeyError, "no column 'w'; it has 'u', 'v'", Table({"u": whole([1]), "v": whole([1])}))
        self.expect(KeyError, "no column 'w'; it has 'u', 'v'", np.zeros(3, [("u", "i4"), ("v", "i4")]))
        self.expect(KeyError, r"no column 'u'; it has 0, 1, 2, 3, 4, 5, 6, 7, 8, 9, \.\.\"$", np.zeros((4, 30), int))
        for name in (3, -1, "u", 1.5):
            self.expect(KeyError, f"no column {name!r}; it has 0, 1, 2", np.zeros((4, 3), int), name, 1, weight=2)

    def test_entries_that_are_missing(self):
        for wrong in (None, math.nan, np.datetime64("NaT"), np.ma.masked):
            self.expect(ValueError, "^row 1 has no name in the column 'v'", {"u": [1, 2], "v": [3, wrong], "w": [1, 1]})
        self.expect(ValueError, "^row 0 has no name in the column 'u'", {"u": np.ma.masked_equal([1, 2], 1), "v": [3, 1], "w": [1, 1]})
        self.expect(ValueError, r"^w\[1\] is NaN", {"u": [1, 2], "v": [3, 1], "w": [1, math.nan]})
        self.expect(TypeError, r"because w\[1\] is None", {"u": [1, 2], "v": [3, 1], "w": [1, None]})
        # (errors call weights by the name of their column)
        for wrong, error, pattern in [
            ([1, math.nan], ValueError, r"^km\[1\] is NaN"),
            ([1, None], TypeError, r"^km has the dtype object, because km\[1\] is None"),
            ([1, "2"], TypeError, r"^km has the dtype <U21, because km\[0\] is '1'"),
            ([1, 2, 3], ValueError, "^u, v and km differ in length: 2, 2 and 3$"),
            (np.ma.masked_equal([1, 2], 2), ValueError, r"^km has masked entries, such as km\[1\]"),
            ([2**53 + 1, 0.5], ValueError, r"^km\[0\] is 9007199254740993, which numpy would round"),
            (np.array([1, 2**63], np.uint64), ValueError, r"^km\[1\] is 9223372036854775808, but a weight is at most 2\^63 - 1$"),
        ]:
            self.expect(error, pattern, {"u": [1, 2], "v": [3, 1], "km": wrong}, weight="km")

    def test_columns_that_do_not_fit(self):
        self.expect(ValueError, "^the columns 'u' and 'v' differ in length: 1 and 2$", {"u": [1], "v": [3, 1], "w": [1, 1]})
        self.expect(ValueError, "differ in length: 1, 1 and 2$", {"u": [1], "v": [3], "w": [1, 1]})
        for wrong, kind in [([1], "list"), ({}, "dict"), (np.array([1, 2]), "ndarray"), (np.array(1), "ndarray"), (([1], 2), "tuple")]:
            pattern = f"^the column 'v' has a {kind} in row 1, which isn't hashable: a tuple of texts or numbers is$"
            self.expect(TypeError, pattern, {"u": [1, 2], "v": [3, wrong], "w": [1, 1]})
        for wrong in (5, None, True, "abc", b"ab", datetime.date(2020, 1, 1)):
            pattern = f"^the column 'u' is {re.escape(repr(wrong))}, but has to be an array or a list$"
            self.expect(TypeError, pattern, {"u": wrong, "v": [1, 2, 3], "w": [1, 1, 1]})
        self.expect(TypeError, "^the column 'w' is 7, but has to be an array or a list$", {"u": [1], "v": [2], "w": 7})
        self.expect(ValueError, "^the column 'u' has 0 dimensions, but needs one$", {"u": np.array(5), "v": [1], "w": [1]})
        self.expect(TypeError, "^the column 'u' is a set, which has no order$", {"u": {1, 2}, "v": [1, 2], "w": [1, 1]})
        self.expect(TypeError, "^the column 'v' is a dict, ", {"u": [1], "v": {1: 2}, "w": [1]})
        self.expect(ValueError, "^the column 'u' has 2 dimensions, but needs one$", {"u": np.zeros((2, 2)), "v": [1, 2], "w": [1, 1]})
        self.expect(ValueError, "^the column 'u' has 2 dimensions, but needs one$", {"u": np.matrix([1, 2]), "v": [1, 2], "w": [1, 1]})
        days = np.array(["2020-01-01"], "M8[D]")
        self.expect(TypeError, r"the endpoints have the dtypes datetime64\[D\] and datetime64\[s\]: \.astype converts one", {"u": days, "v": days.astype("M8[s]"), "w": [1]})
        self.expect(TypeError, r"the dtypes timedelta64\[D\] and timedelta64\[s\]", {"u": [np.timedelta64(1, "D")], "v": [np.timedelta64(86400, "s")], "w": [1]})
        pattern = r"^some endpoints are times of numpy \(datetime64\[D\]\), and some have the type datetime: numpy\.asarray\(column, 'datetime64\[D\]'\) converts a column$"
        self.expect(TypeError, pattern, {"u": days, "v": [datetime.datetime(2020, 1, 1)], "w": [1]})
        zoned = datetime.datetime(2020, 1, 1, tzinfo=datetime.timezone.utc)
        self.expect(TypeError, "^some endpoints are times with a time zone, and some without", {"u": [zoned], "v": [zoned.replace(tzinfo=None)], "w": [1]})

        pattern = r"^some endpoints are dates, and some have a time of day: \.dt\.date converts these to dates$"
        self.expect(TypeError, pattern, {"u": [datetime.date(2020, 1, 2)], "v": [datetime.datetime(2020, 1, 2)], "w": [1]})

    def test_what_is_no_frame(self):
        for file in ("abc.csv", b"abc.csv", pathlib.Path("abc.csv")):
            self.expect(TypeError, r"^a (str|bytes|PosixPath) isn't a frame: pandas\.read_csv reads one from a file, and boruvka\.read_gr reads a \.gr file$", file)
        for rows in ([("a", "b", 1)], (("a", "b", 1),)):
            self.expect(TypeError, r"^a (list|tuple) isn't a frame: pass pandas\.DataFrame\(rows", rows)
            self.expect(TypeError, "isn't a frame", rows, 0, 1, weight=2)
        self.expect(TypeError, "^a int isn't a frame: it has no columns", 5)
        self.expect(TypeError, r"^an array of the shape \(4,\) isn't a frame", np.zeros(4))


if __name__ == "__main__":
    unittest.main()
