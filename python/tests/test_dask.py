"""`boruvka.dask`, with the threads of one process and with a cluster of two processes."""

import doctest
import functools
import importlib.util
import io
import logging
import math
import os
import re
import sys
import tempfile
import unittest
from unittest import mock

import numpy as np

from graphs import Graph, by_key

HAS = [importlib.util.find_spec(it) is not None for it in ("dask", "distributed", "pandas")]
if HAS[0] and HAS[2]:
    import boruvka
    import dask.array
    import dask.dataframe
    import pandas

    from boruvka.dask import minimum_spanning_forest

with open(f"{os.path.dirname(os.path.dirname(os.path.abspath(__file__)))}/README.md", encoding="utf-8") as page:
    PAGE = page.read().split("\n## Edges in parts\n")[1].split("\n## ")[0]

# the five edges of the package's first example, and a sixth that is equal to the second
ROADS = {"u": [0, 1, 2, 3, 0, 2], "v": [1, 2, 3, 0, 2, 1], "w": [1.5, 0.5, 2.5, 3.5, 1.0, 0.5], "name": list("abcdef")}


def in_partitions(rows, starts):
    """A dask frame with one partition from each of these rows on."""
    parts = [rows.iloc[start:end] for start, end in zip(starts, [*starts[1:], len(rows)])]
    return dask.dataframe.from_map(lambda it: it, parts, meta=rows.iloc[:0])


@unittest.skipUnless(HAS[0] and HAS[2], "there is no dask, or no pandas for it")
class OneProcess(unittest.TestCase):
    def setUp(self):
        self.roads = pandas.DataFrame(ROADS)
        settings = dask.config.set(scheduler="threads", num_workers=3)
        settings.__enter__()
        self.addCleanup(settings.__exit__, None, None, None)

    def test_the_rows_with_all_their_columns_and_labels(self):
        for starts in ([0], [0, 3], [0, 1, 2, 3, 4, 5], [0, 0, 3, 3, 6]):
            found = minimum_spanning_forest(in_partitions(self.roads, starts), 4)
            self.assertEqual(found.npartitions, 1)
            pandas.testing.assert_frame_equal(found.compute(), self.roads.loc[[1, 4, 2]])
            found = minimum_spanning_forest(in_partitions(self.roads, starts), 5, maximum=True, split_every=2)
            pandas.testing.assert_frame_equal(found.compute(), self.roads.loc[[3, 2, 0]])

    def test_columns_of_other_names(self):
        roads = self.roads.rename(columns={"u": "from", "v": 7, "w": "km"})
        found = minimum_spanning_forest(in_partitions(roads, [0, 2, 4]), 4, "from", 7, w="km")
        self.assertEqual(found["name"].compute().tolist(), ["b", "e", "c"])

    def test_drawn_graphs_in_drawn_partitions(self):
        for seed in range(40):
            graph = Graph(seed)
            # (pandas can't select rows of a column in the other byte order)
            rows = pandas.DataFrame({name: it.astype(it.dtype.newbyteorder("=")) for name, it in zip("uvw", graph.held)})
            starts = [0, *sorted(np.random.default_rng(seed).integers(0, len(rows) + 1, seed % 9))]
            with self.subTest(seed=seed, kind=graph.kind, starts=starts):
                found = minimum_spanning_forest(in_partitions(rows, starts), graph.n, maximum=seed % 2 == 1, split_every=2 + seed % 3)
                self.assertEqual(found.compute().index.tolist(), by_key(graph, seed % 2 == 1))

    def test_a_frame_without_rows(self):
        found = minimum_spanning_forest(in_partitions(self.roads.iloc[:0], [0, 0]), 4).compute()
        pandas.testing.assert_frame_equal(found, self.roads.iloc[:0])

    def test_wrong_arguments(self):
        frame = in_partitions(self.roads, [0, 3])
        for error, pattern, given in [
            (TypeError, "^n is 4.0, ", (frame, 4.0)),
            (TypeError, "^n is None, ", (frame, None)),
            (ValueError, "^n is -1, ", (frame, -1)),
            (TypeError, "^frame is a DataFrame, but has to be a dask frame", (self.roads, 4)),
            (TypeError, "^frame is a dict, ", (ROADS, 4)),
            (TypeError, "^frame is a int, ", (4, 4)),
            (TypeError, "^frame is a Series, ", (frame["u"], 4)),
            (KeyError, "the frame has no column 'x'", (frame, 4, "x")),
            (KeyError, "the frame has no column 'km'", (frame, 4, "u", "v", "km")),
        ]:
            with self.assertRaisesRegex(error, pattern):
                minimum_spanning_forest(*given)
        with self.assertRaisesRegex(ValueError, "^the frame has 2 columns 'w'$"):
            minimum_spanning_forest(in_partitions(self.roads[["u", "v", "w", "w"]], [0, 3]), 4)
        for wrong in (1, 0, -1):
            with self.assertRaisesRegex(ValueError, f"^split_every is {wrong}, but has to be at least 2$"):
                minimum_spanning_forest(frame, 4, split_every=wrong)
        with self.assertRaisesRegex(TypeError, "^split_every is '4', but has to be a whole number$"):
            minimum_spanning_forest(frame, 4, split_every="4")
        with self.assertRaisesRegex(TypeError, "^maximum is 'no', but has to be True or False$"):
            minimum_spanning_forest(frame, 4, maximum="no")

    def test_errors_in_rows_name_their_partition(self):
        for error, pattern, column, wrong in [
            (ValueError, r"u\[1\] is 4, but a vertex is at least 0 and below n = 4", "u", 4),
            (ValueError, r"v\[1\] is -1, ", "v", -1),
            (ValueError, r"w\[1\] is NaN, which can't be ordered", "w", math.nan),
        ]:
            self.roads.loc[3, column] = wrong
            with self.assertRaisesRegex(error, f"^partition 1: {pattern}"):
                minimum_spanning_forest(in_partitions(self.roads, [0, 2, 4]), 4).compute()
            self.setUp()
        for kind in ("string", "category"):
            named = in_partitions(self.roads.astype({"v": str}).astype({"v": kind}), [0, 2, 4])
            with self.assertRaisesRegex(TypeError, rf"^the column 'v' has the dtype {kind}, but vertices are whole numbers here: boruvka\.from_edges\(frame\) takes names$"):
                minimum_spanning_forest(named, 4)
        named = in_partitions(self.roads.astype({"v": str}), [0, 2, 4])
        with self.assertRaisesRegex(TypeError, r"^partition 0: v has the dtype .*, because v\[0\] is '\d', but vertices are whole numbers: boruvka\.from_edges takes names$"):
            minimum_spanning_forest(named, 4).compute(scheduler="synchronous")
        with self.assertRaisesRegex(TypeError, "^partition 0: u has the dtype float64, .*: .astype"):
            minimum_spanning_forest(in_partitions(self.roads.astype({"u": float}), [0, 2, 4]), 4).compute()
        whole = self.roads.astype({"w": "Int64"}, errors="ignore").assign(w=pandas.array([1, 2, 3, None, 4, 5], "Int64"))
        with self.assertRaisesRegex(TypeError, "^partition 1: w has the dtype object"):
            minimum_spanning_forest(in_partitions(whole, [0, 2, 4]), 4).compute()

    def test_what_arrays_of_dask_mask(self):
        """Numpy would ignore the mask. These arrays aren't frames, and are accepted as other arrays are."""
        for weights, masked in [([1, 2, 9], 9), ([1, 9, 9], 9), ([1, 2, 3], 9)]:
            given = dask.array.ma.masked_equal(dask.array.from_array(np.array(weights), chunks=2), masked)
            points = dask.array.stack([given, given], axis=1)
            if masked not in weights:
                self.assertEqual(boruvka.minimum_spanning_forest(4, [0, 1, 2], [1, 2, 3], given).w.tolist(), weights)
                self.assertEqual(boruvka.linkage.single_linkage(points)[:, 2].tolist(), [2**0.5] * 2)
                continue
            with self.assertRaisesRegex(ValueError, rf"^w has masked entries, such as w\[{weights.index(masked)}\]: leave these edges out first$"):
                boruvka.minimum_spanning_forest(4, [0, 1, 2], [1, 2, 3], given)
            with self.assertRaisesRegex(ValueError, "^y has masked entries"):
                boruvka.linkage.single_linkage(points)

    def test_partitions_of_other_dtypes_than_the_frame_says(self):
        """Together they would be rounded."""
        for column, kind in [("w", "int64"), ("u", "int32"), ("v", "uint64")]:
            other = self.roads.astype({column: kind})
            frame = dask.dataframe.from_map(lambda it: it, [self.roads, other], meta=self.roads.iloc[:0])
            with self.assertRaisesRegex(TypeError, f"^partition 1: .* have the dtypes .*{kind}.*, but those of the frame are "):
                minimum_spanning_forest(frame, 4).compute()


@unittest.skipUnless(HAS[0] and HAS[2], "there is no dask, or no pandas for it")
class Page(unittest.TestCase):
    """The docstring's examples, and those of README.md about edges in parts."""

    def expect_examples(self, text, least):
        """Each line after `>>>`, in a folder that has the section's trips.csv."""
        (trips,) = re.findall(r"^```text\n(.*?)^```$", PAGE, re.M | re.S)
        output, here = io.StringIO(), os.getcwd()
        test = doctest.DocTestParser().get_doctest(text, {"boruvka": boruvka}, "README.md", "README.md", 0)
        with tempfile.TemporaryDirectory() as folder:
            with open(f"{folder}/trips.csv", "w", encoding="utf-8") as it:
                it.write(trips)
            os.chdir(folder)
            try:
                doctest.DocTestRunner(verbose=False).run(test, out=output.write)
            finally:
                os.chdir(here)
        self.assertEqual(output.getvalue(), "")
        self.assertGreaterEqual(len(test.examples), least)

    def test_what_it_shows(self):
        self.expect_examples("\n".join(re.findall(r"^```pycon\n(.*?)^```$", PAGE, re.M | re.S)), 8)

    def test_the_docstring(self):
        self.expect_examples(minimum_spanning_forest.__doc__, 5)
        for part in ("Parameters", "Returns", "Raises", "Notes", "Examples"):
            self.assertIn(f"    {part}\n    ---", minimum_spanning_forest.__doc__)

    def test_recipes_for_spark_and_ray_run_with_replacements(self):
        spark, ray = re.findall(r"^```python\n(.*?)^```$", PAGE, re.M | re.S)
        for seed in range(20):
            graph = Graph(seed, ["natural", "ties"])
            graph.n = 4
            graph.u, graph.v = ([it % 4 for it in ends] for ends in (graph.u, graph.v))
            expected = sorted((graph.w[i], *sorted((graph.u[i], graph.v[i]))) for i in by_key(graph))
            edges = list(zip(graph.u, graph.v, graph.w))
            parts = [edges[i::3] for i in range(3)]
            for code, given in [(spark, {"frame": Spark(parts)}), (ray, {"parts": [tuple(zip(*it)) or ([], [], []) for it in parts]})]:
                with self.subTest(seed=seed), mock.patch.dict(sys.modules, ray=Ray):
                    exec(code, given)  # noqa: S102
                    self.assertEqual(list(zip(*(given[it].tolist() for it in "wuv"))), expected)


class Spark:
    """A replacement for a frame of Spark, and for its rdd."""

    def __init__(self, parts):
        self.rdd, self.parts = self, parts

    def select(self, *names):
        assert names == ("u", "v", "w")
        return self

    def mapPartitions(self, function):
        return Spark([list(function(iter(it))) for it in self.parts])

    def treeReduce(self, function):
        return functools.reduce(function, [it for part in self.parts[::-1] for it in part])


class Ray:
    """A replacement for the module of that name."""

    @staticmethod
    def remote(function):
        return type("Remote", (), {"remote": staticmethod(function)})

    @staticmethod
    def get(it):
        return it


@unittest.skipUnless(all(HAS), "there is no dask with distributed, or no pandas for it")
class TwoProcesses(unittest.TestCase):
    def test_a_cluster(self):
        from dask.distributed import Client, LocalCluster

        draw = np.random.default_rng(5)
        graph = Graph(0)
        graph.n, m = 400, 20_000
        graph.held = [draw.integers(0, graph.n, m), draw.integers(0, graph.n, m), draw.integers(0, 30, m)]
        graph.u, graph.v, graph.w = (it.tolist() for it in graph.held)
        rows = pandas.DataFrame(dict(zip("uvw", graph.held)))
        frame = in_partitions(rows, range(0, m, 2500)).map_partitions(lambda it: it.assign(process=os.getpid()))
        with tempfile.TemporaryDirectory() as folder, dask.config.set({"temporary-directory": folder}):
            options = {"n_workers": 2, "threads_per_worker": 1, "processes": True, "dashboard_address": None, "silence_logs": logging.CRITICAL}
            with LocalCluster(**options) as cluster, Client(cluster) as client:
                processes = set(client.run(os.getpid).values())
                self.assertEqual(len(processes - {os.getpid()}), 2)
                found = minimum_spanning_forest(frame, graph.n).compute()
                # (each row knows the process that had its partition)
                self.assertLessEqual(set(found.pop("process")), processes)
                pandas.testing.assert_frame_equal(found, rows.iloc[by_key(graph)])
                rows.loc[7505, "u"] = 400
                with self.assertRaisesRegex(ValueError, r"^partition 3: u\[5\] is 400, "):
                    minimum_spanning_forest(in_partitions(rows, range(0, m, 2500)), graph.n).compute()


if __name__ == "__main__":
    unittest.main()
