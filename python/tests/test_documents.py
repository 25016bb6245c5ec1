"""The examples of the docstrings, of README.md and of examples/, exactly as they are shown."""

import contextlib
import csv
import doctest
import io
import os
import re
import subprocess
import sys
import tempfile
import unittest

import numpy as np

import boruvka
from boruvka import _chunks, _forest, _frames, _gr, _result, linkage

TOP = os.path.dirname(os.path.dirname(os.path.abspath(__file__)))
EXAMPLES = f"{TOP}/examples"
PNG = b"\x89PNG\r\n\x1a\n"
# the packages that examples of README.md need, by what they mention
NEEDED = {"boruvka.sparse": "scipy", "boruvka.cluster": "sklearn", "pandas": "pandas", "forest_of_chunks": "pandas", "dask": "dask"}


def there(*names):
    """Whether all of these packages are installed."""
    for name in names:
        try:
            __import__(name)
        except ImportError:
            return False
    return True


@contextlib.contextmanager
def in_new_folder():
    here = os.getcwd()
    with tempfile.TemporaryDirectory() as folder:
        os.chdir(folder)
        try:
            yield
        finally:
            os.chdir(here)


def printed(name, *pattern):
    """The lines that an example prints."""
    path = [os.path.dirname(os.path.dirname(boruvka.__file__)), *filter(None, [os.environ.get("PYTHONPATH")])]
    env = {**os.environ, "PYTHONPATH": os.pathsep.join(path)}
    ended = subprocess.run([sys.executable, "-B", f"{EXAMPLES}/{name}.py", *pattern], env=env, capture_output=True, text=True, timeout=60, check=False)
    if ended.returncode:
        raise AssertionError(ended.stderr)
    return ended.stdout.splitlines()


class Docstrings(unittest.TestCase):
    def expect_examples(self, module, least):
        """In a temporary folder, because some examples write files."""
        output = io.StringIO()
        with in_new_folder(), contextlib.redirect_stdout(output):
            failed, tried = doctest.testmod(module, verbose=False)
        self.assertEqual((failed, output.getvalue()), (0, ""))
        self.assertGreaterEqual(tried, least)

    def test_modules(self):
        self.expect_examples(_chunks, 5)
        self.expect_examples(_forest, 5)
        self.expect_examples(_result, 4)
        self.expect_examples(_frames, 4)
        self.expect_examples(_gr, 6)
        self.expect_examples(linkage, 10)
        if there("sklearn"):
            from boruvka import cluster

            self.expect_examples(cluster, 4)
        if there("scipy"):
            from boruvka import sparse

            self.expect_examples(sparse, 2)

    def test_each_public_function_has_parameters_returns_and_raises(self):
        for it in (boruvka.minimum_spanning_forest, boruvka.from_edges, boruvka.read_gr, boruvka.write_gr, linkage.single_linkage, linkage.spanning_tree, linkage.merges, linkage.labels):
            for part in ("Parameters", "Returns", "Raises", "Examples"):
                if (it, part) != (boruvka.write_gr, "Returns"):
                    self.assertIn(f"    {part}\n    ---", it.__doc__, it.__name__)


class Readme(unittest.TestCase):
    def test_what_it_shows(self):
        """Each line after `>>>`, in a folder that has its files; examples that need a missing package are left out."""
        with open(f"{TOP}/README.md", encoding="utf-8") as it:
            text = it.read()
        shown = re.findall(r"^```pycon\n(.*?)^```$", text, re.M | re.S)
        kept = "\n".join(it for it in shown if all(module not in it or there(package) for module, package in NEEDED.items()))
        files = re.findall(r"^(?:[^\n]* )?`(\w+\.csv)` [^\n]*:\n\n```text\n(.*?)^```$", text, re.M | re.S)
        self.assertEqual(([name for name, _ in files], len(shown) >= 8), (["points.csv", "trips.csv"], True))
        test = doctest.DocTestParser().get_doctest(kept, {}, "README.md", "README.md", 0)
        output = io.StringIO()
        with in_new_folder():
            for name, content in files:
                with open(name, "w", encoding="utf-8") as it:
                    it.write(content)
            doctest.DocTestRunner(verbose=False).run(test, out=output.write)
        self.assertEqual(output.getvalue(), "")
        self.assertGreaterEqual(len(test.examples), 5)


class ComingFrom(unittest.TestCase):
    @unittest.skipUnless(there("sklearn", "pandas"), "there is no scikit-learn, or no pandas")
    def test_what_it_shows(self):
        with open(f"{TOP}/COMING_FROM.md", encoding="utf-8") as it:
            shown = [block.removeprefix("pycon\n") for block in it.read().split("```")[1::2]]
        test, output = doctest.DocTestParser().get_doctest("\n".join(shown), {}, "COMING_FROM.md", "COMING_FROM.md", 0), io.StringIO()
        doctest.DocTestRunner(verbose=False, optionflags=doctest.NORMALIZE_WHITESPACE).run(test, out=output.write)
        self.assertEqual((output.getvalue(), len(test.examples) >= 6), ("", True))


class Examples(unittest.TestCase):
    def expect_picture(self, name, expected, *packages):
        """The lines that it prints; and the same with a picture, if its packages are installed."""
        self.assertEqual(printed(name), expected)
        if there("matplotlib", *packages):
            with tempfile.TemporaryDirectory() as folder:
                self.assertEqual(printed(name, f"{folder}/picture.png"), expected)
                with open(f"{folder}/picture.png", "rb") as it:
                    picture = it.read()
            self.assertEqual(picture[:8], PNG)
            self.assertGreater(len(picture), 20_000)

    def test_towns_fall_into_archipelagos(self):
        with open(f"{EXAMPLES}/towns.csv", encoding="utf-8") as it:
            rows = list(csv.DictReader(it))
        islands = dict.fromkeys(it["archipelago"] for it in rows)
        self.assertEqual(list(islands), ["Azores", "Madeira", "Canaries", "Cape Verde"])
        self.expect_picture("towns", [", ".join(it["town"] for it in rows if it["archipelago"] == name) for name in islands])

    def test_points_are_assigned_to_their_centres(self):
        # (the numbers of points drawn around each centre)
        self.expect_picture("dendrogram", ["12 9 15 6"], "scipy")

    @unittest.skipUnless(there("sklearn"), "there is no scikit-learn")
    def test_moons_fall_apart_as_dbscan_has_them(self):
        from sklearn.cluster import DBSCAN

        sys.path.insert(0, EXAMPLES)
        self.addCleanup(sys.path.remove, EXAMPLES)
        import mutual_reachability

        points = mutual_reachability.drawn_points()
        found = DBSCAN(eps=mutual_reachability.HEIGHT, min_samples=mutual_reachability.NEAREST).fit(points)
        core = found.core_sample_indices_
        # a point without five near neighbours is noise in the tree, but may be a border point of a cluster in DBSCAN
        expected = np.full(len(points), -1)
        expected[core] = found.labels_[core]
        tree, cluster = mutual_reachability.clustered(points)
        self.assertEqual(len(tree.w), len(points) - 1)
        self.assertEqual(cluster.tolist(), expected.tolist())
        sizes = sorted(np.bincount(expected[core]), reverse=True)
        self.expect_picture("mutual_reachability", [f"clusters of {' '.join(map(str, sizes))}", f"noise {(expected < 0).sum()}"])


if __name__ == "__main__":
    unittest.main()
