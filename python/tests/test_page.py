"""The page with points inside: the table in the file is read back, as the page reads it."""

import base64
import csv
import gzip
import io
import json
import os
import tempfile
import unittest
import warnings
from unittest import mock

import numpy as np

from boruvka._page import show

try:
    import pandas
except ImportError:
    pandas = None

PAGE = '<body>\n<script type="application/json" id="data"></script>\n<p>end'
HEAD, FOOT = '<body>\n<script type="application/json" id="data">', "</script>\n<p>end"


def table_in(text):
    """The rows of the table in a page."""
    assert text.startswith(HEAD) and text.endswith(FOOT), text
    inside = text[len(HEAD) : -len(FOOT)]
    assert "<" not in inside, inside
    data = json.loads(inside)
    assert data["name"] == "points.csv.gz"
    return list(csv.reader(io.StringIO(gzip.decompress(base64.b64decode(data["base64"])).decode())))


class Shown(unittest.TestCase):
    def setUp(self):
        folder = tempfile.TemporaryDirectory()
        self.addCleanup(folder.cleanup)
        self.page, self.into = f"{folder.name}/page.html", f"{folder.name}/made.html"
        with open(self.page, "w", encoding="utf-8") as it:
            it.write(PAGE)

    def made(self, *given, **more):
        self.assertEqual(show(*given, into=self.into, page=self.page, **more), self.into)
        with open(self.into, encoding="utf-8") as it:
            return table_in(it.read())

    def test_points(self):
        self.assertEqual(self.made([[0, 1.5], [-1e-9, 1 / 3]]), [["x", "y"], ["0.0", "1.5"], ["-1e-09", "0.3333333333333333"]])
        self.assertEqual(self.made(np.float32([[1, 2]]), globe=True), [["latitude", "longitude"], ["1.0", "2.0"]])
        self.assertEqual(self.made([[90, 360], [-90, -360]], globe=True)[1:], [["90.0", "360.0"], ["-90.0", "-360.0"]])
        with mock.patch("boruvka._page._MOST_POINTS", 2):
            self.assertEqual(len(self.made([[0, 0]] * 2)), 3)

    def test_places_on_the_globe(self):
        """The latitude comes first, as in scikit-learn's haversine, unless columns have names."""
        munich, paris = (48.137, 11.575), (48.857, 2.351)
        expected = [["latitude", "longitude"], ["48.137", "11.575"], ["48.857", "2.351"]]
        for names in (("lat", "lon"), ("Latitude", "Longitude"), (" LAT", "lng"), ("latitude", "long")):
            for order in (slice(None), slice(None, None, -1)):
                places = np.array([munich[order], paris[order]])
                fields = np.array([tuple(it) for it in places.tolist()], [(it, "f8") for it in names[order]])
                self.assertEqual(self.made(fields, globe=True), expected)
                if pandas:
                    self.assertEqual(self.made(pandas.DataFrame(places, columns=names[order]), globe=True), expected)
        self.assertEqual(self.made([munich, paris], globe=True), expected)
        if pandas:
            self.assertEqual(self.made(pandas.DataFrame([munich, paris], columns=["x", "y"]), globe=True), expected)
            self.assertEqual(self.made(pandas.DataFrame([munich, paris], columns=["lon", "lat"]))[0], ["x", "y"])

    def test_places_that_are_probably_swapped(self):
        with self.assertWarnsRegex(UserWarning, r"^points\[1, 0\] is 77\.2, a latitude near a pole, and no longitude is beyond 75\.0: the columns may be swapped\. The latitude comes first$") as output:
            self.made([[72.9, 19.1], [77.2, 28.6]], globe=True)
        self.assertEqual(output.filename, __file__)
        with warnings.catch_warnings():
            warnings.simplefilter("error")
            self.made([[78.2, 15.6], [69.6, 170.3]], globe=True)
            self.made([[72.9, 19.1], [77.2, 28.6]])
            self.made(np.array([(77.2, 28.6)], [("lat", "f8"), ("lon", "f8")]), globe=True)

    def test_names(self):
        # (joiners shape Persian words and families of emoji)
        names = ['a "b", c', "</script><b>", "می\u200cخواهم", "👨\u200d👩", "a\xa0b", "ů\n;", "a\0b\x85\ud800"]
        expected = [*names[:5], "ů ;", "a b  "]
        self.assertEqual(self.made([[0, 0]] * 7, names)[1:], [[it, "0.0", "0.0"] for it in expected])

    def test_what_is_rejected(self):
        for points, more, output in [
            ([], {}, r"shape \(0,\)"),
            ([1, 2], {}, r"shape \(2,\)"),
            ([[1, 2, 3]], {}, r"shape \(1, 3\)"),
            (np.empty((0, 2)), {}, "0 points"),
            (np.zeros((1_000_001, 2)), {}, "1000001 points"),
            ([[0, 0], [1, np.nan]], {}, r"points\[1, 1\] is nan"),
            ([[np.inf, 0]], {}, r"points\[0, 0\] is inf"),
            ([[0, 0], [91, 0]], {"globe": True}, r"^the latitude of points\[1\] is 91\.0, but has to be from -90 to 90 degrees: the latitude comes first, then the longitude$"),
            ([[103.8, 1.3]], {"globe": True}, r"^the latitude of points\[0\] is 103\.8, .*: the latitude comes first"),
            ([[0, -361]], {"globe": True}, r"^the longitude of points\[0\] is -361\.0, but has to be from -360 to 360 degrees$"),
            (np.array([(0, 0)], [("x", "f8"), ("lat", "f8")]), {"globe": True}, "^points has the columns 'x', 'lat', but needs two, latitude and longitude, in either order$"),
            ([[0, 2**53 + 1]], {}, r"^points\[0, 1\] is 9007199254740993, which a double would round"),
            (np.ma.masked_equal([[0, 0], [1, 9]], 9), {}, "^points has masked entries"),
            ([[0, 0]], {"names": ["a", "b"]}, "2 names for 1 points"),
        ]:
            with self.subTest(output=output), self.assertRaisesRegex(ValueError, output):
                show(points, into=self.into, page=self.page, **more)
        for more, output in [
            ({"globe": "no"}, "^globe is 'no', but has to be True or False$"),
            ({"names": {"a"}}, "^names is a set, but has to be a list$"),
            ({"names": "a"}, "^names is a str, but has to be a list$"),
        ]:
            with self.subTest(output=output), self.assertRaisesRegex(TypeError, output):
                show([[0, 0]], into=self.into, page=self.page, **more)
        # (numpy can convert each of these to doubles)
        for points, output in [
            (np.array([[1, 2]], np.longdouble), "^points has the dtype float128, but "),
            ([["1", "2"]], r"^points has the dtype <U1, because points\[0, 0\] is '1', but "),
            (np.array([["2020-01-01", "2020-01-02"]], "M8[D]"), r"^points has the dtype datetime64\[D\], but "),
        ]:
            with self.subTest(output=output), self.assertRaisesRegex(TypeError, output):
                show(points, into=self.into, page=self.page)
        self.assertFalse(os.path.exists(self.into))
        with self.assertRaisesRegex(ValueError, "no empty element"):
            show([[0, 0]], into=self.into, page=np.__file__)

    def test_no_page(self):
        with mock.patch("boruvka._page._PAGES", []), mock.patch.dict(os.environ, clear=True), self.assertRaises(FileNotFoundError):
            show([[0, 0]], into=self.into)

    def test_the_browser_is_opened(self):
        with mock.patch("webbrowser.open") as opened, mock.patch.dict(os.environ, {"BORUVKA_PAGE": self.page}):
            path = show([[1, 2]])
        self.addCleanup(os.unlink, path)
        opened.assert_called_once_with(f"file://{path}")
        with open(path, encoding="utf-8") as it:
            self.assertEqual(table_in(it.read()), [["x", "y"], ["1.0", "2.0"]])


if __name__ == "__main__":
    unittest.main()
