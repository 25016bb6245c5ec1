"""Points in the page that draws them: one HTML file, which a browser opens from any folder, without a network.

The page is in the wheel. Otherwise it is `share/boruvka/boruvka.html` of a package, or `dist/boruvka.html` in the
repository, which `make page` makes.
"""

from __future__ import annotations

import base64
import gzip
import json
import os
import sys
import tempfile
import unicodedata
import webbrowser
from collections.abc import Mapping, Sequence, Set

import numpy as np
from numpy.typing import ArrayLike, NDArray

from boruvka._arrays import as_array, boolean, expect_no_rounding
from boruvka._globe import latitude_first
from boruvka._weights import why_not_numbers

_MOST_POINTS = 1_000_000
_EMPTY = '<script type="application/json" id="data"></script>'
_HERE = os.path.dirname(os.path.abspath(__file__))
_SHARES = [sys.prefix, os.path.expanduser("~/.local"), "/usr/local", "/usr"]
_PAGES = [f"{_HERE}/boruvka.html", f"{_HERE}/../../dist/boruvka.html", *(f"{it}/share/boruvka/boruvka.html" for it in _SHARES)]


def show(
    points: ArrayLike, names: Sequence[str] | None = None, *, globe: bool = False, into: str | os.PathLike[str] | None = None, page: str | os.PathLike[str] | None = None
) -> str:
    """Draw points, their minimum spanning tree and its clusters in a page, and open it in the browser.

    Parameters
    ----------
    points : array_like, shape (n, 2)
        x and y of each point, or its latitude and longitude; 1 to 1,000,000 points.
    names : sequence of str, optional
        A name for each point.
    globe : bool
        Whether the points are places on the globe in degrees: the latitude first, then the longitude, as in
        scikit-learn. Columns named lat or latitude, and lon, lng, long or longitude, may be in either order. Lengths
        are kilometres on great circles.
    into : path, optional
        The file to write. It isn't opened then. By default it is a temporary file, which stays.
    page : path, optional
        The page. By default it is the one that BORUVKA_PAGE names, or that of the wheel, a package or the repository.

    Returns
    -------
    str
        The path of the file.

    Raises
    ------
    ValueError
        If there are no points, or too many; a coordinate isn't finite, a latitude is beyond 90 degrees, or a longitude
        beyond 360; there isn't a name for each point; a double would round a whole number; or the file isn't such a
        page.
    TypeError
        If a coordinate isn't a real number, `globe` is neither True nor False, or `names` is a set, a dict or a string.
    FileNotFoundError
        If no page is found.

    Warns
    -----
    UserWarning
        If latitudes and longitudes are probably swapped: a latitude is near a pole, and every longitude could be a
        latitude. Columns without names whose numbers are all from -75 to 75 can't be checked.

    Examples
    --------
    >>> from boruvka import show  # doctest: +SKIP
    >>> show([[0, 0], [3, 4], [9, 9]], ["a", "b", "c"])  # doctest: +SKIP
    '/tmp/boruvka-n1fe9a8w.html'
    """
    table = _table(points, names, boolean(globe, "globe"))
    text = _filled(_page(page), table)
    if into is None:
        handle, path = tempfile.mkstemp(prefix="boruvka-", suffix=".html")
    else:
        path = os.fspath(into)
        handle = os.open(path, os.O_WRONLY | os.O_CREAT | os.O_TRUNC, 0o666)
    with open(handle, "w", encoding="utf-8") as it:
        it.write(text)
    if into is None:
        webbrowser.open(f"file://{os.path.abspath(path)}")
    return path


def _page(path: str | os.PathLike[str] | None) -> str:
    """The text of the page."""
    path = path or os.environ.get("BORUVKA_PAGE") or next((it for it in _PAGES if os.path.exists(it)), None)
    if path is None:
        raise FileNotFoundError("boruvka.html isn't found: `make page` makes it, and BORUVKA_PAGE may name its path")
    with open(path, encoding="utf-8") as it:
        return it.read()


def _filled(page: str, table: str) -> str:
    """The page with this table inside."""
    if page.count(_EMPTY) != 1:
        raise ValueError("the page has no empty element for data: is it boruvka.html, as `make page` makes it?")
    packed = base64.b64encode(gzip.compress(table.encode(), mtime=0)).decode()
    inside = json.dumps({"name": "points.csv.gz", "base64": packed}).replace("<", "\\u003c")
    return page.replace(_EMPTY, _EMPTY.replace("></", f">{inside}</"))


def _table(points: ArrayLike, names: Sequence[str] | None, globe: bool) -> str:
    """The points as the text of a table."""
    given = _coordinates(points)
    if globe:
        given = latitude_first(points, given)
    if isinstance(names, (Set, Mapping, str, bytes)):
        raise TypeError(f"names is a {type(names).__name__}, but has to be a list")
    if names is not None and len(names) != len(given):
        raise ValueError(f"there are {len(names)} names for {len(given)} points")
    head = ["latitude", "longitude"] if globe else ["x", "y"]
    rows = [[repr(x), repr(y)] for x, y in given.tolist()]
    if names is not None:
        head, rows = ["name", *head], [[_quoted(str(name)), *row] for name, row in zip(names, rows)]
    return "".join(f"{','.join(row)}\n" for row in [head, *rows])


def _coordinates(points: ArrayLike) -> NDArray[np.float64]:
    """The two finite coordinates of each point."""
    array = as_array(points, "points")
    if array.dtype.names:
        array = np.stack([array[it] for it in array.dtype.names], axis=-1)
    if array.dtype.kind not in "biuf" or array.dtype.itemsize > 8:
        raise TypeError(f"{why_not_numbers(array, 'points', 'biuf')}, but coordinates are real numbers of up to 64 bits")
    given = array.astype(np.float64)
    expect_no_rounding(points, array, given, "points")
    if given.ndim != 2 or given.shape[1] != 2:
        how = ": numpy.column_stack([x, y]) makes one from two arrays" if given.ndim == 1 else ""
        raise ValueError(f"points has the shape {given.shape}, but has to be (n, 2), x and y of each point{how}")
    if not 1 <= len(given) <= _MOST_POINTS:
        raise ValueError(f"there are {len(given)} points, but the page takes 1 to {_MOST_POINTS:,}")
    if not np.isfinite(given).all():
        row, column = np.argwhere(~np.isfinite(given))[0].tolist()
        raise ValueError(f"points[{row}, {column}] is {given[row, column]}, but a coordinate has to be finite")
    return given


def _quoted(name: str) -> str:
    # (the page rejects control characters, and UTF-8 can't encode surrogates; joiners (Cf) belong to names)
    text = "".join(" " if unicodedata.category(it) in ("Cc", "Cs") else it for it in name)
    return '"' + text.replace('"', '""') + '"'
