"""`.gr` texts, which the program reads and writes. docs/GR_FORMAT.md in the repository defines them.

A proved call of the library checks a text, and returns its first error or its number of vertices. This module reads the
numbers of its arcs, and writes texts: that is tested.
"""

from __future__ import annotations

import gzip
import os
import re
import zlib
from collections.abc import Iterator
from typing import Any, NamedTuple, SupportsIndex, overload

import numpy as np
from numpy.typing import NDArray

from boruvka import _library
from boruvka._edges import Column, edges_of, pairs_of_vertices
from boruvka._result import Forest
from boruvka._weights import ordered

# bytes that are read, and lines that are written, at a time; Ctrl-C takes effect in between
_BYTES, _LINES = 1 << 22, 1 << 16
_GZIP = b"\x1f\x8b"
# an arc line has neither letter, so in any other line the first of them begins the first field
_COMMENT_OR_PROBLEM = re.compile(rb"[cp][^\n]*")
_ONLY_NUMBERS = bytes.maketrans(b"a\t\r\n", b"    ")


class Edges(NamedTuple):
    """A graph with the vertices 0 to n - 1. Edge i joins u[i] and v[i], and has the weight w[i].

    Pass it on as `minimum_spanning_forest(*edges)`.
    """

    n: int
    u: NDArray[np.int32]
    v: NDArray[np.int32]
    w: NDArray[np.int64]


def read_gr(path: str | os.PathLike[str]) -> Edges:
    """Read a graph from a `.gr` file, the shortest-path format of the 9th DIMACS Challenge. It may be compressed by
    gzip.

    Parameters
    ----------
    path : path
        The file. Its first bytes show whether it is compressed.

    Returns
    -------
    Edges
        n, u, v and w. Vertices are numbered from 0: the file's vertex 1 is 0 here. Edges are in the order of the file,
        including loops and parallel edges.

    Raises
    ------
    ValueError
        If the text is malformed: `roads.gr: line 3: MissingArcs` has the path, and the line and the name of the first
        error, as the program reports them. If compressed data is truncated or damaged.
    OSError
        If the file can't be read.

    Notes
    -----
    A library whose calls are proved checks the whole text, and counts its vertices. Python then reads the numbers; that
    is tested.

    Cost: about three times the time of finding the forest. Memory is that of the text, and 45 bytes per edge. An
    untrusted compressed file may be a thousand times as large in memory. Ctrl-C has no effect during the library's
    call, a third of the time.

    Examples
    --------
    >>> import boruvka
    >>> with open("net.gr", "w") as file:
    ...     _ = file.write("c a graph of three vertices\\np sp 3 3\\na 1 2 7\\na 3 2 -5\\na 1 3 7\\n")
    >>> boruvka.minimum_spanning_forest(*boruvka.read_gr("net.gr")).w
    array([-5,  7])
    """
    text = _text_of(path)
    try:
        n = _library.vertices_of_text(text)
    except ValueError as error:
        raise ValueError(f"{os.fsdecode(path)}: {error}") from None
    tables = [np.empty((0, 3), np.int64)]
    start = 0
    while start < len(text):
        end = text.find(b"\n", start + _BYTES) + 1 or len(text)
        tables.append(_arcs(text[start:end]))
        start = end
    u, v = (np.concatenate([it[:, column].astype(np.int32) - np.int32(1) for it in tables]) for column in (0, 1))
    return Edges(n, u, v, np.concatenate([it[:, 2] for it in tables]))


@overload
def write_gr(path: str | os.PathLike[str], forest: Forest, /) -> None: ...
@overload
def write_gr(path: str | os.PathLike[str], u: Column, v: Column, w: Column, /, *, n: SupportsIndex | None = None) -> None: ...
@overload
def write_gr(path: str | os.PathLike[str], n: SupportsIndex | None, u: Column, v: Column, w: Column, /) -> None: ...
@overload
def write_gr(path: str | os.PathLike[str], edges: Column, w: Column, /, *, n: SupportsIndex | None = None) -> None: ...
@overload
def write_gr(path: str | os.PathLike[str], n: SupportsIndex | None, edges: Column, w: Column, /) -> None: ...
@overload
def write_gr(path: str | os.PathLike[str], n: SupportsIndex | None, /, *, u: Column, v: Column, w: Column) -> None: ...
@overload
def write_gr(path: str | os.PathLike[str], *, n: SupportsIndex | None = None, u: Column, v: Column, w: Column) -> None: ...
def write_gr(path: str | os.PathLike[str], *edges: Any, n: Any = None, u: Any = None, v: Any = None, w: Any = None) -> None:
    """Write a graph or a forest as a `.gr` file, which the program reads. It is compressed if its name ends in `.gz`.

    Parameters
    ----------
    path : path
        The file. An existing one is overwritten.
    edges, n, u, v, w : optional
        A forest alone, or the edges as `minimum_spanning_forest` takes them. Weights are whole numbers.

    Raises
    ------
    ValueError, TypeError
        As `minimum_spanning_forest` does, or if weights are floats. Then no file is written.
    OSError
        If the file can't be written.

    Notes
    -----
    Vertices are numbered from 1 in the file. For a minimum forest the text is the one that the program writes. Names,
    the `index` of edges, and whether a forest is a maximum forest aren't written.

    Examples
    --------
    >>> import boruvka
    >>> boruvka.write_gr("net.gr", 3, u=[0, 2], v=[1, 1], w=[7, -5])
    >>> from pathlib import Path
    >>> print(Path("net.gr").read_text(), end="")
    p sp 3 2
    a 1 2 7
    a 3 2 -5
    """
    if len(edges) == 1 and isinstance(edges[0], Forest):
        edges = edges[0].n, edges[0].u, edges[0].v, edges[0].w
    count, u, v, weights = edges_of(edges, n, u, v, w)
    tails, heads = pairs_of_vertices(count, u, v)
    if weights.dtype.kind == "f" and len(weights):
        raise TypeError(f"w has the dtype {weights.dtype}, but a .gr text has whole numbers: scale and round them first, as in (1000 * w).round().astype(int)")
    keys = ordered(weights)
    with open(path, "wb") as file:
        into: Any = gzip.GzipFile("", "wb", fileobj=file, mtime=0) if os.fsdecode(path).endswith(".gz") else file
        into.write(f"p sp {count} {len(keys)}\n".encode())
        for lines in _lines(tails, heads, keys):
            into.write(lines)
        into.close()


def _text_of(path: str | os.PathLike[str]) -> bytes:
    with open(path, "rb") as file:
        text = file.read()
    if not text.startswith(_GZIP):
        return text
    try:
        return gzip.decompress(text)
    except (EOFError, zlib.error, gzip.BadGzipFile) as error:
        raise ValueError(f"{os.fsdecode(path)}: its compressed data is truncated or damaged: {error}") from None


def _arcs(lines: bytes) -> NDArray[np.int64]:
    """The numbers of the arc lines among these well-formed lines, a row for each arc."""
    numbers = _COMMENT_OR_PROBLEM.sub(b"", lines).translate(_ONLY_NUMBERS).strip()
    # (from spaces alone numpy would read a 0)
    return (np.fromstring(numbers, np.int64, sep=" ") if numbers else np.empty(0, np.int64)).reshape(-1, 3)


def _lines(tails: NDArray[np.uint32], heads: NDArray[np.uint32], weights: NDArray[np.int64]) -> Iterator[bytes]:
    for start in range(0, len(weights), _LINES):
        some = slice(start, start + _LINES)
        rows = zip((tails[some] + np.uint32(1)).tolist(), (heads[some] + np.uint32(1)).tolist(), weights[some].tolist())
        yield "".join(map("a %d %d %d\n".__mod__, rows)).encode()
