"""The calls of libboruvka on numpy arrays, by ctypes.

The library is the one that BORUVKA_LIBRARY names, or the one next to this file, where the wheel puts it, or the one
that the system's loader finds.
"""

from __future__ import annotations

import ctypes
import os
from typing import Any

import numpy as np
from numpy.typing import NDArray

MAX_VERTICES = 1 << 26
MAX_LINKS = 1 << 30
#: `struct boruvka_link` of boruvka.h, whose vertices are numbered from 1
LINK = np.dtype([("weight", np.int64), ("low", np.uint32), ("high", np.uint32)])
#: `struct boruvka_merge`
MERGE = np.dtype([("first", np.uint32), ("second", np.uint32), ("size", np.uint32)])

_VERSION = 1
_NO_MEMORY = -1
_NAME = f"libboruvka.so.{_VERSION}"
_NEXT_TO_THIS = os.path.join(os.path.dirname(os.path.abspath(__file__)), _NAME)
_ARRAY = (ctypes.c_void_p, ctypes.c_size_t)


class _TextError(ctypes.Structure):
    """`struct boruvka_fault` of boruvka.h."""

    _fields_ = [("kind", ctypes.c_int64), ("line", ctypes.c_uint64)]


_CALLS = {
    "boruvka_places_in": (ctypes.c_int64, [ctypes.c_uint32, ctypes.c_uint32, *_ARRAY, *_ARRAY, *_ARRAY, *_ARRAY]),
    "boruvka_labels_in": (ctypes.c_int64, [*_ARRAY, *_ARRAY]),
    "boruvka_merges_in": (ctypes.c_int64, [ctypes.c_uint32, *_ARRAY, *_ARRAY]),
    "boruvka_forest_text": (ctypes.c_int64, [*_ARRAY, *_ARRAY, ctypes.POINTER(_TextError)]),
    "boruvka_fault_text": (ctypes.c_size_t, [ctypes.c_int64, ctypes.c_char_p, ctypes.c_size_t]),
}


def _loaded() -> ctypes.CDLL:
    path = os.environ.get("BORUVKA_LIBRARY") or (_NEXT_TO_THIS if os.path.exists(_NEXT_TO_THIS) else _NAME)
    try:
        library = ctypes.CDLL(path)
        library.boruvka_version.restype = ctypes.c_uint32
        if library.boruvka_version() != _VERSION:
            raise ImportError(f"{path} has version {library.boruvka_version()} of the calls, but version {_VERSION} is needed")
        for name, (result, parameters) in _CALLS.items():
            call = getattr(library, name)
            call.restype, call.argtypes = result, parameters
    except (OSError, AttributeError) as error:
        raise ImportError(f"libboruvka can't be loaded: {error}; BORUVKA_LIBRARY may name its path") from error
    return library


_library = _loaded()


def indices(n: int, u: NDArray[np.uint32], v: NDArray[np.uint32], w: NDArray[np.int64]) -> NDArray[np.uint32]:
    """The indices of the forest's edges, in the order of their keys, among edges between the vertices 0 to n - 1.

    n is at most MAX_VERTICES. u, v and w have one length, at most MAX_LINKS. An endpoint that is no vertex is a
    ValueError.
    """
    found = np.empty(min(len(w), max(n - 1, 0)), np.uint32)
    count = _library.boruvka_places_in(n, 0, *_passed(u), *_passed(v), *_passed(w), *_passed(found))
    return found[: _checked(count)]


def labels(n: int, links: NDArray[np.void]) -> NDArray[np.uint32]:
    """The least vertex, numbered from 1, of the component of each of the vertices 1 to n.

    The links have the dtype LINK. Links that close a cycle, and an endpoint that is no vertex, are a ValueError.
    """
    found = np.empty(n, np.uint32)
    _checked(_library.boruvka_labels_in(*_passed(links), *_passed(found)))
    return found


def merges(n: int, links: NDArray[np.void]) -> NDArray[np.void]:
    """The merges of the clusters of the vertices 1 to n, by links that join them in this order. They have the dtype
    MERGE.

    The links have the dtype LINK. Links that close a cycle or aren't in ascending order of their weights, and an
    endpoint that is no vertex, are a ValueError.
    """
    found = np.empty(len(links), MERGE)
    _checked(_library.boruvka_merges_in(n, *_passed(links), *_passed(found)))
    return found


def vertices_of_text(text: bytes) -> int:
    """The number of vertices of a `.gr` text.

    For a malformed text, a ValueError has the line and the name of its first error.
    """
    # (there is only room for the first line of the forest's text)
    head, error = ctypes.create_string_buffer(len("p sp 67108864 67108863\n")), _TextError()
    start = ctypes.cast(ctypes.c_char_p(text), ctypes.c_void_p)
    result = _library.boruvka_forest_text(start, len(text), head, len(head), ctypes.byref(error))
    if error.line:
        raise ValueError(f"line {error.line}: {error_text(result)}")
    _checked(result)
    return int(head.raw.split()[2])


def _passed(array: NDArray[Any]) -> tuple[int, int]:
    """An array as C takes it: the address of its first byte, and the number of its elements."""
    assert array.flags.c_contiguous and array.flags.aligned and array.dtype.isnative
    return array.ctypes.data, len(array)


def _checked(result: int) -> int:
    """The result of a call; an error if it is negative."""
    if result >= 0:
        return result
    if result == _NO_MEMORY:
        raise MemoryError("there isn't enough memory for the forest")
    raise ValueError(f"libboruvka returned an error: {error_text(result)}")


def error_text(code: int) -> str:
    text = ctypes.create_string_buffer(64)
    _library.boruvka_fault_text(code, text, len(text))
    return text.value.decode()
