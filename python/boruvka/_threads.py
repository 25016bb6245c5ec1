"""The library's call on several threads: Python releases its lock during the call."""

from __future__ import annotations

import os
from concurrent.futures import ThreadPoolExecutor
from typing import Any

import numpy as np
from numpy.typing import NDArray

from boruvka import _library

# edges per vertex from which threads are worth starting, and edges per vertex that each thread has at least
_WORTH = 16
_A_PART = 6


def indices_by_threads(n: int, u: NDArray[np.uint32], v: NDArray[np.uint32], w: NDArray[np.int64], threads: int) -> NDArray[np.uint32]:
    """The result of `_library.indices`, on at most `threads` threads, and at most one per processor.

    The forest of the parts' forests is the forest of the whole: this is proved. Among equal edges the first counts,
    because the edges of a part come before those of later parts.
    """
    parts = min(threads, _processors(), len(w) // max(_A_PART * n, 1))
    if parts < 2 or len(w) < _WORTH * n:
        return _library.indices(n, u, v, w)
    edges: list[NDArray[Any]] = [u, v, w]
    bounds = [len(w) * it // parts for it in range(parts + 1)]

    def of_part(start: int, end: int) -> tuple[NDArray[Any], ...]:
        part = [it[start:end] for it in edges]
        index = _library.indices(n, *part)
        return (index + np.uint32(start), *(it[index] for it in part))

    with ThreadPoolExecutor(parts) as pool:
        kept, *forests = (np.concatenate(it) for it in zip(*pool.map(of_part, bounds, bounds[1:])))
    return kept[_library.indices(n, *forests)]


def _processors() -> int:
    """How many processors this process may use."""
    return len(os.sched_getaffinity(0))
