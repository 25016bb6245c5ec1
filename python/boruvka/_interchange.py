"""Columns by the dataframe interchange protocol, for objects that have `__dataframe__`.

https://data-apis.org/dataframe-protocol defines its terms.
"""

from __future__ import annotations

import ctypes
from itertools import chain
from typing import Any

import numpy as np
from numpy.typing import NDArray

# codes of the kinds of columns, and of the ways in which entries are marked as missing
_INT, _UINT, _FLOAT, _BOOL, _STRING, _CATEGORICAL = 0, 1, 2, 20, 21, 23
_NEVER, _NAN, _SENTINEL, _BITS, _BYTES = range(5)
_LETTERS = {_INT: "i", _UINT: "u", _FLOAT: "f"}


def names_of(table: Any) -> list[Any]:
    return list(table.column_names())


def column_of(table: Any, name: Any) -> list[Any] | NDArray[Any]:
    """The entries of a column, None for missing ones; an array if it is one chunk of numbers without missing ones."""
    column = table.get_column_by_name(name)
    chunks = [column] if column.num_chunks() == 1 else list(column.get_chunks())
    entries = [_entries(it, name) for it in chunks]
    return entries[0] if len(entries) == 1 else list(chain.from_iterable(it if isinstance(it, list) else it.tolist() for it in entries))


def _entries(chunk: Any, name: Any) -> list[Any] | NDArray[Any]:
    """The entries of a column that is one chunk."""
    size = chunk.size() if callable(chunk.size) else chunk.size
    kind, buffers = int(chunk.dtype[0]), chunk.get_buffers()
    if not size:
        # (a column of texts may have no offsets then)
        return []
    if kind in _LETTERS or kind == _BOOL:
        numbers = _numbers(buffers["data"], chunk.offset, size).copy()
        if not any(_missing(chunk, size)):
            return numbers
        each = numbers.tolist()
    elif kind == _STRING:
        each = _strings(buffers, chunk.offset, size)
    elif kind == _CATEGORICAL:
        each = _named(_codes(buffers["data"], chunk.offset, size), chunk.describe_categorical, name)
    else:
        raise TypeError(f"the column {name!r} has entries of the kind {chunk.dtype[0]!r}, but has to have numbers, texts or categories")
    missing = _missing(chunk, size)
    return [None if is_missing else it for it, is_missing in zip(each, missing)] if any(missing) else each


def _bytes_of(buffer: Any) -> NDArray[np.uint8]:
    """The bytes of a buffer, which are valid as long as the buffer exists."""
    if not buffer.bufsize:
        return np.empty(0, np.uint8)
    memory = (ctypes.c_uint8 * buffer.bufsize).from_address(buffer.ptr)
    return np.frombuffer(memory, np.uint8)


def _numbers(described: tuple[Any, Any], offset: int, size: int) -> NDArray[Any]:
    """`size` entries of a buffer from `offset` on; `described` is the buffer and the dtype of its entries."""
    buffer, (kind, bits, _, order) = described
    entries: NDArray[Any] = _bytes_of(buffer)
    if bits == 1:
        entries = np.unpackbits(entries, bitorder="little").astype(bool)
    else:
        letter = "?" if int(kind) == _BOOL else f"{_LETTERS[int(kind)]}{bits // 8}"
        entries = entries[: len(entries) // (bits // 8) * (bits // 8)].view(np.dtype((order if order == ">" else "") + letter))
    if len(entries) < offset + size:
        raise ValueError(f"a buffer of the frame has {len(entries)} entries, but its column needs {offset + size}")
    return entries[offset : offset + size]


def _codes(described: tuple[Any, Any], offset: int, size: int) -> NDArray[Any]:
    """Integers that stand for other entries, whatever kind their buffer says they are."""
    buffer, (kind, *more) = described
    return _numbers((buffer, (kind if int(kind) in _LETTERS else _INT, *more)), offset, size)


def _strings(buffers: Any, offset: int, size: int) -> list[str]:
    data = _bytes_of(buffers["data"][0]).tobytes()
    starts = _numbers(buffers["offsets"], offset, size + 1).tolist()
    slices = map(slice, starts, starts[1:])
    if data.isascii():
        return list(map(data.decode().__getitem__, slices))
    return list(map(bytes.decode, map(data.__getitem__, slices)))


def _named(codes: NDArray[Any], about: Any, name: Any) -> list[Any]:
    """The categories that codes stand for."""
    about = about() if callable(about) else about
    if not about["is_dictionary"]:
        raise TypeError(f"the column {name!r} has categories without a dictionary")
    names = _entries(about["categories"], name)
    # (codes of missing entries stand for no category)
    is_there = (0 <= codes) & (codes < len(names))
    return list(map([*names, None].__getitem__, np.where(is_there, codes, len(names)).tolist()))


def _missing(chunk: Any, size: int) -> list[bool]:
    """Which entries are missing; an empty list if none can be."""
    how, value = chunk.describe_null
    if how in (_NEVER, _NAN):
        return []
    buffers = chunk.get_buffers()
    if how == _SENTINEL:
        return list(_codes(buffers["data"], chunk.offset, size) == value)
    if buffers["validity"] is None:
        return []
    marks, _ = buffers["validity"]
    return list(_numbers((marks, (_BOOL, 1 if how == _BITS else 8, "", "")), chunk.offset, size) == bool(value))
