"""Names of vertices: their order, by which vertices are numbered, and how a vertex is found by its name.

The order depends on the names alone, and not on the order of rows: numbers come first, by their values, then texts by
their code points, then bytes, then all others by their types. So the same rows have the same forest in any order.
"""

from __future__ import annotations

import datetime
import decimal
import fractions
import math
import numbers
import operator
import sys
from collections import defaultdict
from collections.abc import Hashable, Iterable, Sequence
from difflib import get_close_matches
from itertools import count, islice
from typing import Any, Union

import numpy as np
from numpy.typing import NDArray

from boruvka._warnings import warn

#: columns, each after its name
Columns = Sequence["tuple[Hashable, Any]"]
Key = tuple[Any, ...]
_Numbered = Union["tuple[list[Any], list[NDArray[np.int32]]]", None]

# types of pandas and numpy that stand for a missing entry
_MISSING = ("NAType", "NaTType", "MaskedConstant")
# sets of types that have no missing entry, and whose own order is used
_PLAIN: list[set[type]] = [{str}, {int}, {int, bool}]
# texts that missing entries become
_TEXTS_OF_MISSING = {"", "nan", "NaN", "None", "NaT", "<NA>"}
# by the bytes of a float: from this number on, a float may stand for several whole numbers
_EXACT = {2: 1 << 11, 4: 1 << 24, 8: 1 << 53}
# a table of all numbers from the least to the greatest may have so many entries per name
_TABLE = 8


def numbered(columns: Columns) -> tuple[list[Any], list[NDArray[np.int32]]]:
    """The names in these columns in ascending order, and for each column the numbers of its names.

    A name that is missing, or is a float that may stand for several whole numbers, is a ValueError. A name that isn't
    hashable is a TypeError.
    """
    return _of_numbers(columns) or _of_objects(columns)


def _of_numbers(columns: Columns) -> _Numbered:
    """The same by numpy, for columns of integers or of floats; None if a column has anything else."""
    arrays = [_plain_array(it) for _, it in columns]
    given = [it for it in arrays if it is not None]
    if len(given) < len(arrays):
        return None
    dtype = np.result_type(*given)
    if {it.dtype.kind == "f" for it in given} != {dtype.kind == "f"}:
        # (integers would be rounded to floats)
        return None
    if dtype.kind == "f":
        for (name, _), array in zip(columns, given):
            _expect_exact(array, name)
    values = np.concatenate([it.astype(dtype, copy=False) for it in given])
    names, ranks = _ranked(values)
    bounds = np.cumsum([len(it) for it in given])[:-1]
    return names.tolist(), [_fixed(it) for it in np.split(ranks, bounds)]


def _plain_array(column: Any) -> NDArray[Any] | None:
    """The numpy array of a column of integers or floats."""
    dtype = getattr(column, "dtype", None)
    if not isinstance(dtype, np.dtype) or dtype.kind not in "iuf" or dtype.itemsize > 8 or isinstance(column, np.ma.MaskedArray):
        return None
    array = np.asarray(column)
    return array if array.ndim == 1 else None


def _expect_exact(column: NDArray[Any], name: Hashable) -> None:
    """Raise a ValueError if a float is NaN, or so large that it may stand for several whole numbers."""
    is_wrong = ~(np.abs(column) < _EXACT[column.dtype.itemsize]) & ~np.isinf(column)
    if is_wrong.any():
        row = int(is_wrong.argmax())
        raise _no_name(row, name) if np.isnan(column[row]) else _no_exact_name(row, name, column[row], column.dtype.itemsize)


def _ranked(values: NDArray[Any]) -> tuple[NDArray[Any], NDArray[np.int32]]:
    """The distinct values in ascending order, and the rank of each value."""
    if values.dtype.kind in "iu" and len(values):
        least, most = int(values.min()), int(values.max())
        if most - least < _TABLE * len(values) and most < 1 << 63:
            offsets = values.astype(np.int64, copy=False) - least
            is_there = np.zeros(most - least + 1, bool)
            is_there[offsets] = True
            ranks = np.cumsum(is_there, dtype=np.int32) - np.int32(1)
            return np.flatnonzero(is_there) + least, ranks[offsets]
    if "pandas" in sys.modules:
        codes, names = sys.modules["pandas"].factorize(values)
        order = np.argsort(names, kind="stable")
        ranks = np.empty(len(order), np.int32)
        ranks[order] = np.arange(len(order), dtype=np.int32)
        return names[order], ranks[codes]
    names, codes = np.unique(values, return_inverse=True)
    return names, codes.astype(np.int32)


def _of_objects(columns: Columns) -> tuple[list[Any], list[NDArray[np.int32]]]:
    """The same for columns of any hashable objects."""
    names, codes = _coded_by_pandas(columns) or _coded([(name, listed(it)) for name, it in columns])
    types = {*map(type, names)}
    if types in _PLAIN:
        order = sorted(range(len(names)), key=names.__getitem__)
    else:
        _expect_one_kind_of_times(names)
        order = _order_of(names)
    names = list(map(names.__getitem__, order))
    _warn_of_texts(names, names if types == {str} else [it for it in names if isinstance(it, str)])
    ranks = np.empty(len(order), np.int32)
    ranks[order] = np.arange(len(order), dtype=np.int32)
    return names, [_fixed(ranks[it]) for it in codes]


def _coded(lists: list[tuple[Hashable, list[Any]]]) -> tuple[list[Any], list[NDArray[np.intp]]]:
    """The distinct names in the order in which they first occur, and for each entry the index of its name."""
    number: dict[Any, int] = defaultdict(count().__next__)
    try:
        codes = [np.fromiter(map(number.__getitem__, each), np.intp, len(each)) for _, each in lists]
    except (TypeError, ValueError, ArithmeticError):
        _expect_names(lists, ())
        raise
    names = list(number)
    if {*map(type, names)} not in _PLAIN:
        _expect_names(lists, names)
    return names, codes


def _coded_by_pandas(columns: Columns) -> tuple[list[Any], list[NDArray[np.intp]]] | None:
    """The same for texts in Series of pandas, twice as fast; None if there is anything else."""
    if "pandas" not in sys.modules or not all(hasattr(it, "iloc") and it.dtype == object for _, it in columns):
        return None
    arrays = [it.to_numpy() for _, it in columns]
    try:
        codes, names = sys.modules["pandas"].factorize(np.concatenate(arrays))
    except TypeError:
        return None
    if {*map(type, names)} != {str} or len(codes) and codes.min() < 0:
        return None
    return names.tolist(), np.split(codes, np.cumsum([len(it) for it in arrays])[:-1])


def _fixed(ranks: NDArray[np.int32]) -> NDArray[np.int32]:
    """The same ranks in an array that is read-only and owns its memory."""
    ranks = ranks if ranks.base is None else ranks.copy()
    ranks.flags.writeable = False
    return ranks


def listed(column: Any) -> list[Any]:
    """The names as Python objects. (For times, numpy's tolist would return integers.)"""
    if isinstance(column, memoryview):
        # (its own tolist supports fewer formats than numpy)
        column = np.asarray(column)
    if isinstance(column, np.ndarray) and column.dtype.kind in "mM":
        return list(column)
    for way in ("tolist", "to_pylist"):
        if hasattr(column, way):
            return list(getattr(column, way)())
    return list(column)


def _expect_names(lists: list[tuple[Hashable, list[Any]]], distinct: Iterable[Any]) -> None:
    """Raise an error for the first row whose entry can't be a name, if one of the distinct entries can't."""
    if distinct and not any(map(_why_not, distinct)):
        return
    for column, each in lists:
        for row, it in enumerate(each):
            why = _why_not(it)
            if why == "missing":
                raise _no_name(row, column)
            if why == "not hashable":
                kind = type(it).__name__
                raise TypeError(f"the column {column!r} has a {kind} in row {row}, which isn't hashable: a tuple of texts or numbers is")
            if why:
                raise _no_exact_name(row, column, it, min(getattr(it, "itemsize", 8), 8))


def _why_not(it: Any) -> str:
    """Why this can't be a name; an empty text if it can."""
    try:
        if it is None or type(it).__name__ in _MISSING or bool(it != it):
            return "missing"
        hash(it)
    except (TypeError, ValueError, ArithmeticError):
        return "not hashable"
    if isinstance(it, tuple):
        return next(filter(None, (_why_not(one) for one in it if one is not None)), "")
    if isinstance(it, (float, np.floating)):
        least: int = _EXACT[min(getattr(it, "itemsize", 8), 8)]
        return "inexact" if least <= abs(float(it)) < np.inf else ""
    return ""


def _no_name(row: int, column: Hashable) -> ValueError:
    return ValueError(f"row {row} has no name in the column {column!r}: leave such edges out first")


def _no_exact_name(row: int, column: Hashable, name: Any, size: int = 8) -> ValueError:
    power = _EXACT[size].bit_length() - 1
    return ValueError(
        f"row {row} of the column {column!r} is {name!r}, but from 2^{power} on a float may stand for several whole numbers: "
        "read the column as nullable integers (dtype 'Int64') or as text"
    )


def _order_of(names: list[Any]) -> list[int]:
    """The indices of the names in ascending order of their keys."""
    keys = list(map(_key, names))
    order = sorted(range(len(names)), key=keys.__getitem__)
    for one, other in zip(order, order[1:]):
        if keys[one] == keys[other]:
            kind = type(names[one]).__name__
            warn(f"names of the type {kind} can't be ordered, so the order of the rows decides between edges of equal weight: use numbers, texts or tuples of them")
            break
    return order


def _key(name: Any) -> Key:
    """What names are compared by: their kind, their type, their value. Names that Python calls equal have equal keys."""
    # (to Python, a timedelta64 is a number, so this comes first)
    if isinstance(name, (np.datetime64, np.timedelta64)):
        return 3, f"numpy.{type(name).__name__}", int(name.astype(np.int64))
    if isinstance(name, (numbers.Number, np.bool_)):
        return _key_of_number(name.item() if isinstance(name, np.generic) else name)
    if isinstance(name, str):
        return 1, "", str(name)
    if isinstance(name, (bytes, memoryview)):
        return 2, "", bytes(name)
    for kind in (datetime.date, datetime.timedelta, datetime.time):
        if isinstance(name, kind):
            return 3, kind.__name__, name
    if isinstance(name, tuple):
        return 4, "tuple", tuple(map(_key, name))
    if isinstance(name, frozenset):
        return 4, "frozenset", tuple(sorted(map(_key, name)))
    kind = type(name)
    # (the default text has the object's address, which differs from run to run)
    has_text: bool = kind.__repr__ is not object.__repr__  # type: ignore[comparison-overlap]
    return 5, f"{kind.__module__}.{kind.__qualname__}", repr(name) if has_text else ""


def _key_of_number(number: Any) -> Key:
    """Its exact value. (Decimals and long doubles can't be compared with fractions, nor complex numbers with any.)"""
    real, imaginary = (number.real, number.imag) if isinstance(number, (complex, np.complexfloating)) else (number, 0)
    return 0, "", _exact(real), _exact(imaginary)


def _exact(real: Any) -> Any:
    """An equal number that can be compared with all others."""
    if not isinstance(real, (decimal.Decimal, np.longdouble)):
        return real
    return fractions.Fraction(*real.as_integer_ratio()) if -math.inf < real < math.inf else float(real)


def _expect_one_kind_of_times(names: Iterable[Any]) -> None:
    """Raise a TypeError if names are times that can't be compared.

    Such are times in different units, with and without a time zone, with and without a time of day, or some numpy's and
    some Python's. Equal ones among them have different hashes, or they are never equal.
    """
    types = {*map(type, names)}
    if any(issubclass(it, datetime.datetime) for it in types):
        if len({it.tzinfo is None for it in names if isinstance(it, datetime.datetime)}) > 1:
            raise TypeError("some endpoints are times with a time zone, and some without: .dt.tz_localize adds a time zone")
        if any(issubclass(it, datetime.date) and not issubclass(it, datetime.datetime) for it in types):
            raise TypeError("some endpoints are dates, and some have a time of day: .dt.date converts these to dates")
    # (to numpy, a timedelta64 equals the number of its units)
    kinds: list[tuple[Any, Any]] = [(np.datetime64, datetime.date), (np.timedelta64, (datetime.timedelta, numbers.Number, np.bool_))]
    for of_numpy, of_python in kinds:
        if of_numpy in types:
            units = [*{it.dtype: None for it in names if type(it) is of_numpy}]
            if len(units) > 1:
                raise TypeError(f"the endpoints have the dtypes {units[0]} and {units[1]}: .astype converts one to the other")
            others = sorted(it.__name__ for it in types if issubclass(it, of_python) and it is not of_numpy)
            if others:
                raise TypeError(f"some endpoints are times of numpy ({units[0]}), and some have the type {others[0]}: numpy.asarray(column, {str(units[0])!r}) converts a column")


def _warn_of_texts(names: list[Any], texts: list[str]) -> None:
    """Warn if a text is that of another name or of a missing entry, or differs from another text only in outer spaces."""
    if len(texts) < len(names) and texts:
        _warn_of_texts_of_others(texts, names)
    missing = _TEXTS_OF_MISSING.intersection(texts)
    if missing:
        warn(f"the text {min(missing)!r} names a vertex, but it is the text of a missing entry: leave edges without names out first")
    if any(map(operator.ne, texts, map(str.strip, texts))):
        first: dict[str, str] = {}
        pairs = ((first[short], it) for short, it in zip(map(str.strip, texts), texts) if first.setdefault(short, it) != it)
        for one, other in islice(pairs, 1):
            warn(f"the texts {one!r} and {other!r} name two vertices: .str.strip() on both columns makes them one")


def _warn_of_texts_of_others(texts: list[str], names: list[Any]) -> None:
    """Warn if a text is that of another name that isn't a text."""
    all_names = {*names}
    others = {_shown(it): it for it in names if not isinstance(it, (str, bytes, int, float))}
    for text in map(str, texts):
        if _number_of(text) in all_names:
            rest = f"the number {_number_of(text)} name two vertices: .astype(str) on both columns makes them one"
        elif text.encode(errors="replace") in all_names:
            rest = f"the bytes {text.encode(errors='replace')!r} name two vertices: numpy.char.decode(column) converts bytes to texts"
        elif _shown(text) in others:
            other = others[_shown(text)]
            rest = f"the {type(other).__name__} {other} name two vertices: both columns need the same type"
        else:
            continue
        warn(f"the text {text!r} and {rest}")
        return


def _shown(name: object) -> str:
    """Its text; for a time, without the letter T and without a midnight."""
    return str(name).replace("T", " ").removesuffix(" 00:00:00")


def _number_of(text: str) -> int | float | None:
    """The number that a text stands for, if any."""
    for kind in (int, float):
        try:
            number: int | float = kind(text)
            return number
        except ValueError:
            pass
    return None


class Vertices:
    """The vertices of a forest by their names."""

    def __init__(self, names: Sequence[Any]) -> None:
        self.number = numbers_of_names(names, "each vertex needs a name of its own")

    def vertex(self, name: Any) -> int:
        try:
            return self.number[name]
        except (KeyError, TypeError):
            raise ValueError(f"{name!r:.80} isn't a vertex: {self._hint(name)}") from None

    def vertices(self, column: Any, of: str) -> NDArray[np.intp]:
        """The numbers of the vertices with these names. Errors call the column `of`."""
        each = listed(column)
        try:
            return np.fromiter(map(self.number.__getitem__, each), np.intp, len(each))
        except (KeyError, TypeError):
            for at, it in enumerate(each):
                try:
                    self.number[it]
                except (KeyError, TypeError):
                    raise ValueError(f"{of}[{at}] is {it!r:.80}, which isn't a vertex: {self._hint(it)}") from None
            raise

    def _hint(self, name: Any) -> str:
        texts = [it for it in self.number if isinstance(it, str)]
        near = get_close_matches(name, texts, 1) if isinstance(name, str) else [] if texts == [] else [it for it in texts if it == str(name)]
        if near:
            return f"did you mean {near[0]!r}?"
        shown = ", ".join(map(repr, list(self.number)[:3]))
        return f"their names are such as {shown}" if shown else "there are none"


def numbers_of_names(names: Sequence[Any], why: str, which: str = "") -> dict[Any, int]:
    """The number of each name. Raise an error if two names are equal, or one isn't hashable."""
    try:
        number = dict(zip(names, range(len(names))))
    except TypeError:
        number = {}
    if len(number) == len(names):
        return number
    first: dict[Any, int] = {}
    for at, it in enumerate(names):
        try:
            before = first.setdefault(it, at)
        except TypeError:
            raise TypeError(f"names[{at}] is a {type(it).__name__}, which isn't hashable{which}") from None
        if before != at:
            raise ValueError(f"names[{at}] and names[{before}] are both {it!r:.80}: {why}")
    return first
