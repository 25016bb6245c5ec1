"""What callers pass, as arrays and numbers: nothing is rounded, unmasked or guessed on the way.

Every array that a caller passes goes through `as_array`, the only place that looks for masks.
"""

from __future__ import annotations

import operator
from collections.abc import Iterator, KeysView, Mapping, Set, ValuesView
from itertools import compress, count
from typing import Any

import numpy as np
from numpy.typing import NDArray

# up to this every integer is a double
_EXACT = 1 << 53
# types that have no order or can be read only once, and what makes a list of them
_NO_LISTS: list[tuple[type, str]] = [
    (KeysView, "list({name}) makes a list"),
    (Set, "sorted({name}) makes a list"),
    (Mapping, "list({name}.values()) makes a list of its values"),
    (ValuesView, "list({name}) makes a list"),
    (Iterator, "list({name}) makes a list"),
]


def as_array(given: Any, name: str, what: str = "them") -> NDArray[Any]:
    """The array that numpy makes of an argument, if that loses nothing. `name` is the argument's name.

    `what` is how an error calls masked entries: "these edges".
    """
    for kind, how in _NO_LISTS:
        if isinstance(given, kind):
            verbs = ("are", "have") if name == "edges" else ("is", "has")
            raise TypeError(f"{name} {verbs[0]} a {type(given).__name__}, but {verbs[1]} to be an array or a list: {how.format(name=name)}")
    expect_no_masks(given, name, what)
    try:
        return np.asarray(given)
    except ValueError as error:
        raise ValueError(f"{name} can't become an array: {error}") from None


def column(given: Any, name: str) -> NDArray[Any]:
    """An array of one dimension, with an entry for each edge."""
    array = as_array(given, name, "these edges")
    if array.ndim == 0:
        raise ValueError(f"{name} is {given!r:.80}, but has to be an array or a list with an entry for each edge")
    if array.ndim != 1:
        how = ": pass one array of two columns instead of u and v" if array.ndim == 2 and name in ("u", "v") else ""
        raise ValueError(f"{name} has {array.ndim} dimensions, but needs one{how}")
    if array.dtype != object and is_array(given):
        return array
    each = array.tolist() if array.dtype == object else list(given)
    return of_each(each, array if array.dtype != object else np.asarray(each), name)


def expect_one_index(columns: Mapping[Any, Any]) -> None:
    """Raise a ValueError if two columns are Series of pandas whose row labels differ, or are in another order."""
    labelled = [(name, it.index) for name, it in columns.items() if hasattr(it, "iloc") and hasattr(getattr(it, "index", None), "equals")]
    for name, index in labelled[1:]:
        if not index.equals(labelled[0][1]):
            raise ValueError(
                f"the columns {labelled[0][0]!r} and {name!r} are Series with different indexes: "
                "pandas.DataFrame aligns their rows by the labels, and .to_numpy() of each column keeps the order of the rows"
            )


def is_array(given: Any) -> bool:
    """Whether numpy takes all entries in the object's own dtype."""
    return isinstance(given, memoryview) or any(hasattr(given, it) for it in ("__array__", "__array_interface__", "__array_struct__"))


def expect_no_masks(given: Any, name: str, what: str = "them") -> None:
    """Raise a ValueError if an entry is masked, because numpy would ignore the mask."""
    if is_masked(given):
        at = np.argwhere(mask_of(given))[0].tolist()
        verb = "have" if name == "edges" else "has"
        raise ValueError(f"{name} {verb} masked entries, such as {name}{at or ''}: leave {what} out first")


def is_masked(given: Any) -> bool:
    """Whether an array of numpy, pandas or dask has masked entries, or a list has such an array."""
    return bool(np.any(mask_of(given)))


def mask_of(given: Any) -> Any:
    """The mask of an array, or for a list whether each entry has masked entries. (Numpy has no type for this function.)"""
    if isinstance(given, (list, tuple)) and any(issubclass(it, np.ma.MaskedArray) for it in {*map(type, given)}):
        return [is_masked(it) for it in given]
    masked: Any = np.ma
    # (the mask of a dask array is known only after the array is computed)
    is_lazy = isinstance(getattr(given, "_meta", None), np.ma.MaskedArray)
    return masked.getmask(np.asanyarray(given) if is_lazy else given)


def of_each(each: list[Any], array: NDArray[Any], name: str) -> NDArray[Any]:
    """The array that numpy made of a list of numbers, if it changed none of them."""
    types = {*map(type, each)}
    if array.dtype.kind != "f" or types == {float}:
        return array
    # (an integer of numpy would be rounded before it is compared)
    numbers = each if types <= {int, float, bool} else [it.item() if hasattr(it, "item") else it for it in each]
    floats = array.tolist()
    for at in compress(count(), map(operator.ne, numbers, floats)):
        # (NaN differs from itself)
        if numbers[at] == numbers[at]:
            raise ValueError(f"{name}[{at}] is {each[at]}, which numpy would round to {floats[at]}, because others are floats: pass an array")
    return array


def expect_no_rounding(y: Any, given: NDArray[Any], numbers: NDArray[np.float64], name: str) -> None:
    """Raise a ValueError if an integer of y isn't among these doubles.

    `given` is the array that numpy makes of y, and `name` is how errors call it.
    """
    at = first_rounded(given, numbers)
    if at is not None:
        how = "subtract the least of each column first" if given.ndim == 2 else "minimum_spanning_forest takes them as whole numbers"
        raise ValueError(f"{name}[{', '.join(map(str, at))}] is {given[at]}, which a double would round: {how}")
    is_frame = hasattr(y, "iloc") and given.ndim == 2
    if given.dtype.kind in "iu" or is_array(y) and given.dtype != object and not is_frame or not (np.abs(numbers) >= _EXACT).any():
        return
    if is_frame:
        # (the dtypes of its columns may differ from the dtype of the array)
        for column in range(given.shape[1]):
            of_each(y.iloc[:, column].tolist(), numbers[:, column], f"{name}.iloc[:, {column}]")
    elif given.ndim == 2:
        for row, each in enumerate(y):
            of_each(list(each), numbers[row], f"{name}[{row}]")
    elif given.ndim == 1:
        of_each(list(y), numbers, name)


def first_rounded(given: NDArray[Any], numbers: NDArray[np.float64]) -> tuple[int, ...] | None:
    """The index of the first integer that differs from its double; None if all are equal."""
    if given.dtype.kind not in "iu" or given.dtype.itemsize < 8 or not given.size or max(-int(given.min()), int(given.max())) <= _EXACT:
        return None
    # (below 2^64 two doubles are at most 2^11 apart)
    is_rounded = numbers % 2048 != given % 2048
    return tuple(map(int, np.unravel_index(is_rounded.argmax(), given.shape))) if is_rounded.any() else None


def integer(given: Any, name: str, what: str = "") -> int:
    """An argument that has to be an integer."""
    # (to Python, True is an integer)
    if not isinstance(given, (bool, np.bool_)):
        try:
            return operator.index(given)
        except TypeError:
            pass
    raise TypeError(f"{name} is {given!r:.80}, but has to be a whole number{what}")


def boolean(given: Any, name: str) -> bool:
    """An argument that has to be True or False. (To Python, any text is true, "False" too.)"""
    if not isinstance(given, (bool, np.bool_)):
        raise TypeError(f"{name} is {given!r:.80}, but has to be True or False")
    return bool(given)
