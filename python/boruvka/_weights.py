"""Weights as 64-bit integers in the same order."""

from __future__ import annotations

from typing import Any

import numpy as np
from numpy.typing import NDArray

# so many numbers stay in the first-level cache between two steps
_PIECE = 1 << 14
_MOST = (1 << 63) - 1


def ordered(weights: NDArray[Any], maximum: bool = False, name: str = "w") -> NDArray[np.int64]:
    """Integers in the order of these weights, equal where the weights are. If `maximum` is true, the order is reversed.

    For int64 the result is the array itself, if C can take it. A NaN, or a number above 2^63 - 1, is a ValueError. Any
    dtype other than bool, integers of up to 64 bits and floats of up to 64 bits is a TypeError.
    """
    kind, size = weights.dtype.kind, weights.dtype.itemsize
    if kind not in "biuf" or size > 8:
        raise TypeError(f"{why_not_numbers(weights, name, 'biuf')}, but weights are whole numbers or floats of up to 64 bits{_remedy(weights)}")
    if kind == "u" and size == 8 and len(weights) and int(weights.max()) > _MOST:
        raise ValueError(f"{name}[{weights.argmax()}] is {weights.max()}, but a weight is at most 2^63 - 1")
    keys: NDArray[np.int64] = _of_floats(weights, name) if kind == "f" else np.require(weights, np.int64, ["C_CONTIGUOUS", "ALIGNED"])
    # (unlike -keys, this can't overflow)
    return ~keys if maximum else keys


def why_not_numbers(array: NDArray[Any], name: str, kinds: str) -> str:
    """The dtype of an array that has none of these kinds, and the first entry that is the reason."""
    dtype = f"{name} has the dtype {array.dtype}"
    if array.dtype.kind == "f" and "f" not in kinds:
        wrong = ~np.isfinite(array) | (np.floor(array) != array)
    elif array.dtype.kind == "O":
        wrong = np.array([np.asarray(it).dtype.kind not in kinds for it in array.ravel().tolist()], bool).reshape(array.shape)
    else:
        wrong = np.full(array.shape, array.dtype.kind in "SU")
    if not wrong.any():
        return dtype
    at = np.unravel_index(wrong.argmax(), array.shape)
    entry = array[at].item() if isinstance(array[at], np.generic) else array[at]
    return f"{dtype}, because {name}{list(map(int, at)) or ''} is {entry!r:.80}"


def _remedy(weights: NDArray[Any]) -> str:
    """How texts become numbers."""
    if weights.dtype.kind != "U" or not len(weights):
        return ""
    text = str(weights[0])
    for changed, how in ((text, ".astype(float) converts texts"), (text.replace(",", "."), "pandas.read_csv(..., decimal=',') reads such texts")):
        try:
            float(changed)
            return f": {how}"
        except ValueError:
            pass
    return ""


def _of_floats(weights: NDArray[Any], name: str) -> NDArray[np.int64]:
    """The bits of each float as an integer; for a set sign bit, minus the other bits. So -0.0 equals 0.0.

    No arithmetic is done on floats, because another library may have set the processor to treat denormal floats as 0.
    """
    keys = np.empty(len(weights), np.int64)
    native = weights.dtype.newbyteorder("=")
    whole = np.dtype(f"i{native.itemsize}")
    infinite = int(np.array(np.inf, native).view(whole))
    for start in range(0, len(weights), _PIECE):
        piece = keys[start : start + _PIECE]
        piece[:] = np.require(weights[start : start + _PIECE], native, ["C_CONTIGUOUS"]).view(whole)
        if piece.min() < 0:
            signs = piece >> 63
            piece ^= signs & np.iinfo(whole).max
            piece -= signs
        if piece.max() > infinite or piece.min() < -infinite:
            raise ValueError(f"{name}[{start + (abs(piece) > infinite).argmax()}] is NaN, which can't be ordered: leave such edges out first")
    return keys
