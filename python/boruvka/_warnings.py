"""Warnings that point at the line of the caller's code, however deep in this package they are raised."""

from __future__ import annotations

import sys
import warnings

# packages whose frames are skipped (scikit-learn calls estimators)
_INNER = ("boruvka", "sklearn")


def warn(message: str, category: type[Warning] = UserWarning) -> None:
    """Warn at the line that called this package."""
    level, frame = 1, sys._getframe()
    while frame.f_back and frame.f_globals.get("__name__", "").partition(".")[0] in _INNER:
        level, frame = level + 1, frame.f_back
    warnings.warn(message, category, stacklevel=level)
