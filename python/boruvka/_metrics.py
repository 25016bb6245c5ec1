"""Metrics by their names, each as a Minkowski distance of transformed points."""

from __future__ import annotations

import sys
from collections.abc import Callable
from numbers import Real
from typing import Any, NamedTuple

import numpy as np
from numpy.typing import NDArray

from boruvka._globe import LATITUDES, LONGITUDES, POLAR

Numbers = NDArray[np.float64]


class Metric(NamedTuple):
    """`transformed` maps points.

    `distances` turns their Minkowski distances of exponent p into those of the metric, in the same order.
    """

    p: float
    transformed: Callable[[Numbers], Numbers] = lambda points: points
    distances: Callable[[Numbers], Numbers] = lambda lengths: lengths


def metric_of(name: str, p: float) -> Metric:
    """The metric of this name; p is the exponent of "minkowski"."""
    expect_metric(name)
    if not isinstance(p, Real) or isinstance(p, bool):
        raise TypeError(f"p is {p!r}, but has to be a number")
    if name == "minkowski":
        if not p >= 1:
            raise ValueError(f"p is {p}, but has to be at least 1")
        try:
            return Metric(float(p))
        except OverflowError:
            raise ValueError(f"p is above the greatest double, {sys.float_info.max}: use numpy.inf, or the metric 'chebyshev'") from None
    if p != 2:
        raise ValueError(f"p is {p}, but only the metric 'minkowski' has an exponent")
    return _METRICS[name]


def expect_metric(name: object) -> None:
    """Raise a ValueError if there is no metric of this name."""
    names = [*_METRICS, "minkowski", "precomputed"]
    if not isinstance(name, str) or name not in names:
        raise ValueError(f"there is no metric {name!r}: it is one of {', '.join(names)}")


def has_longitude_first(y: Any) -> bool:
    """Whether the names of a frame's two columns say that longitudes come before latitudes."""
    names = [str(it).strip().lower() for it in getattr(y, "columns", ())]
    return len(names) == 2 and names[0] in LONGITUDES and names[1] in LATITUDES


def why_perhaps_swapped(y: Any, given: Numbers) -> str | None:
    """The text of a warning if latitudes and longitudes, in radians, are probably swapped; None if they aren't.

    Columns may have names, such as x and y, whose first usually points east. Columns without names are suspicious if a
    latitude is near a pole, and every longitude could be a latitude. More can't be known about numbers alone.
    """
    names = [str(it) for it in getattr(y, "columns", ())]
    if not {it.strip().lower() for it in names}.isdisjoint([*LATITUDES, *LONGITUDES]) or given.ndim != 2 or given.shape[1] != 2:
        return None
    if len(names) != 2 or tuple(it.strip().lower() for it in names) not in _EAST_AND_NORTH:
        latitudes, longitudes = np.abs(given).max(axis=0, initial=0.0)
        if not np.pi / 2 + 1e-9 >= latitudes > np.radians(POLAR) >= longitudes:
            return None
        row = int(np.abs(given[:, 0]).argmax())
        return f"the latitude of the point {row} is {given[row, 0]}, near a pole, and every longitude could be a latitude: the columns may be swapped. The latitude comes first"
    one, other = names
    return (
        f"the columns {one!r} and {other!r} are taken as latitude and longitude: if {one!r} is the longitude, "
        f"give y[[{other!r}, {one!r}]], or rename them 'lon' and 'lat'"
    )


def _on_sphere(points: Numbers) -> Numbers:
    """Points on the unit sphere, from latitudes and longitudes in radians."""
    if points.shape[1] != 2:
        raise ValueError(f"y has {points.shape[1]} columns, but haversine takes two, latitude and longitude in radians")
    latitude, longitude = points.T
    is_beyond = np.abs(latitude) > np.pi / 2 + 1e-9
    if is_beyond.any():
        row = is_beyond.argmax()
        # (longitudes before latitudes, both in radians, look like this)
        are_swapped = (np.abs(latitude) <= np.pi * (1 + 1e-9)).all() and (np.abs(longitude) <= np.pi / 2 + 1e-9).all()
        how = "y[:, ::-1] puts latitudes before longitudes" if are_swapped else "numpy.radians converts degrees"
        raise ValueError(f"the latitude of the point {row} is {latitude[row]}, beyond a right angle: {how}")
    found: Numbers = np.column_stack([np.cos(latitude) * np.cos(longitude), np.cos(latitude) * np.sin(longitude), np.sin(latitude)])
    return found


def _arcs(chords: Numbers) -> Numbers:
    """The lengths of great-circle arcs, from those of their chords."""
    halves: Numbers = np.arcsin(np.minimum(chords / 2, 1))
    return 2 * halves


def _directions(points: Numbers) -> Numbers:
    """Points scaled to the distance 1 from the origin."""
    greatest = np.abs(points).max(axis=1, initial=0.0, keepdims=True)
    if not greatest.all():
        raise ValueError(f"the point {greatest.ravel().argmin()} is 0, which has no direction: cosine distance needs one")
    points = points / greatest
    found: Numbers = points / np.sqrt((points * points).sum(axis=1, keepdims=True))
    return found


_EAST_AND_NORTH = (("x", "y"), ("east", "north"), ("easting", "northing"))

_METRICS = {
    "euclidean": Metric(2.0),
    "manhattan": Metric(1.0),
    "chebyshev": Metric(np.inf),
    "haversine": Metric(2.0, _on_sphere, _arcs),
    "cityblock": Metric(1.0),
    "l1": Metric(1.0),
    "l2": Metric(2.0),
    "cosine": Metric(2.0, _directions, lambda chords: chords * chords / 2),
}
