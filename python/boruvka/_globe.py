"""Places on the globe: latitude first, as in scikit-learn, unless the names of the columns say otherwise."""

from __future__ import annotations

from typing import Any

import numpy as np
from numpy.typing import NDArray

from boruvka._warnings import warn

LATITUDES = ("lat", "latitude", "lats", "latitudes")
LONGITUDES = ("lon", "lng", "long", "longitude", "lons", "lngs", "longs", "longitudes")
# few people live beyond this latitude, in degrees
POLAR = 75.0


def column_names(points: Any) -> list[str]:
    """The names of the columns of a frame or of a structured array, in lower case."""
    names: Any = getattr(getattr(points, "dtype", None), "names", None) or getattr(points, "columns", ())
    return [it.strip().lower() if isinstance(it, str) else "" for it in names]


def latitude_first(points: Any, given: NDArray[np.float64]) -> NDArray[np.float64]:
    """The same places with the latitude in the first column. In a table with named columns it may come second.

    Raise a ValueError if only one of the columns is named as a latitude or a longitude, or a place isn't on the globe.
    """
    names = column_names(points)
    kinds = ["latitude" if it in LATITUDES else "longitude" if it in LONGITUDES else "" for it in names]
    if any(kinds) and sorted(kinds) != ["latitude", "longitude"]:
        raise ValueError(f"points has the columns {', '.join(map(repr, names))}, but needs two, latitude and longitude, in either order")
    given = given[:, ::-1] if kinds == ["longitude", "latitude"] else given
    _expect_on_globe(given)
    if not any(kinds):
        _warn_if_swapped(given)
    return given


def _expect_on_globe(given: NDArray[np.float64]) -> None:
    """Raise a ValueError if a latitude or a longitude is beyond its limit."""
    are_wrong = np.abs(given) > [90.0, 360.0]
    if are_wrong.any():
        row, column = np.argwhere(are_wrong)[0].tolist()
        name, limit = ("latitude", 90) if column == 0 else ("longitude", 360)
        how = ": the latitude comes first, then the longitude" if column == 0 else ""
        raise ValueError(f"the {name} of points[{row}] is {given[row, column]}, but has to be from -{limit} to {limit} degrees{how}")


def _warn_if_swapped(given: NDArray[np.float64]) -> None:
    """Warn if a latitude is near a pole and every longitude could be a latitude.

    That is the most that can be known about columns without names: where all numbers are from -75 to 75, both orders
    are possible.
    """
    latitudes, longitudes = np.abs(given).T
    if len(given) and latitudes.max() > POLAR >= longitudes.max():
        row = int(latitudes.argmax())
        warn(f"points[{row}, 0] is {given[row, 0]}, a latitude near a pole, and no longitude is beyond {POLAR}: the columns may be swapped. The latitude comes first")
