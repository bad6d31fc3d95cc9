"""Latitudes on a mercator map. Not proved, and no part of the library: docs/SCOPE.md leaves the projection to the caller.

The numbers come from the C library's functions, so that the last bit may differ from machine to machine.
"""
from __future__ import annotations

import math

# Where the square of the map ends, in degrees, rounded up: mercator_y is 0 or 1 from here on.
EDGE = 85.0512


def mercator_y(lat: float) -> float:
    """The y from 0 (north) to 1 (south) of a latitude in degrees; beyond the map's edges 0 or 1. Not proved.

    What is not finite stays so, for the library to refuse.

    >>> mercator_y(0.0), mercator_y(90.0), mercator_y(-90.0)
    (0.5, 0.0, 1.0)
    >>> round(mercator_y(51.5), 6)
    0.332559
    """
    if not math.isfinite(lat):
        return lat
    sine = math.sin(math.radians(max(-90.0, min(90.0, lat))))
    if abs(sine) >= 1.0:
        return 0.0 if sine > 0 else 1.0
    y = 0.5 - 0.25 * math.log((1.0 + sine) / (1.0 - sine)) / math.pi
    return min(1.0, max(0.0, y))


def latitude(y: float) -> float:
    """The latitude in degrees of a y from 0 to 1. Not proved.

    >>> round(latitude(mercator_y(51.5)), 9), round(latitude(0.0), 4)
    (51.5, 85.0511)
    """
    return math.degrees(math.atan(math.sinh((1.0 - 2.0 * y) * math.pi)))


def longitude(x: float) -> float:
    """The longitude in degrees of a table's x from 0 to 1.

    >>> longitude(0.25)
    -90.0
    """
    return (x - 0.5) * 360.0
