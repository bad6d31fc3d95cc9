"""The options of a build, and the range of a plan."""
from __future__ import annotations

import dataclasses
import functools
import math
from typing import Any, Callable, Dict, Optional, Tuple

from .library import plain, whole
from .refusals import Refused

# What the original service takes where a caller says nothing. The library presets none of these: whoever calls it chooses.
SERVICE: Dict[str, Any] = {"min_zoom": 0, "max_zoom": 16, "min_points": 2, "radius": 40.0, "extent": 512.0, "node_size": 64}

MOST_ZOOM = 30


def _lesser(a: float, b: float) -> float:
    """NaN gives way to a number, and of two zeros the first counts."""
    return b if a != a or b < a else a


@dataclasses.dataclass(frozen=True)
class DataRange:
    """The range of a plan: between the caller's coordinates and the tables' numbers from 0 to 1.

    The offset is given, or else the lesser minimum; the scale is given, or else the greater maximum less the offset.

    >>> plan = DataRange(min_x=100.0, min_y=200.0, max_x=500.0, max_y=900.0)
    >>> plan.normalize(300.0), plan.denormalize(0.25)
    (0.25, 300.0)
    """

    min_x: float = 0.0
    min_y: float = 0.0
    max_x: float = 1.0
    max_y: float = 1.0
    offset: Optional[float] = None
    scale: Optional[float] = None

    def _offset(self) -> float:
        return _lesser(self.min_x, self.min_y) if self.offset is None else self.offset

    def _scale(self) -> float:
        return -_lesser(-self.max_x, -self.max_y) - self._offset() if self.scale is None else self.scale

    def words(self) -> Dict[str, Any]:
        """The range as the C names take it."""
        words: Dict[str, Any] = {field: float(getattr(self, field)) for field in ("min_x", "min_y", "max_x", "max_y")}
        for field in ("offset", "scale"):
            value = getattr(self, field)
            words[field + "_given"] = value is not None
            words[field] = math.nan if value is None else float(value)
        return words

    @functools.cached_property
    def _both(self) -> Tuple[Callable[[float], float], Callable[[float], float]]:
        """The library's two conversions, with this range."""
        return plain("supercluster_normalize", **self.words()), plain("supercluster_denormalize", **self.words())

    def __reduce__(self) -> tuple:
        """A copy or a pickle has the numbers alone."""
        return DataRange, dataclasses.astuple(self)

    def normalize(self, v: float) -> float:
        """(v - offset) / scale, the number that tables hold; by the library."""
        return self._both[0](v)

    def denormalize(self, v: float) -> float:
        """v * scale + offset, back to the plan; by the library."""
        return self._both[1](v)


@dataclasses.dataclass(frozen=True)
class Options:
    """The options of a build. `range` is that of a plan; None stands for longitudes, whose y is from 0 to 1 already (mercator_y).

    Each is given, none is preset. SERVICE has the numbers of the original service, for those who want these:

    >>> options = Options(**SERVICE, range=None, longitude_strips_only=False)
    >>> options.zoom_used(40), options.tables
    (17, 18)
    """

    min_zoom: int
    max_zoom: int
    min_points: int
    radius: float
    extent: float
    node_size: int
    range: Optional[DataRange]
    longitude_strips_only: bool

    @property
    def tables(self) -> int:
        """How many tables a build has: one a zoom, and the finest."""
        return self.max_zoom - self.min_zoom + 2

    def zoom_used(self, zoom: int) -> int:
        """The zoom whose table answers for this one: at least min_zoom, at most max_zoom + 1; by the library."""
        return plain("supercluster_zoom_used", **self.words())(whole("u8", zoom, "zoom"))

    def words(self) -> Dict[str, Any]:
        """The options as the C names take them. One that does not fit its word there is out of bounds: refused 1."""
        for name, most in (("min_zoom", 255), ("max_zoom", 255), ("min_points", 255), ("node_size", 2**64 - 1)):
            value = getattr(self, name)
            if value != int(value) or not 0 <= value <= most:
                raise Refused(1, sentence=self.fault())
        plan = self.range or DataRange(*[math.nan] * 4)
        words = {field: int(getattr(self, field)) for field in ("min_zoom", "max_zoom", "min_points", "node_size")}
        words.update(radius=float(self.radius), extent=float(self.extent), cartesian=self.range is not None)
        words.update(plan.words())
        words["longitude_strips_only"] = bool(self.longitude_strips_only)
        return words

    def fault(self) -> Optional[str]:
        """Which option is out of bounds, in words, by docs/SCOPE.md's 'Bounds'; None where none is.

        >>> Options(**{**SERVICE, "max_zoom": 31}, range=None, longitude_strips_only=True).fault()
        'max_zoom is 31: it must be a whole number from 0 to 30'
        """
        whole = {"min_zoom": (0, MOST_ZOOM), "max_zoom": (0, MOST_ZOOM), "min_points": (0, 255), "node_size": (1, 65_535)}
        for name, (least, most) in whole.items():
            value = getattr(self, name)
            if not least <= value <= most or value != int(value):
                return f"{name} is {value}: it must be a whole number from {least} to {most:,}"
        if self.min_zoom > self.max_zoom:
            return f"min_zoom is {self.min_zoom}, above max_zoom, {self.max_zoom}"
        for name, least in (("radius", 0), ("extent", 1)):
            value = getattr(self, name)
            if not least <= value <= 65_536:
                return f"{name} is {value}: it must be from {least} to 65,536"
        return self.range and self._fault_of_range(self.range)

    @staticmethod
    def _fault_of_range(plan: DataRange) -> Optional[str]:
        for field in dataclasses.fields(plan):
            value = getattr(plan, field.name)
            if value is not None and not math.isfinite(value):
                return f"{field.name} of the range is {value}: it must be finite"
        offset, scale = plan._offset(), plan._scale()
        if not math.isfinite(scale) or not scale > 0:
            return f"the range has offset {offset} and scale {scale}: its scale must be finite and above 0"
        return None
