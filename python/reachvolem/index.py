"""The index alone: points from 0 to 1, searched by a box or a circle, as a list or one by one."""
from __future__ import annotations

from typing import Any, Iterator, List

from .library import Call, Lent, column, room
from .refusals import Refused

# What the cursor answers where no slot is left.
NO_SLOT = 2**64 - 1


class Index:
    """An index of points whose coordinates are from 0 to 1. Raises Refused 1, 2 or 3.

    >>> index = Index(64, [0.25, 0.5, 0.75], [0.5, 0.5, 0.5])
    >>> index.range(0.0, 0.0, 0.6, 1.0)
    [0, 1]
    >>> index.within(0.75, 0.5, 0.25)
    [1, 2]
    >>> next(index.iter_within(0.75, 0.5, 0.25))
    1
    """

    def __init__(self, node_size: int, xs: Any, ys: Any) -> None:
        given = {"xs": column("f64", xs, "xs"), "ys": column("f64", ys, "ys")}
        self.node_size, self.count = node_size, len(given["xs"])
        if not 0 <= node_size < 2**64:
            raise Refused(1, sentence=self._why_size())
        self._ids, self._coords = Lent("u32", self.count), Lent("f64", 2 * self.count)
        number, carried = Call("kdbush_build", node_size=node_size, ids=self._ids.array, coords=self._coords.array, **given)()
        if number:
            raise Refused(number, carried, self._why(number, carried, given))
        self._words = {"node_size": node_size, "n": self.count}

    def _why_size(self) -> str:
        return f"node_size is {self.node_size}: it must be from 1 to 65,535"

    def _why(self, number: int, carried: int, given: dict) -> Any:
        if number == 1:
            return self._why_size()
        if number == 3:
            return f"point {carried}, counted from 0, at ({given['xs'][carried]!r}, {given['ys'][carried]!r}) is not from 0 to 1"
        return None

    def _search(self, name: str, **words: float) -> List[int]:
        call = Call(name, **self._words, ids=self._ids.array, coords=self._coords.array, **words)
        out = room("u32", 64)
        number, carried = call(out=out)
        if number == 10:
            out = room("u32", carried)
            number, carried = call(out=out)
        if number:
            raise Refused(number, carried)
        return out[:carried]

    def _steps(self, name: str, **words: float) -> Iterator[int]:
        lent = {**self._words, "coords": self._coords.array}
        after = Call(name + "_after", **lent, **words)
        number, slot = Call(name + "_first", **lent, **words)()
        while not number and slot != NO_SLOT:
            yield self._ids.view[slot]
            number, slot = after(slot=slot)
        if number:
            raise Refused(number)

    def range(self, min_x: float, min_y: float, max_x: float, max_y: float) -> List[int]:
        """The places of the points in a box. Refused 9 where a number is not finite."""
        return self._search("kdbush_range", min_x=min_x, min_y=min_y, max_x=max_x, max_y=max_y)

    def within(self, x: float, y: float, radius: float) -> List[int]:
        """The places of the points in a circle. Refused 9 where a number is not finite or the radius is below 0."""
        return self._search("kdbush_within", qx=x, qy=y, radius=radius)

    def iter_range(self, min_x: float, min_y: float, max_x: float, max_y: float) -> Iterator[int]:
        """The same as range, one by one, by the cursor: nothing is listed ahead."""
        return self._steps("kdbush_range", min_x=min_x, min_y=min_y, max_x=max_x, max_y=max_y)

    def iter_within(self, x: float, y: float, radius: float) -> Iterator[int]:
        """The same as within, one by one, by the cursor."""
        return self._steps("kdbush_within", qx=x, qy=y, radius=radius)
