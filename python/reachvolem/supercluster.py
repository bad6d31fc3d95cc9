"""The clusters of lamps for every zoom: the build, the questions to it, and postings. All answers are the proved library's."""
from __future__ import annotations

import ctypes
from typing import Any, Dict, Iterator, List, NamedTuple, Optional, Sequence, Tuple

from .library import Call, Lent, column, exact, room, whole
from .mercator import latitude, longitude
from .options import Options
from .refusals import MOST_ENERGY, MOST_LAMPS, Refused

UNSET = 4_294_967_295
UNSEEN = 255
# The columns of a build, in the order in which docs/SCOPE.md has them; `coords` has two numbers an entry.
TABLE_COLUMNS = {"x": "f64", "y": "f64", "seen": "u8", "id": "u32", "parent": "u32", "num": "u32", "energy": "u64"}
INDEX_COLUMNS = {"ids": "u32", "coords": "f64"}
# Beside the tables: N places for each of them, the finest first.
OWNER_COLUMN = {"owners": "u32"}

Box = Sequence[float]


class Entry(NamedTuple):
    """A lamp or a cluster in a table. x and y are the table's numbers from 0 to 1; `Supercluster.centre` has the caller's.

    place: where it stands in its table, from 0. seen: the last zoom that marked it, None if none did. id: a lamp's number from 0, or a
    cluster's. parent: the id of the cluster that took it in at the next smaller zoom, or None. num: its lamps. energy: their watt-hours.
    """

    place: int
    x: float
    y: float
    seen: Optional[int]
    id: int
    parent: Optional[int]
    num: int
    energy: int

    @property
    def is_cluster(self) -> bool:
        return self.num > 1


class TileItem(NamedTuple):
    """An entry in a tile: where it is drawn, x to the right and y downwards, `extent` units to a side."""

    x: int
    y: int
    entry: Entry


class Effort(NamedTuple):
    """What a box with an allowance found, how many slots were tested, and whether a test was left."""

    entries: List[Entry]
    tested: int
    stopped: bool


class Supercluster:
    """The tables of N lamps, for every zoom from min_zoom to max_zoom and the finest, which has the lamps themselves.

    xs, ys and energies (whole watt-hours) are `array`s, numpy arrays or lists. Float64 and uint64 buffers are read where they stand. With
    `range` None the xs are longitudes and the ys mercator's (`mercator_y`). Raises Refused 1, 2, 3 or 15.

    The worked example of docs/SCOPE.md:

    >>> from reachvolem import DataRange, Options, Supercluster
    >>> plan = DataRange(offset=0.0, scale=1.0)
    >>> options = Options(0, 1, 2, 64.0, 512.0, 64, range=plan, longitude_strips_only=False)
    >>> lamps = Supercluster(options, [0.25, 0.3125, 0.40625, 0.40625], [0.5] * 4, [10, 20, 30, 40])
    >>> [(entry.id, entry.num, entry.energy) for entry in lamps.table(1)]
    [(6, 2, 30), (70, 2, 70)]
    >>> lamps.get_leaves(5), lamps.leaves_page(5, page=1, size=3)
    ([0, 1, 2, 3], [3])
    >>> list(lamps.owners(1)), lamps.owner(3, 1)
    ([0, 0, 1, 1], 1)

    A logger that comes back late has a corrected figure for lamp 1:

    >>> lamps.post(1, 25)
    >>> [[entry.energy for entry in lamps.table(zoom)] for zoom in lamps.zooms]
    [[10, 25, 30, 40], [35, 70], [105]]
    """

    def __init__(self, options: Options, xs: Any, ys: Any, energies: Any) -> None:
        self.options = options
        self._words = options.words()
        self._used: Dict[int, int] = {}
        given = {"xs": column("f64", xs, "xs"), "ys": column("f64", ys, "ys"), "energies": column("u64", energies, "energies")}
        self.count = len(given["xs"])
        # Refused builds are refused before anything is written: then no column is needed.
        entries = options.tables * self.count if options.fault() is None and self.count <= MOST_LAMPS else 0
        words = {**TABLE_COLUMNS, **INDEX_COLUMNS, **OWNER_COLUMN}
        self._columns = {name: Lent(word, entries * (1 + (name == "coords"))) for name, word in words.items()}
        self._starts, self._lens = (ctypes.c_uint32 * 32)(), (ctypes.c_uint32 * 32)()
        near = Lent("u32", entries)
        lent = {name: lent.array for name, lent in self._columns.items()}
        build = Call("supercluster_load", **self._words, **given, **lent, near=near.array, starts=self._starts, lens=self._lens)
        number, carried = build()
        if number:
            raise Refused(number, carried, self._why(number, carried, given))

    @classmethod
    def load(cls, options: Options, xs: Any, ys: Any, energies: Any) -> "Supercluster":
        """The same as Supercluster(..), by the original's name."""
        return cls(options, xs, ys, energies)

    def _why(self, number: int, carried: int, given: dict) -> Optional[str]:
        if number == 1:
            return self.options.fault()
        if number == 2:
            lengths = ", ".join(f"{len(numbers):,} {name}" for name, numbers in given.items())
            return f"there are {lengths}: there must be 1 to {MOST_LAMPS:,} of each, and of each as many"
        if number == 3:
            at = f"({given['xs'][carried]!r}, {given['ys'][carried]!r})"
            return f"lamp {carried}, counted from 0, at {at} lies outside the map: its converted x or y is not from 0 to 1"
        if number == 15:
            brought = given["energies"][carried]
            return f"lamp {carried}, counted from 0, brings {brought:,} watt-hours: at most {MOST_ENERGY:,} (2^40) are allowed"
        return None

    # ---- the tables

    @property
    def zooms(self) -> range:
        """The zooms that have a table, the finest first."""
        return range(self.options.max_zoom + 1, self.options.min_zoom - 1, -1)

    def zoom_used(self, zoom: int) -> int:
        """The zoom whose table answers for this one."""
        if zoom not in self._used:
            self._used[zoom] = self.options.zoom_used(zoom)
        return self._used[zoom]

    def length(self, zoom: int) -> int:
        """How many entries the table of the zoom used has."""
        return self._lens[self.zoom_used(zoom)]

    def table_column(self, zoom: int, name: str) -> memoryview:
        """A column of the table of the zoom used, where it stands: x, y, seen, id, parent, num or energy. It cannot be written to.

        `seen` is 255 and `parent` 4,294,967,295 where they are not set.
        """
        if name not in TABLE_COLUMNS:
            raise KeyError(f"a table has no column {name}")
        used = self.zoom_used(zoom)
        return self._columns[name].view[self._starts[used]:self._starts[used] + self._lens[used]]

    def entry(self, zoom: int, place: int) -> Entry:
        """The entry at a place of the table of the zoom used."""
        used = self.zoom_used(zoom)
        if not 0 <= place < self._lens[used]:
            raise IndexError(f"table {used} has {self._lens[used]} entries: there is no place {place}")
        return self._entry(self._starts[used], place)

    def _entry(self, start: int, place: int) -> Entry:
        x, y, seen, id_, parent, num, energy = (self._columns[name].view[start + place] for name in TABLE_COLUMNS)
        return Entry(place, x, y, None if seen == UNSEEN else seen, id_, None if parent == UNSET else parent, num, energy)

    def entries(self, zoom: int) -> Iterator[Entry]:
        """The entries of the table of the zoom used, one after the other."""
        start = self._starts[self.zoom_used(zoom)]
        return (self._entry(start, place) for place in range(self.length(zoom)))

    def table(self, zoom: int) -> List[Entry]:
        """The entries of the table of the zoom used."""
        return list(self.entries(zoom))

    def centre(self, entry: Entry) -> Tuple[float, float]:
        """x and y of an entry in the caller's coordinates; with longitudes, the longitude and the latitude (not proved)."""
        plan = self.options.range
        if plan is not None:
            return plan.denormalize(entry.x), plan.denormalize(entry.y)
        return longitude(entry.x), latitude(entry.y)

    def owners(self, zoom: int) -> memoryview:
        """For each lamp the place of its owner in the table of the zoom used, where the build left it. It cannot be written to."""
        start = (self.zooms[0] - self.zoom_used(zoom)) * self.count
        return self._columns["owners"].view[start:start + self.count]

    # ---- the questions

    def _call(self, name: str, *columns: str) -> Call:
        """The question by its C name, lent the state and these columns."""
        known = self.__dict__.setdefault("_calls", {})
        if name not in known:
            lent = {column: self._columns[column].array for column in columns}
            known[name] = Call(name, **self._words, count=self.count, starts=self._starts, lens=self._lens, **lent)
        return known[name]

    def _search(self, name: str, **words: Any) -> List[int]:
        return self._listed(self._call(name, *INDEX_COLUMNS), None, **words)

    def _walk(self, name: str) -> Call:
        return self._call(name, *TABLE_COLUMNS, *INDEX_COLUMNS)

    @staticmethod
    def _listed(call: Call, sentence: Optional[str], **words: Any) -> List[int]:
        """What a question lists. Where the room is too small, reply 10 carries the whole length, and it is asked once more."""
        out = room("u32", 64)
        number, carried = call(out=out, **words)
        if number == 10:
            out = room("u32", carried)
            number, carried = call(out=out, **words)
        if number:
            raise Refused(number, carried, sentence if number in (5, 6) else None)
        return out[:carried]

    def get_clusters(self, bbox: Box, zoom: int) -> List[Entry]:
        """The entries in the box (west, least y, east, greatest y) of the table of the zoom used. Refused 9.

        On a plan the corners are the plan's; with longitudes the ys are mercator's, from 0 to 1, the northern edge first.
        """
        words = self._box(bbox, zoom)
        start = self._starts[self.zoom_used(zoom)]
        return [self._entry(start, place) for place in self._search("supercluster_box", **words)]

    @staticmethod
    def _box(bbox: Box, zoom: int) -> dict:
        west, least_y, east, greatest_y = map(float, bbox)
        return {"zoom": whole("u8", zoom, "zoom"), "west": west, "least_y": least_y, "east": east, "greatest_y": greatest_y}

    def get_clusters_within_effort(self, bbox: Box, zoom: int, allowance: int) -> Effort:
        """The same within so many tests of slots: a beginning of the box's list, or all of it. Refused 9."""
        words = self._box(bbox, zoom)
        call = self._call("supercluster_box_effort", *INDEX_COLUMNS)
        words.update(allowance=whole("usize", allowance, "allowance"), tested=ctypes.c_size_t(), stopped=ctypes.c_bool())
        start = self._starts[self.zoom_used(zoom)]
        entries = [self._entry(start, place) for place in self._listed(call, None, **words)]
        return Effort(entries, words["tested"].value, words["stopped"].value)

    def ring(self, zoom: int, x: float, y: float, radius: float) -> List[Entry]:
        """The entries of the table of the zoom used within a ring, all in the tables' numbers from 0 to 1. Refused 9."""
        words = {"zoom": whole("u8", zoom, "zoom"), "ring_x": float(x), "ring_y": float(y), "ring_radius": float(radius)}
        start = self._starts[self.zoom_used(zoom)]
        return [self._entry(start, place) for place in self._search("supercluster_ring", **words)]

    def table_of(self, cluster_id: int) -> int:
        """The zoom of the table that the cluster's children stand in."""
        return (cluster_id - self.count) % 32

    def _why_not(self, cluster_id: int) -> str:
        """Why an id may lead to no cluster."""
        if cluster_id < self.count:
            return f"{cluster_id} is the id of a lamp; those of clusters begin at {self.count}"
        return f"no cluster has the id {cluster_id}; the tables list the ids that there are"

    def get_children(self, cluster_id: int) -> List[Entry]:
        """The entries that a cluster falls into, of the next larger zoom. Refused 5 or 6 where there is no such cluster."""
        cid = whole("u32", cluster_id, "the cluster's id")
        places = self._listed(self._walk("supercluster_children"), self._why_not(cid), cid=cid)
        start = self._starts[self.table_of(cid)]
        return [self._entry(start, place) for place in places]

    def get_leaves(self, cluster_id: int, limit: Optional[int] = None, offset: int = 0) -> List[int]:
        """The ids of a cluster's lamps: all of them, or at most `limit` after the first `offset`. Limit 0 lists none. Refused 5 or 6."""
        cid = whole("u32", cluster_id, "the cluster's id")
        words = {"limit": whole("u32", self.count if limit is None else limit, "limit"), "skip": whole("u32", offset, "offset")}
        return self._listed(self._walk("supercluster_leaves"), self._why_not(cid), cid=cid, **words)

    def leaves_page(self, cluster_id: int, page: int, size: int) -> List[int]:
        """A page of a cluster's lamps, counted from 0. Pages join to the whole list; behind its end they are empty."""
        return self.get_leaves(cluster_id, limit=size, offset=page * size)

    def get_cluster_expansion_zoom(self, cluster_id: int) -> int:
        """The zoom at which a cluster falls apart. Refused 5 or 6."""
        cid = whole("u32", cluster_id, "the cluster's id")
        number, zoom = self._walk("supercluster_expansion_zoom")(cid=cid)
        if number:
            raise Refused(number, zoom, self._why_not(cid))
        return zoom

    @staticmethod
    def _tile(z: int, x: int, y: int) -> dict:
        """The tile's words. Numbers that do not fit them name no tile: refused 7."""
        try:
            return {"z": whole("u8", z, "z"), "tile_x": whole("u32", x, "x"), "tile_y": whole("u32", y, "y")}
        except ValueError:
            raise Refused(7) from None

    def get_tile(self, z: int, x: int, y: int) -> List[TileItem]:
        """What the tile (z, x, y) lists of the table of the zoom used. Refused 7, or 8 where it lists nothing."""
        words = self._tile(z, x, y)
        call, length = self._walk("supercluster_tile"), 64
        while True:
            places, px, py = room("u32", length), room("i64", length), room("i64", length)
            number, carried = call(places=places, px=px, py=py, **words)
            if number != 10:
                break
            length = carried
        if number:
            raise Refused(number, carried, f"tile {z}/{x}/{y} has no entries" if number == 8 else None)
        start = self._starts[self.zoom_used(z)]
        return [TileItem(px[i], py[i], self._entry(start, places[i])) for i in range(carried)]

    def owner(self, lamp: int, zoom: int) -> int:
        """The place of a lamp's owner in the table of the zoom used. Refused 16 where there is no such lamp."""
        words = {"lamp": whole("u32", lamp, "lamp"), "zoom": whole("u8", zoom, "zoom")}
        number, place = self._call("supercluster_owner", *OWNER_COLUMN)(**words)
        if number:
            raise Refused(number, place, self._no_lamp(lamp) if number == 16 else None)
        return place

    def _no_lamp(self, lamp: int) -> str:
        return f"there is no lamp {lamp}: the last one is {self.count - 1}"

    def tally(self, z: int, x: int, y: int) -> int:
        """The lamps of the entries whose centre the tile (z, x, y) holds; those of all tiles of a zoom come to N. Refused 7."""
        number, lamps = self._walk("supercluster_tally")(**self._tile(z, x, y))
        if number:
            raise Refused(number, lamps)
        return lamps

    # ---- postings

    def post(self, lamp: int, wh: int) -> None:
        """Replaces the energy of a lamp by these watt-hours, in the finest table and in each other table in that of its owner.

        All tables are then those of a build with the new figure. Refused 16 where there is no such lamp, 15 where the figure is above
        2^40; then nothing is changed. Columns that were read before (`table_column`) have the new energies, an Entry that was read before
        keeps the old one. No other thread may ask or post meanwhile.
        """
        words = {"lamp": exact("u32", lamp, "lamp"), "figure": exact("u64", wh, "wh")}
        number, carried = self._call("supercluster_post", "energy", *OWNER_COLUMN)(**words)
        if number:
            raise Refused(number, carried, self._why_no_post(number, **words))

    def _why_no_post(self, number: int, lamp: int, figure: int) -> Optional[str]:
        if number == 15:
            return f"lamp {lamp} is posted {figure:,} watt-hours: at most {MOST_ENERGY:,} (2^40) are allowed"
        return self._no_lamp(lamp) if number == 16 else None
