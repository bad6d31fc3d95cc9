"""What the command prints: a function for each of its questions. All is CSV; floats are written so that they read back to the same bits."""
from __future__ import annotations

import math
import re
from typing import Any, Callable, Dict, Iterable, Iterator, List, TextIO, Tuple

from .lamps_read import Lamps
from .mercator import mercator_y
from .refusals import Refused
from .supercluster import UNSEEN, UNSET, Entry, Supercluster

QUOTED = re.compile('[",\r\n]').search
ENTRY = ("zoom", "place", "id", "name", "lamps", "wh")
LINES = 8192


class BadQuestion(Exception):
    """What was asked makes no sense; the sentence says what to do."""


class Asked:
    """The lamps of a file, their build, the words of the command, and where to print. `tell` is progress, `done` ends it."""

    def __init__(self, lamps: Lamps, build: Supercluster, words: Any, out: TextIO, say: Callable, tell: Callable, done: Callable) -> None:
        self.lamps, self.build, self.words, self.out = lamps, build, words, out
        self.say, self.tell, self.done = say, tell, done

    def note(self, sentence: str) -> None:
        """Something for the user to know."""
        self.done()
        self.say(sentence)

    def centres(self, zoom: int) -> Iterator[Tuple[float, float]]:
        """Where the entries of a table are, in the file's coordinates: a lamp where the file has it, a cluster at its mean."""
        columns = (self.build.table_column(zoom, name) for name in ("x", "y", "id", "num"))
        for x, y, id_, num in zip(*columns):
            yield self._at(x, y, id_, num)

    def _at(self, x: float, y: float, id_: int, num: int) -> Tuple[float, float]:
        if num == 1:
            return self.lamps.xs[id_], self.lamps.ys[id_]
        return self.build.centre(Entry(0, x, y, None, id_, None, num, 0))

    def name_of(self, id_: int, num: int) -> str:
        """The name of a lamp, quoted; a cluster has none."""
        return quoted(self.lamps.name(id_)) if num == 1 else ""

    def entry_line(self, zoom: int, entry: Entry) -> str:
        x, y = self._at(entry.x, entry.y, entry.id, entry.num)
        name = self.name_of(entry.id, entry.num)
        return f"{zoom},{entry.place},{entry.id},{name},{entry.num},{entry.energy},{x!r},{y!r}"

    def zoom(self) -> int:
        """The zoom that was asked for; a note says which table answers where it has none."""
        asked = self.words.zoom
        if not 0 <= asked <= 255:
            raise BadQuestion(f"--zoom is {asked}: it must be from 0 to 255")
        used = self.build.zoom_used(asked)
        if used != asked:
            self.note(f"zoom {asked} has no table, these go from {self.build.zooms[-1]} to {self.build.zooms[0]}: table {used} answers")
        return asked

    def print(self, header: Iterable[str], lines: Iterable[str]) -> None:
        """Prints a header and lines, many at a time."""
        self.done()
        self.out.write(",".join(header) + "\n")
        kept: List[str] = []
        for line in lines:
            kept.append(line)
            if len(kept) == LINES:
                self.out.write("\n".join(kept) + "\n")
                kept.clear()
        if kept:
            self.out.write("\n".join(kept) + "\n")


def quoted(name: str) -> str:
    """A name as CSV has it.

    >>> print(quoted('Elm St, 4'), quoted('Elm St 4'))
    "Elm St, 4" Elm St 4
    """
    return '"' + name.replace('"', '""') + '"' if QUOTED(name) else name


def tables(asked: Asked) -> None:
    """Every table, the finest first."""
    header = ("zoom", "place", "id", "name", "parent", "lamps", "wh", *asked.lamps.system, "table_x", "table_y", "seen")
    asked.print(header, (line for zoom in asked.build.zooms for line in _table_lines(asked, zoom)))


def _table_lines(asked: Asked, zoom: int) -> Iterator[str]:
    asked.tell(f"table {zoom}, {asked.build.length(zoom):,} entries", printing=True)
    columns = (asked.build.table_column(zoom, name) for name in ("id", "parent", "num", "energy", "x", "y", "seen"))
    for place, ((x, y), row) in enumerate(zip(asked.centres(zoom), zip(*columns))):
        id_, parent, num, energy, table_x, table_y, seen = row
        parent, seen = "" if parent == UNSET else parent, "" if seen == UNSEEN else seen
        name = asked.name_of(id_, num)
        yield f"{zoom},{place},{id_},{name},{parent},{num},{energy},{x!r},{y!r},{table_x!r},{table_y!r},{seen}"


def owners(asked: Asked) -> None:
    """A line for each lamp, with its owner in the table of the zoom."""
    zoom = asked.zoom()
    places = asked.build.owners(zoom)
    columns = (asked.build.table_column(zoom, name) for name in ("id", "num", "energy"))
    tails = [f"{id_},{num},{wh},{x!r},{y!r}" for (x, y), id_, num, wh in zip(asked.centres(zoom), *columns)]
    asked.tell("printing", printing=True)
    header = ("lamp", "name", "owner", "lamps", "wh", *asked.lamps.system)
    names = map(quoted, asked.lamps.names) if asked.lamps.names else iter(lambda: "", None)
    asked.print(header, (f"{lamp},{name},{tails[place]}" for (lamp, place), name in zip(enumerate(places), names)))


def leaves(asked: Asked) -> None:
    """The lamps of a cluster: all of them, or a page."""
    lamps, words = asked.lamps, asked.words
    if words.page is None:
        found = asked.build.get_leaves(words.id)
    else:
        found = asked.build.leaves_page(words.id, words.page, words.size)
    lines = (f"{at},{quoted(lamps.name(at))},{lamps.energies[at]},{lamps.xs[at]!r},{lamps.ys[at]!r}" for at in found)
    asked.print(("lamp", "name", "wh", *lamps.system), lines)


def children(asked: Asked) -> None:
    """What a cluster falls into."""
    found = asked.build.get_children(asked.words.id)
    zoom = asked.build.table_of(asked.words.id)
    asked.print((*ENTRY, *asked.lamps.system), (asked.entry_line(zoom, entry) for entry in found))


def box(asked: Asked) -> None:
    """The entries in a box."""
    zoom, words = asked.zoom(), asked.words
    west, south, east, north = words.west, words.south, words.east, words.north
    if math.inf > south > north:
        raise BadQuestion(f"the box has S {south} above N {north}: give W S E N, the lesser {asked.lamps.system[1]} first")
    if asked.lamps.is_plan and math.inf > west > east:
        raise BadQuestion(f"the box has W {west} above E {east}: on a plan give the lesser x first")
    if asked.lamps.is_plan:
        bbox = (west, south, east, north)
    else:
        bbox = (west, mercator_y(north), east, mercator_y(south))
    used = asked.build.zoom_used(zoom)
    found = asked.build.get_clusters(bbox, zoom)
    asked.print((*ENTRY, *asked.lamps.system), (asked.entry_line(used, entry) for entry in found))


def tile(asked: Asked) -> None:
    """What a tile lists. On a plan it is said whether strips of the other end were used."""
    z, x, y = asked.words.z, asked.words.x, asked.words.y
    if asked.lamps.is_plan:
        only = asked.build.options.longitude_strips_only
        asked.note("tiles of this plan have " + ("no strips of the other end" if only else
                   "strips of the other end, as on a globe (--longitude-strips-only leaves them out)"))
    found = asked.build.get_tile(z, x, y)
    used = asked.build.zoom_used(z)
    lines = (f"{item.x},{item.y},{asked.entry_line(used, item.entry)}" for item in found)
    asked.print(("tile_x", "tile_y", *ENTRY, *asked.lamps.system), lines)


def homes(build: Supercluster, z: int) -> List[Tuple[int, int]]:
    """The tiles of a zoom that hold an entry's centre, in order of their rows."""
    last = 2**z - 1
    columns = build.table_column(z, "x"), build.table_column(z, "y")
    found = {(min(last, int(y * 2**z)), min(last, int(x * 2**z))) for x, y in zip(*columns)}
    return [(x, y) for y, x in sorted(found)]


def tally(asked: Asked) -> None:
    """The lamps of each tile that holds some, and their sum."""
    if asked.words.zoom > 31:
        raise Refused(7, sentence=f"there are no tiles of zoom {asked.words.zoom}: they go up to 31")
    z = asked.zoom()
    counts: Dict[Tuple[int, int], int] = {}
    for x, y in homes(asked.build, z):
        counts[x, y] = asked.build.tally(z, x, y)
        if not len(counts) & 0xFFFF:
            asked.tell(f"{len(counts):,} tiles are counted")
    total = sum(counts.values())
    asked.print(("z", "x", "y", "lamps"), (f"{z},{x},{y},{lamps}" for (x, y), lamps in counts.items()))
    asked.note(f"{len(counts):,} tiles of zoom {z} hold {total:,} lamps; the file has {len(asked.lamps):,}")
    if total != len(asked.lamps):
        raise BadQuestion("the tiles do not hold each lamp once: do not use this table")
