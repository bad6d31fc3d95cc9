"""Draws the tables of a file's lamps as SVG, in the style of examples/street.svg: a panel for each zoom, the finest first."""
from __future__ import annotations

import argparse
import math
from typing import List, NamedTuple, Optional, Sequence, Tuple

from .lamps_answers import Asked, BadQuestion
from .supercluster import Supercluster

PANEL, MARGIN, TITLE, LEGEND, COLUMNS, PANELS = 480.0, 16.0, 28.0, 50.0, 2, 6
INSET, FLATTEST, TALLEST = 26.0, 0.35, 1.2
# A circle's radius is at most this times the root of its count; the largest of a panel is at most so large; and all circles of a panel
# together cover at most this part of it.
GROWTH, LARGEST, COVERED = 5.0, 40.0, 0.22
# A circle holds its count from this radius on, each further digit needs more; from the last one on it holds its energy, too.
HOLDS, EACH_DIGIT, HOLDS_BOTH = 6.5, 2.3, 16.0
STYLE = (
    "text{font-family:Helvetica,Arial,'DejaVu Sans',sans-serif;fill:#2b2620}"
    ".title{font-size:15px;font-weight:600}.legend{font-size:12px;fill:#6b655b}"
    ".count{font-size:10px;text-anchor:middle;paint-order:stroke;stroke:#f8d587;stroke-width:2.5px;stroke-linejoin:round}"
    ".energy{font-size:8px;text-anchor:middle;fill:#6b4a10;paint-order:stroke;stroke:#f8d587;stroke-width:2px;stroke-linejoin:round}"
    ".beside{font-size:9px;paint-order:stroke;stroke:#fff;stroke-width:2.5px;stroke-linejoin:round}"
    ".owner{fill:none;stroke:#8b93a1}.finer{fill:#9aa1ad}.lamp{fill:#26364d}"
    ".cluster{fill:#f6c453;fill-opacity:.72;stroke:#a86f12;stroke-width:1}"
)
READ = (
    "Point: a lamp. Circle: a cluster; its area grows with its lamps, whose number it has, and their kWh where there is room.",
    "Line: from an entry of the panel before to the one that owns it. Circles of two panels are not to one scale.",
)


class Frame(NamedTuple):
    """What part of the map a panel shows, and how large."""

    left: float
    top: float
    scale: float
    height: float
    upwards: bool

    def at(self, x: float, y: float) -> Tuple[float, float]:
        down = (y - self.top) * self.scale
        return (x - self.left) * self.scale, self.height - down if self.upwards else down


def add_flags(one: argparse.ArgumentParser) -> None:
    one.add_argument("--zooms", metavar="Z,Z,..", help=f"the zooms to draw (at most {PANELS}, spread over those that differ)")
    one.add_argument("--y-up", action="store_true", help="draws the y of a plan upwards")


def draw(asked: Asked) -> None:
    """The picture of the build."""
    if asked.words.y_up and not asked.lamps.is_plan:
        raise BadQuestion("--y-up is for a plan: on a map north is up already")
    zooms = chosen(asked)
    asked.tell(f"drawing {len(zooms)} tables")
    frame = frame_around(asked.build, asked.words.y_up)
    columns = min(COLUMNS, len(zooms))
    wide, high = MARGIN + PANEL, MARGIN + TITLE + frame.height
    width, height = MARGIN + wide * columns, high * math.ceil(len(zooms) / columns) + LEGEND
    write = asked.out.write
    write(f'<svg xmlns="http://www.w3.org/2000/svg" width="{width:.0f}" height="{height:.0f}" viewBox="0 0 {width:.0f} {height:.0f}">\n'
          f'<style>{STYLE}</style>\n<rect width="100%" height="100%" fill="#f7f5f0"/>\n')
    for at, zoom in enumerate(zooms):
        x, y = MARGIN + wide * (at % columns), MARGIN + TITLE + high * (at // columns)
        finer = zooms[at - 1] if at else None
        write(f'<g transform="translate({x:.0f} {y:.0f})">\n<text class="title" x="2" y="-9">{title(asked.build, zoom)}</text>\n')
        write(panel(asked.build, zoom, finer, frame))
        write("</g>\n")
    for line, text in enumerate(READ):
        write(f'<text class="legend" x="{MARGIN:.0f}" y="{height - 29 + 16 * line:.0f}">{text}</text>\n')
    write("</svg>\n")


def chosen(asked: Asked) -> List[int]:
    """The zooms to draw, the finest first: those named, or else at most six, spread over those in which something was gathered."""
    build, named = asked.build, asked.words.zooms
    if named is None:
        return spread([(zoom, build.length(zoom)) for zoom in build.zooms])
    try:
        zooms = sorted({int(zoom) for zoom in named.split(",")}, reverse=True)
    except ValueError:
        raise BadQuestion(f"--zooms is {named!r}: write zooms with commas between, such as 17,14,11") from None
    lacking = [zoom for zoom in zooms if zoom not in build.zooms]
    if lacking:
        raise BadQuestion(f"--zooms: zoom {lacking[0]} has no table; they go from {build.zooms[-1]} to {build.zooms[0]}")
    return zooms


def spread(lengths: Sequence[Tuple[int, int]]) -> List[int]:
    """At most six zooms whose tables differ in length, by even steps of the lengths' logarithms.

    >>> spread([(5, 64), (4, 64), (3, 32), (2, 16), (1, 8), (0, 8)])
    [5, 3, 2, 1]
    """
    differ = [pair for at, pair in enumerate(lengths) if not at or pair[1] != lengths[at - 1][1]]
    if len(differ) <= PANELS:
        return [zoom for zoom, _ in differ]
    first, last = math.log(differ[0][1]), math.log(differ[-1][1])
    kept: List[int] = []
    for step in range(PANELS):
        wanted = first + (last - first) * step / (PANELS - 1)
        # Those that stay for the later steps are not taken.
        left = differ[len(kept) and differ.index(next(p for p in differ if p[0] == kept[-1])) + 1:len(differ) - (PANELS - 1 - step)]
        kept.append(min(left, key=lambda pair: abs(math.log(pair[1]) - wanted))[0])
    return kept


def frame_around(build: Supercluster, upwards: bool) -> Frame:
    """A frame for all lamps; the map lies in its middle."""
    xs, ys = (build.table_column(build.zooms[0], name) for name in ("x", "y"))
    left, top = min(xs), min(ys)
    wide, high = max(xs) - left, max(ys) - top
    inner = PANEL - 2 * INSET
    height = float(round(max(FLATTEST * PANEL, min(TALLEST * PANEL, inner * high / max(wide, 1e-12) + 2 * INSET))))
    scale = min(inner / max(wide, 1e-12), (height - 2 * INSET) / max(high, 1e-12))
    return Frame(left - (PANEL / scale - wide) / 2, top - (height / scale - high) / 2, scale, height, upwards)


def title(build: Supercluster, zoom: int) -> str:
    nums = build.table_column(zoom, "num")
    clusters = sum(num > 1 for num in nums)
    entries = f"{len(nums):,} {'entry' if len(nums) == 1 else 'entries'}"
    energy = kilowatt_hours(sum(build.table_column(zoom, "energy")))
    return f"zoom {zoom}: {entries}, {clusters:,} cluster{'s' * (clusters != 1)}, {energy} kWh"


def kilowatt_hours(energy: int) -> str:
    """Watt-hours as kilowatt-hours with one digit behind the point, rounded.

    >>> kilowatt_hours(1250), kilowatt_hours(49)
    ('1.3', '0.0')
    """
    tenths = (energy + 50) // 100
    return f"{tenths // 10}.{tenths % 10}"


class Drawn(NamedTuple):
    """An entry in a panel."""

    x: float
    y: float
    r: float
    num: int
    energy: int


def panel(build: Supercluster, zoom: int, finer: Optional[int], frame: Frame) -> str:
    """Frame, lines, clusters, lamps, counts."""
    nums = build.table_column(zoom, "num")
    gathered = sum(num for num in nums if num > 1)
    growth = min(GROWTH, LARGEST / math.sqrt(max(nums)), math.sqrt(COVERED * PANEL * frame.height / math.pi / max(1, gathered)))
    point = max(0.7, min(2.0, 2.0 * math.sqrt(400 / build.count)))
    columns = (build.table_column(zoom, name) for name in ("x", "y", "energy"))
    entries = [Drawn(*frame.at(x, y), growth * math.sqrt(num) if num > 1 else point, num, energy)
               for x, y, energy, num in zip(*columns, nums)]
    clusters = sorted((entry for entry in entries if entry.num > 1), key=lambda entry: -entry.num)
    lamps = [entry for entry in entries if entry.num == 1]
    svg = [f'<rect width="{PANEL:.0f}" height="{frame.height:.0f}" rx="4" fill="#fff" stroke="#d8d2c4"/>\n']
    if finer is not None:
        svg.append(lines(build, zoom, finer, frame, entries, point))
    return "".join(svg + [circles("cluster", clusters), circles("lamp", lamps), *counts(clusters)])


def taken_by(build: Supercluster, zoom: int, finer: int) -> List[int]:
    """For each entry of a finer table the place of the one that has its lamps: those of one owner stay together."""
    places = [0] * build.length(finer)
    for place, owner in zip(build.owners(finer), build.owners(zoom)):
        places[place] = owner
    return places


def lines(build: Supercluster, zoom: int, finer: int, frame: Frame, entries: List[Drawn], point: float) -> str:
    """A line from each entry of the finer table that a cluster took in, with a point where it lay."""
    columns = (build.table_column(finer, name) for name in ("x", "y", "num"))
    path, points = [], []
    for x, y, num, owner in zip(*columns, taken_by(build, zoom, finer)):
        if entries[owner].num != num:
            x, y = frame.at(x, y)
            path.append(f"M{x:.1f} {y:.1f}L{entries[owner].x:.1f} {entries[owner].y:.1f}")
            points.append(Drawn(x, y, 0.65 * point, num, 0))
    if not path:
        return ""
    return f'<path class="owner" stroke-width="{0.4 * point:.2f}" d="{"".join(path)}"/>\n' + circles("finer", points)


def circles(name: str, entries: List[Drawn]) -> str:
    drawn = "".join(f'<circle cx="{one.x:.1f}" cy="{one.y:.1f}" r="{one.r:.1f}"/>\n' for one in entries)
    return f'<g class="{name}">\n{drawn}</g>\n'


def counts(clusters: List[Drawn]) -> List[str]:
    """The counts of the clusters, those of the large ones first; one that would lie over another is left out."""
    taken: List[Tuple[float, float, float, float]] = []
    svg = []
    for one in clusters:
        num = str(one.num)
        half = 2.9 * len(num)
        if one.r >= HOLDS_BOTH:
            box = (one.x - half, one.y - 10, one.x + half, one.y + 10)
            text = (f'<text class="count" x="{one.x:.1f}" y="{one.y - 0.4:.1f}">{num}</text>\n'
                    f'<text class="energy" x="{one.x:.1f}" y="{one.y + 8.6:.1f}">{kilowatt_hours(one.energy)}</text>\n')
        elif one.r >= HOLDS + EACH_DIGIT * (len(num) - 1):
            box = (one.x - half, one.y - 5, one.x + half, one.y + 5)
            text = f'<text class="count" x="{one.x:.1f}" y="{one.y + 3.6:.1f}">{num}</text>\n'
        else:
            x, y = one.x + 0.75 * one.r + 1.5, one.y - 0.75 * one.r
            box = (x, y - 8, x + 2 * half, y)
            text = f'<text class="beside" x="{x:.1f}" y="{y:.1f}">{num}</text>\n'
        if not any(box[0] < b[2] and b[0] < box[2] and box[1] < b[3] and b[1] < box[3] for b in taken):
            taken.append(box)
            svg.append(text)
    return svg
