"""Reads lamps from a CSV file: a header with x,y or lng,lat, and wh and name where there are such columns."""
from __future__ import annotations

import csv
import hashlib
import io
import math
import re
from array import array
from typing import Callable, Dict, Iterator, List, NoReturn, Optional

from .mercator import EDGE, mercator_y
from .refusals import MOST_LAMPS

SYSTEMS = (("x", "y"), ("lng", "lat"))
KNOWN = ("x", "y", "lng", "lat", "wh", "name")
NUMBER = re.compile(r"\s*[+-]?([0-9]+\.?[0-9]*|\.[0-9]+)([eE][+-]?[0-9]+)?\s*", re.ASCII)
WHOLE = re.compile(r"\s*\+?[0-9]+\s*", re.ASCII)
EXAMPLE = "name,lng,lat,wh"
# The library refuses whatever is above 2^40. A larger number than its word takes is put to it as the greatest that fits.
MOST_WORD = 2**64 - 1

Note = Callable[[str], None]


class BadInput(Exception):
    """The input cannot be read; the sentence names the line and what to do."""


class Lamps:
    """Lamps as a file has them, each at its place, counted from 0."""

    def __init__(self, data: bytes, system: tuple) -> None:
        self.data = data
        self.system = system
        self.digest = hashlib.sha256(data).hexdigest()
        self.names: Optional[List[str]] = None
        self.xs, self.ys, self.energies = array("d"), array("d"), array("Q")
        self.projected = self.ys

    @property
    def is_plan(self) -> bool:
        return self.system == SYSTEMS[0]

    def __len__(self) -> int:
        return len(self.xs)

    def name(self, lamp: int) -> str:
        return self.names[lamp] if self.names else ""

    def said(self, lamp: int) -> str:
        """A lamp in words: its number, its name and its line."""
        name = f" {self.names[lamp]!r}" if self.names else ""
        return f"lamp {lamp}{name} (line {self.line(lamp)} of the file)"

    def line(self, lamp: int) -> int:
        """The line of a lamp, which is read anew: it is asked for only where something is wrong."""
        reader = _reader(self.data)
        rows = (row for row in reader if row)
        for _ in range(lamp + 2):
            row = next(rows)
        return _first_line(reader, row)


def _reader(data: bytes) -> Iterator[List[str]]:
    return csv.reader(io.TextIOWrapper(io.BytesIO(data), encoding="utf-8-sig", newline=""), strict=True)


def _first_line(reader: Iterator, row: List[str]) -> int:
    """The line in which the row that was just read begins."""
    return reader.line_num - sum(len(re.findall("\r\n|\r|\n", field)) for field in row)


def _line_at(data: bytes, at: int) -> int:
    return data.count(b"\n", 0, at) + 1


def _check_bytes(data: bytes) -> None:
    """Refuses what is no text in UTF-8, by its line."""
    if data[:2] in (b"\xff\xfe", b"\xfe\xff"):
        raise BadInput("the file is in UTF-16: save it as UTF-8")
    if b"\0" in data:
        raise BadInput(f"line {_line_at(data, data.index(0))}: there is a NUL byte, so this is no text: save it as CSV in UTF-8")
    try:
        data.decode("utf-8")
    except UnicodeDecodeError as why:
        line, byte = _line_at(data, why.start), data[why.start]
        raise BadInput(f"line {line}: the byte {byte:#04x} is not UTF-8: save the file as UTF-8 (it may be in Latin-1)") from None
    if not data.strip(b"\xef\xbb\xbf \t\r\n"):
        raise BadInput(f"the input is empty: the first line must be a header such as {EXAMPLE}")


def _check_header(header: List[str], line: int) -> Dict[str, int]:
    """Where each known column stands."""
    names = [name.strip().lower() for name in header]
    if len(names) == 1 and (mark := next((mark for mark in ";\t|" if mark in names[0]), None)):
        raise BadInput(f"line {line}: the columns are separated by {mark!r}: separate them by commas")
    twice = next((name for name in KNOWN if names.count(name) > 1), None)
    if twice:
        raise BadInput(f"line {line}: the header has {names.count(twice)} columns {twice}: keep one")
    found = {name: names.index(name) for name in KNOWN if name in names}
    if not found:
        raise BadInput(f"line {line}: no column is named x, y, lng or lat: the first line must be a header such as {EXAMPLE}")
    pairs = [pair for pair in SYSTEMS if pair[0] in found or pair[1] in found]
    if len(pairs) > 1:
        raise BadInput(f"line {line}: the header has columns of x,y and of lng,lat: keep x,y for a plan or lng,lat for a map")
    for name in pairs[0] if pairs else SYSTEMS[1]:
        if name not in found:
            raise BadInput(f"line {line}: the column {name} is missing: the header must have x,y or lng,lat, such as {EXAMPLE}")
    return found


def _why_number(name: str, text: str) -> Optional[str]:
    if not text.strip():
        return f"{name} is empty: a number is needed"
    if NUMBER.fullmatch(text):
        return None if math.isfinite(float(text)) else f"{name} is {text!r}: that is too large for a number"
    if NUMBER.fullmatch(text.replace(",", ".", 1)):
        return f"{name} is {text!r}: write it with a decimal point"
    return f"{name} is {text!r}: a finite decimal number is needed"


def _why_energy(text: str) -> Optional[str]:
    if not text.strip():
        return "wh is empty: write 0 where no energy is known"
    if WHOLE.fullmatch(text):
        return None
    if NUMBER.fullmatch(text) and float(text) < 0:
        return f"wh is {text!r}: it must be 0 or more"
    return f"wh is {text!r}: whole watt-hours are needed, in digits alone"


def _why_row(row: List[str], found: Dict[str, int], system: tuple, width: int) -> Optional[str]:
    """What is wrong with a row, or None."""
    if len(row) != width:
        return f"there are {len(row)} fields where the header has {width}" + (": is a comma in a name not quoted?" * (len(row) > width))
    for name in system:
        why = _why_number(name, row[found[name]])
        if why:
            return why
    if system == SYSTEMS[1] and abs(float(row[found["lat"]])) > 90:
        return f"lat is {row[found['lat']]!r}: a latitude is from -90 to 90 (are lng and lat exchanged?)"
    return _why_energy(row[found["wh"]]) if "wh" in found else None


def _bad_row(reader: Iterator, row: List[str], why: Optional[str]) -> NoReturn:
    raise BadInput(f"line {_first_line(reader, row)}: {why}")


def _fill(lamps: Lamps, reader: Iterator, found: Dict[str, int], width: int, tell: Note) -> None:
    """Takes the rows. One that Python cannot read as numbers, or that is out of the ordinary, is looked at more closely."""
    careful = b"_" in lamps.data or not lamps.data.isascii()
    at_x, at_y = (found[name] for name in lamps.system)
    at_wh, at_name = found.get("wh"), found.get("name")
    names: List[str] = []
    add_x, add_y, add_wh, add_name = lamps.xs.append, lamps.ys.append, lamps.energies.append, names.append
    limit = math.inf if lamps.is_plan else 90.0
    for row in reader:
        if not row:
            continue
        try:
            x, y = float(row[at_x]), float(row[at_y])
            wh = int(row[at_wh]) if at_wh is not None else 0
            plain = len(row) == width and x - x == 0.0 and -limit <= y <= limit and y - y == 0.0 and 0 <= wh
        except (ValueError, IndexError):
            plain = False
        if not plain or careful:
            why = _why_row(row, found, lamps.system, width)
            if why or not plain:
                _bad_row(reader, row, why or "the numbers cannot be read")
        add_x(x)
        add_y(y)
        add_wh(wh if wh < MOST_WORD else MOST_WORD)
        if at_name is not None:
            add_name(row[at_name])
        if len(lamps.xs) > MOST_LAMPS:
            break
        if not len(lamps.xs) & 0x1FFFF:
            tell(f"{len(lamps.xs):,} lamps are read")
    lamps.names = names if at_name is not None else None


def _why_csv(why: csv.Error, line: int) -> str:
    if "unexpected end of data" in str(why) or "field larger" in str(why):
        return f"line {line}: a quote is opened and not closed"
    return f"line {line}: a quoted field goes on behind its closing quote: write a quote within it twice ({why})"


def read(data: bytes, note: Note, tell: Note) -> Lamps:
    """The lamps of a CSV file. Notes are for the user, and so is what is told of the progress. Raises BadInput."""
    _check_bytes(data)
    reader = _reader(data)
    try:
        header = next(row for row in reader if row)
        found = _check_header(header, _first_line(reader, header))
        lamps = Lamps(data, SYSTEMS[0] if "x" in found else SYSTEMS[1])
        _fill(lamps, reader, found, len(header), tell)
    except csv.Error as why:
        raise BadInput(_why_csv(why, _last_good(data) + 1)) from None
    others = [name.strip() or "(without a name)" for name in header if name.strip().lower() not in KNOWN]
    if others:
        note(f"not used: column{'s' * (len(others) > 1)} {', '.join(others)}")
    if "wh" not in found:
        note("there is no column wh: each lamp brings 0 watt-hours")
    if not lamps.is_plan:
        _project(lamps, note)
    return lamps


def _last_good(data: bytes) -> int:
    """The last line before the row that cannot be read."""
    reader = _reader(data)
    line = 0
    try:
        for _ in reader:
            line = reader.line_num
    except csv.Error:
        pass
    return line


def _project(lamps: Lamps, note: Note) -> None:
    """The latitudes on the mercator map. Not proved."""
    lamps.projected = array("d", map(mercator_y, lamps.ys))
    beyond = sum(not -EDGE < lat < EDGE for lat in lamps.ys)
    if beyond:
        note(f"{beyond:,} of the lamps, beyond latitude {EDGE}: put at the edge of the map")
