"""What a refusal of ./lister means for the text that it was given: which line is wrong, and what was expected there.

    python3 python/reachvolem/lister_words.py refusal=12 < TEXT

Run by ./lister where its program has refused. The refusal is the proved program's; these words are not proved. They are tested beside
the refusals of the lister's stored vectors.
"""
from __future__ import annotations

import os
import sys
from typing import Dict, Iterator, List, NamedTuple, Optional, Tuple

if not __package__:
    sys.path[0] = os.path.dirname(os.path.dirname(os.path.abspath(__file__)))

from reachvolem.options import DataRange, Options  # noqa: E402

LONGEST, ROOM, DIGITS, UNIT = 65_536, 1_152, 7, 65_536
MOST = 10**DIGITS - 1
HEAD = (("min_zoom", 255), ("max_zoom", 255), ("min_points", 255), ("radius", MOST), ("extent", MOST), ("node_size", MOST), ("count", ROOM))
LAMPS = "./lamps takes up to 1,048,576 lamps, from a CSV file"


class Fault(Exception):
    """A line that is not of the form, and what was expected there."""


class Text(NamedTuple):
    """What a text of the form says."""

    head: Dict[str, int]
    points: List[Tuple[int, int, int]]


def shown(line: bytes) -> str:
    """A line as a message has it, cut where it is long.

    >>> print(shown(b"x=1\\t"), shown(b"a" * 100))
    'x=1\\x09' 'aaaaaaaaaaaaaaaaaaaaaaaaaaaaaaaaaaaaaaaa'..
    """
    text = "".join(chr(byte) if 32 <= byte < 127 else f"\\x{byte:02x}" for byte in line[:40])
    return f"'{text}'" + ".." * (len(line) > 40)


def value_of(line: bytes, key: str, most: int) -> int:
    """The number of a line `key=number`. Raises Fault."""
    front = key.encode() + b"="
    if line.endswith(b"\r"):
        raise Fault("it ends in CR LF: end each line in LF alone")
    if not line.startswith(front):
        more = "; a CSV file is for ./lamps" if b"," in line else ""
        raise Fault(f"{key}= was expected, and there is {shown(line)}{more}")
    digits = line[len(front):]
    odd = next((at for at, byte in enumerate(digits) if not 48 <= byte <= 57), None)
    if odd is not None:
        raise Fault(f"{shown(line)}: the character {len(front) + odd + 1} is not a decimal digit")
    if not 1 <= len(digits) <= DIGITS:
        raise Fault(f"{shown(line)}: 1 to {DIGITS} decimal digits are expected behind {key}=")
    if digits[:1] == b"0" and len(digits) > 1:
        raise Fault(f"{shown(line)}: the number begins with a needless 0")
    if int(digits) > most:
        more = f"; {LAMPS}" if key == "count" else ""
        raise Fault(f"{shown(line)}: {key} is at most {most:,}{more}")
    return int(digits)


def expected(head: Dict[str, int]) -> Iterator[Tuple[str, int, str]]:
    """The key of each line, the most that it takes, and what the line is for; `head` is filled meanwhile."""
    for key, most in HEAD:
        yield key, most, "the options"
    for point in range(head["count"]):
        for key in ("x", "y", "wh"):
            yield key, MOST, f"point {point}, counted from 0, of {head['count']}"


def parsed(text: bytes) -> Text:
    """What a text says. Raises Fault, with the line, where it is not of the form."""
    head: Dict[str, int] = {}
    numbers: List[int] = []
    at = line = 0
    for key, most, what in expected(head):
        line += 1
        end = text.find(b"\n", at)
        if at == len(text):
            raise Fault(f"line {line}: the text ends, and {key}= of {what} was expected")
        if end < 0 and len(text) > LONGEST:
            raise Fault(f"the text is longer than {LONGEST:,} bytes; {LAMPS}")
        try:
            value = value_of(text[at:len(text) if end < 0 else end], key, most)
        except Fault as fault:
            raise Fault(f"line {line}: {fault}") from None
        if end < 0:
            raise Fault(f"line {line}: its LF is missing at the end of the text")
        at = end + 1
        if line <= len(HEAD):
            head[key] = value
        else:
            numbers.append(value)
    if at < len(text):
        more = f"; {LAMPS}" if len(text) > LONGEST else ""
        raise Fault(f"line {line + 1} is one too many: count={head['count']} makes {line} lines{more}")
    return Text(head, list(zip(numbers[0::3], numbers[1::3], numbers[2::3])))


def options_of(head: Dict[str, int]) -> Options:
    given = {key: head[key] for key, _ in HEAD if key != "count"}
    return Options(**given, range=DataRange(offset=0.0, scale=1.0), longitude_strips_only=False)


def outside(text: Text) -> Optional[int]:
    """The first point that lies outside the square."""
    return next((at for at, (x, y, _) in enumerate(text.points) if max(x, y) > UNIT), None)


def why_point(text: Text, point: int) -> str:
    x, y, _ = text.points[point]
    key, value = ("x", x) if x > UNIT else ("y", y)
    line = len(HEAD) + 3 * point + (1 if key == "x" else 2)
    return f"line {line}: {key}={value} of point {point}, counted from 0, is above {UNIT}, so that it lies outside the square"


def why_room(text: Text) -> str:
    """How many entries the tables need, and what would fit."""
    tables, count = options_of(text.head).tables, len(text.points)
    fewer = ROOM // count - 1
    zooms = f"; {count} points fit with up to {fewer} zoom{'s' * (fewer > 1)}" if fewer > 0 else ""
    return (f"the tables take (max_zoom - min_zoom + 2) * count = {tables} * {count} = {tables * count:,} entries, and there is room for "
            f"{ROOM:,}: up to {ROOM // tables} points fit with these zooms{zooms}; {LAMPS}")


def explained(text: bytes) -> Tuple[str, str]:
    """The refusal that these words expect, as the lister prints it, and the words; both are empty where none is expected."""
    try:
        said = parsed(text)
    except Fault as fault:
        return "refusal=12", str(fault)
    why = options_of(said.head).fault()
    if why:
        return "refusal=1", why
    if not said.points:
        return "refusal=2", "line 7: count=0: at least one point is needed"
    point = outside(said)
    if point is not None:
        return f"refusal=3 at={point}", why_point(said, point)
    if options_of(said.head).tables * len(said.points) > ROOM:
        return "refusal=4", why_room(said)
    return "", ""


def main() -> int:
    """Prints the words for the text on standard input; fails where they expect another refusal than was printed."""
    refusal, why = explained(sys.stdin.buffer.read())
    if len(sys.argv) != 2 or refusal != sys.argv[1]:
        return 1
    print(why)
    return 0


if __name__ == "__main__":
    sys.exit(main())
