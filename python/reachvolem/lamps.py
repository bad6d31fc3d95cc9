"""The command ./lamps: reads a CSV of lamps, builds the clusters with the proved library, and prints what is asked."""
from __future__ import annotations

import argparse
import io
import os
import shutil
import signal
import subprocess
import sys
from typing import List, Optional

from . import lamps_answers, lamps_check, lamps_draw, library
from .lamps_answers import Asked, BadQuestion
from .lamps_read import BadInput, Lamps, read
from .options import SERVICE, DataRange, Options
from .refusals import MOST_ENERGY, Refused
from .supercluster import Supercluster

FORM = """
FILE is a CSV file in UTF-8 with a header: x,y (a plan) or lng,lat (degrees); wh (whole watt-hours) and name where there are such
columns; up to 1,048,576 lamps. Without FILE, or with -, standard input is read. Lamps are counted from 0, in the order of the file.
Answers are CSV on standard output, all else is said on standard error. Exit status: 0; 1 where the library refuses or a check
differs; 2 for usage and bad input. The tables are the proved library's; reading, latitudes and printing are not proved.
"""

# By name: its own arguments, what it prints, and an example.
COMMANDS = {
    "tables": ("", "every table, a line for each entry, the finest first", "tables examples/town.csv --max-zoom 12 > tables.csv"),
    "owners": ("--zoom Z ", "for each lamp its owner in a zoom's table: id, lamps, watt-hours, centre",
               "owners examples/town.csv --zoom 13"),
    "leaves": ("ID ", "the lamps of a cluster", "leaves 349 examples/town.csv --page 0 --size 20"),
    "children": ("ID ", "the entries that a cluster falls into at the next larger zoom", "children 349 examples/town.csv"),
    "box": ("W S E N --zoom Z ", "the entries in a box of a zoom's table", "box 8.52 47.36 8.55 47.38 examples/town.csv --zoom 14"),
    "tile": ("Z X Y ", "the entries of a tile, and where they are drawn in it", "tile 14 8580 5737 examples/town.csv"),
    "tally": ("--zoom Z ", "the lamps of each tile of a zoom that holds some, and their sum", "tally examples/town.csv --zoom 14"),
    "draw": ("", "a picture of the tables, as SVG", "draw examples/town.csv > town.svg"),
    "check": ("", "one line, once owners, counts, energies and leaves are counted anew: run it before a list is approved",
              "check examples/town.csv"),
}


def say(sentence: str) -> None:
    print(f"lamps: {sentence}", file=sys.stderr)


def tell(sentence: str, printing: bool = False) -> None:
    """Progress, for whoever sits before a terminal; not while answers are printed on that terminal."""
    if sys.stderr.isatty() and not (printing and sys.stdout.isatty()):
        print(f"\r\033[Klamps: {sentence} ..", end="", file=sys.stderr, flush=True)


def done_telling() -> None:
    if sys.stderr.isatty():
        print("\r\033[K", end="", file=sys.stderr, flush=True)


def add_shared(one: argparse.ArgumentParser) -> None:
    """The file and the options, which all commands have."""
    one.add_argument("file", nargs="?", default="-", metavar="FILE", help="the CSV file; - or nothing: standard input")
    options = one.add_argument_group("options of the build (without a flag those of the original service)")
    for name, kind, what in (
        ("min_zoom", int, "the smallest zoom, 0 to 30"), ("max_zoom", int, "the largest zoom, 0 to 30; the lamps are the table above it"),
        ("min_points", int, "the fewest lamps of a cluster, 0 to 255"),
        ("radius", float, "how far a cluster reaches, in units of extent, 0 to 65,536"),
        ("extent", float, "the side of a tile that radius is measured in, 1 to 65,536"),
        ("node_size", int, "the node size of the index, 1 to 65,535; it changes the order within a search"),
    ):
        options.add_argument("--" + name.replace("_", "-"), type=kind, default=SERVICE[name], metavar="N", help=f"{what} (%(default)s)")
    options.add_argument("--longitude-strips-only", action="store_true", help="tiles of a plan have no strips of the other end (off)")
    plan = one.add_argument_group("the range of a plan (x,y); without a flag the least and greatest x and y of the file")
    plan.add_argument("--range", type=float, nargs=4, metavar=("MIN_X", "MIN_Y", "MAX_X", "MAX_Y"), help="the plan's corners")
    plan.add_argument("--offset", type=float, metavar="N", help="instead of the lesser minimum")
    plan.add_argument("--scale", type=float, metavar="N", help="instead of the greater maximum less the offset")


def add_own(name: str, one: argparse.ArgumentParser) -> None:
    """What a command has of its own."""
    if name in ("leaves", "children"):
        one.add_argument("id", type=int, metavar="ID", help="the cluster's id, as the tables have it")
    if name == "box":
        for corner, plan in (("west", "least x"), ("south", "least y"), ("east", "greatest x"), ("north", "greatest y")):
            edge = f"a map's {corner}ern edge or a plan's {plan}, as in the file"
            one.add_argument(corner, type=float, metavar=corner[0].upper(), help=edge)
    if name == "tile":
        for word in "zxy":
            one.add_argument(word, type=int, metavar=word.upper(), help=f"the tile's {word}")
    if name in ("owners", "box", "tally"):
        one.add_argument("--zoom", type=int, required=True, metavar="Z", help="the zoom whose table is asked")
    if name == "leaves":
        one.add_argument("--page", type=int, metavar="K", help="this page alone, counted from 0 (with --size)")
        one.add_argument("--size", type=int, metavar="S", help="the lamps of a page")
    if name == "draw":
        lamps_draw.add_flags(one)


def parser() -> argparse.ArgumentParser:
    form = argparse.RawDescriptionHelpFormatter
    top = argparse.ArgumentParser(prog="lamps", formatter_class=form, description="Clusters of lamps for every zoom.\n" + FORM,
                                  epilog="lamps COMMAND --help tells more, with an example.", allow_abbrev=False)
    commands = top.add_subparsers(dest="command", metavar="COMMAND", required=True)
    for name, (own, what, example) in COMMANDS.items():
        one = commands.add_parser(name, help=what, description=f"Prints {what}.\n{FORM}", formatter_class=form, allow_abbrev=False,
                                  usage=f"lamps {name} {own}[FILE] [options]", epilog=f"example:\n  ./lamps {example}")
        add_own(name, one)
        add_shared(one)
    return top


def is_negative(word: str) -> bool:
    """Whether a word is a negative number. Some, such as -1e5, argparse would take for flags if no space stood before them."""
    try:
        return word.startswith("-") and float(word) <= 0
    except ValueError:
        return False


def words_of(arguments: Optional[List[str]]) -> argparse.Namespace:
    """The command's words. FILE may stand behind flags, too, where argparse itself no longer looks for it."""
    given = sys.argv[1:] if arguments is None else arguments
    words, rest = parser().parse_known_args([" " + word if is_negative(word) else word for word in given])
    if len(rest) == 1 and words.file == "-" and (rest[0] == "-" or not rest[0].startswith("-")):
        words.file = rest.pop()
    if rest:
        raise BadQuestion(f"{rest[0]!r} is not understood: ./lamps {words.command} --help lists what is")
    return words


def options_of(words: argparse.Namespace, lamps: Lamps) -> Options:
    """The options that the flags and the file come to."""
    plan = None
    if lamps.is_plan:
        plan = plan_of(words, lamps)
    elif words.range or words.offset is not None or words.scale is not None:
        raise BadQuestion("--range, --offset and --scale are for a plan: the file has lng,lat")
    given = {name: getattr(words, name) for name in SERVICE}
    return Options(**given, range=plan, longitude_strips_only=words.longitude_strips_only)


def plan_of(words: argparse.Namespace, lamps: Lamps) -> DataRange:
    """The range of a plan, by the flags or else the file's own."""
    corners = words.range
    if corners is None:
        corners = [min(lamps.xs), min(lamps.ys), max(lamps.xs), max(lamps.ys)] if len(lamps) else [0.0, 0.0, 1.0, 1.0]
        if len(lamps) and (words.offset is None or words.scale is None):
            say(f"the range is the file's own: --range {' '.join(map(repr, corners))}")
    return DataRange(*corners, offset=words.offset, scale=words.scale)


def data_of(file: str) -> bytes:
    if file == "-":
        if sys.stdin.isatty():
            say("reading standard input; end it with Ctrl-D")
        return sys.stdin.buffer.read()
    try:
        with open(file, "rb") as opened:
            return opened.read()
    except OSError as why:
        raise BadInput(f"{file} cannot be read: {why.strerror}") from None


def built(words: argparse.Namespace, lamps: Lamps) -> Supercluster:
    """The build. A refusal names the lamp as its file does."""
    options = options_of(words, lamps)
    tell("building the tables")
    try:
        return Supercluster(options, lamps.xs, lamps.projected, lamps.energies)
    except Refused as refused:
        raise Refused(refused.number, refused.carried, why_refused(refused, options, lamps)) from None


def why_refused(refused: Refused, options: Options, lamps: Lamps) -> str:
    """The refusal of a build in words, with the lamp's own name, and with what to do."""
    at = refused.carried
    if refused.number == 1 and options.range and options.range.scale is None and "scale" in refused.sentence:
        return f"{refused.sentence}: give --range, or --offset and --scale"
    if refused.number == 2:
        return "the file has a header and no lamps" if not len(lamps) else f"the file has more than {len(lamps) - 1:,} lamps: split it"
    if refused.number == 3:
        x, y = lamps.system
        what = "widen --range" if lamps.is_plan else "a longitude is from -180 to 180"
        return f"{lamps.said(at)} lies outside the map, at {x} {lamps.xs[at]!r}, {y} {lamps.ys[at]!r}: {what}"
    if refused.number == 15:
        return f"{lamps.said(at)} brings more than {MOST_ENERGY:,} watt-hours (2^40): correct its wh"
    return refused.sentence


def named(refused: Refused, words: argparse.Namespace, lamps: Lamps) -> Refused:
    """The refusal of a question, in which a lamp has its name."""
    if refused.number == 6 and words.id < len(lamps):
        name = f" {lamps.name(words.id)!r}" if lamps.names else ""
        sentence = f"{words.id} is the id of a lamp,{name or ' not of a cluster'}; those of clusters begin at {len(lamps)}"
        return Refused(6, 0, sentence)
    if refused.number in (5, 6):
        sentence = f"no cluster has the id {words.id} with these options: ./lamps tables lists the ids that there are"
        return Refused(refused.number, 0, sentence)
    if refused.number == 8:
        return Refused(8, 0, f"tile {words.z}/{words.x}/{words.y} has no entries: ./lamps tally --zoom {words.z} lists the tiles that have")
    if refused.number == 7 and words.command == "tile":
        return Refused(7, 0, f"there is no tile {words.z}/{words.x}/{words.y}: z is from 0 to 31, x and y from 0 to 2^z - 1")
    if refused.number == 9:
        return Refused(9, 0, "a corner of the box is not finite: give four plain numbers, W S E N")
    return refused


def answer(words: argparse.Namespace) -> None:
    """Reads, builds and prints."""
    lamps = read(data_of(words.file), say, tell)
    build = built(words, lamps)
    lamps.data = b""
    out = io.TextIOWrapper(io.BufferedWriter(io.FileIO(1, "w", closefd=False), 1 << 20), encoding="utf-8", newline="")
    asked = Asked(lamps, build, words, out, say, tell, done_telling)
    command = {"draw": lamps_draw.draw, "check": lamps_check.check}.get(words.command) or getattr(lamps_answers, words.command)
    try:
        command(asked)
    except Refused as refused:
        raise named(refused, words, lamps) from None
    done_telling()
    out.flush()


def checked_words(words: argparse.Namespace) -> None:
    """What the flags have to be to each other, and to the words of the library."""
    if words.command == "leaves":
        if (words.page is None) != (words.size is None):
            raise BadQuestion("--page and --size go together: give both, or neither for all lamps")
        if words.page is not None and not (words.page >= 0 and words.size >= 1 and (words.page + 1) * words.size < 2**32):
            raise BadQuestion(f"--page is {words.page} and --size {words.size}: a page is 0 or more, a size 1 or more, both small")
    if words.command in ("leaves", "children") and not 0 <= words.id < 2**32:
        raise BadQuestion(f"ID is {words.id}: an id is from 0 to 4,294,967,295")


def make_library() -> None:
    """Makes the compiled library where it is not there or not current. One that REACHVOLEM_LIB names is used as it is, and without rt
    so is one that is there."""
    is_there = any(map(os.path.isfile, library.candidates()))
    if os.environ.get(library.VARIABLE) or is_there and not shutil.which("rt"):
        return
    made = subprocess.run([os.path.join(library.ROOT, "tools", "shared-lib")], stdin=subprocess.DEVNULL, stdout=sys.stderr)
    if made.returncode:
        raise library.NoLibrary(f"the compiled library could not be made: see above, or name one by {library.VARIABLE}")


def main(arguments: Optional[List[str]] = None) -> int:
    """Runs the command, and answers its exit status."""
    signal.signal(signal.SIGPIPE, signal.SIG_DFL)
    try:
        words = words_of(arguments)
        checked_words(words)
        make_library()
        answer(words)
        return 0
    except Refused as refused:
        sentence, status = str(refused), 1
    except lamps_check.Differs as differs:
        sentence, status = f"differs: {differs}: do not approve this list", 1
    except (BadInput, BadQuestion, library.NoLibrary) as why:
        sentence, status = str(why), 2
    except OSError as why:
        sentence, status = f"cannot write: {why.strerror}", 2
    except KeyboardInterrupt:
        sentence, status = "interrupted", 130
    done_telling()
    say(sentence)
    return status
