"""What the tests share: the worked example of docs/SCOPE.md, the command as a process, and texts of the repository."""
import os
import struct
import subprocess

from reachvolem import DataRange, Options, Supercluster

ROOT = os.path.dirname(os.path.dirname(os.path.dirname(os.path.abspath(__file__))))
UNIT = DataRange(offset=0.0, scale=1.0)


def options(**changes):
    """Those of the worked example, with changes."""
    given = dict(min_zoom=0, max_zoom=1, min_points=2, radius=64.0, extent=512.0, node_size=64, range=UNIT, longitude_strips_only=False)
    return Options(**{**given, **changes})


def worked(**changes):
    """The build of the worked example, with changes to its options."""
    xs = [16384 / 65536, 20480 / 65536, 26624 / 65536, 26624 / 65536]
    return Supercluster(options(**changes), xs, [0.5] * 4, [10, 20, 30, 40])


def path(*parts):
    return os.path.join(ROOT, *parts)


def text_of(*parts):
    with open(path(*parts), encoding="utf-8", newline="") as file:
        return file.read()


def lamps(*words, given=b"", environment=None):
    """Runs ./lamps: its exit status, standard output and standard error."""
    ran = subprocess.run([path("lamps"), *words], input=given, capture_output=True, env=environment)
    return ran.returncode, ran.stdout.decode("utf-8"), ran.stderr.decode("utf-8")


def bits(number):
    return struct.pack(">d", number).hex()


def of_bits(digits):
    return struct.unpack(">d", bytes.fromhex(digits))[0]


def lister_line(zoom, entry):
    """An entry as the lister prints it."""
    seen, parent = ("-" if unset is None else unset for unset in (entry.seen, entry.parent))
    return f"{zoom} {entry.place} {bits(entry.x)} {bits(entry.y)} {seen} {entry.id} {parent} {entry.num} {entry.energy}"
