"""The command on the examples and on made-up lamps: its answers agree with the module, the lister and each other."""
import csv
import io
import os
import random
import re
import shlex
import subprocess
import sys
import unittest
from array import array

from reachvolem import SERVICE, Options, Supercluster, lamps_check, mercator_y
from reachvolem.lamps import COMMANDS
from reachvolem.lamps_read import read

from .shared import ROOT, bits, lamps, path, text_of

TOWN = path("examples", "town.csv")


def rows(text):
    return list(csv.DictReader(io.StringIO(text, newline="")))


def town():
    """The town's lamps and their build, by the module alone."""
    with open(TOWN, newline="", encoding="utf-8") as file:
        given = list(csv.DictReader(file))
    columns = ([float(row["lng"]) for row in given], [mercator_y(float(row["lat"])) for row in given], [int(row["wh"]) for row in given])
    return given, Supercluster(Options(**SERVICE, range=None, longitude_strips_only=False), *columns)


def as_csv(text):
    """The lister's text as a CSV of the same lamps, and its options as flags."""
    numbers = [line.split("=") for line in text.splitlines()]
    head, points = dict(numbers[:6]), [int(value) for _, value in numbers[7:]]
    lines = [f"{points[i] / 65536!r},{points[i + 1] / 65536!r},{points[i + 2]}" for i in range(0, len(points), 3)]
    flags = [word for key, value in head.items() for word in ("--" + key.replace("_", "-"), value)]
    return "\n".join(["x,y,wh", *lines, ""]).encode(), flags + ["--offset", "0", "--scale", "1"]


class Answers(unittest.TestCase):
    def asked(self, *words, given=b"", said=""):
        status, out, err = lamps(*words, given=given)
        self.assertEqual((status, err), (0, said))
        return rows(out)

    def test_tables_are_the_listers_to_the_bit(self):
        for name in ("street", "village", "city"):
            given, flags = as_csv(text_of("examples", name + ".txt"))
            lines = []
            for row in self.asked("tables", *flags, given=given):
                x, y = bits(float(row["table_x"])), bits(float(row["table_y"]))
                lines.append(f"{row['zoom']} {row['place']} {x} {y} {row['seen'] or '-'} {row['id']} {row['parent'] or '-'} "
                             f"{row['lamps']} {row['wh']}")
            self.assertEqual(lines, text_of("examples", name + ".tables").splitlines())

    def test_owners_of_the_town(self):
        given, build = town()
        for zoom in (17, 13, 0):
            found = self.asked("owners", TOWN, "--zoom", str(zoom))
            self.assertEqual([row["name"] for row in found], [row["name"] for row in given])
            for row, place in zip(found, build.owners(zoom)):
                entry = build.entry(zoom, place)
                self.assertEqual([int(row[key]) for key in ("owner", "lamps", "wh")], [entry.id, entry.num, entry.energy])
                centre = build.centre(entry) if entry.num > 1 else (float(given[entry.id]["lng"]), float(given[entry.id]["lat"]))
                self.assertEqual((float(row["lng"]), float(row["lat"])), centre)

    def test_owners_are_those_that_the_tables_lead_to(self):
        table = self.asked("tables", TOWN)
        up = {(row["zoom"], row["id"]): row["parent"] or row["id"] for row in table}
        owners = [str(lamp) for lamp in range(334)]
        for zoom in range(16, -1, -1):
            owners = [up[str(zoom + 1), owner] for owner in owners]
            if zoom in (16, 13, 7, 0):
                self.assertEqual([row["owner"] for row in self.asked("owners", TOWN, "--zoom", str(zoom))], owners)

    def test_leaves_and_children(self):
        given, build = town()
        entry = max(build.table(12), key=lambda entry: entry.num)
        whole = self.asked("leaves", str(entry.id), TOWN)
        self.assertEqual([int(row["lamp"]) for row in whole], build.get_leaves(entry.id))
        for row in whole:
            own = given[int(row["lamp"])]
            self.assertEqual((row["name"], row["wh"], float(row["lat"])), (own["name"], own["wh"], float(own["lat"])))
        self.assertEqual(sum(int(row["wh"]) for row in whole), entry.energy)
        pages = [self.asked("leaves", str(entry.id), "--page", str(page), "--size", "50", TOWN) for page in range(entry.num // 50 + 1)]
        self.assertEqual(sum(pages, []), whole)
        children = self.asked("children", str(entry.id), TOWN)
        self.assertEqual(sum(int(row["lamps"]) for row in children), entry.num)
        self.assertEqual({row["zoom"] for row in children}, {"13"})

    def test_box_is_what_lies_inside(self):
        table = self.asked("tables", TOWN)
        box = (8.535, 47.365, 8.545, 47.372)
        found = self.asked("box", *map(str, box), TOWN, "--zoom", "15")
        inside = [row["id"] for row in table if row["zoom"] == "15" and box[0] <= float(row["lng"]) <= box[2]
                  and box[1] <= float(row["lat"]) <= box[3]]
        self.assertGreater(len(inside), 5)
        self.assertEqual(sorted(row["id"] for row in found), sorted(inside))

    def test_tiles_and_their_tallies(self):
        for zoom in ("0", "14", "17", "20"):
            status, out, err = lamps("tally", TOWN, "--zoom", zoom)
            self.assertEqual(status, 0)
            self.assertTrue(err.endswith(f"tiles of zoom {zoom} hold 334 lamps; the file has 334\n"), err)
            self.assertEqual(sum(int(row["lamps"]) for row in rows(out)), 334)
        tallies = rows(lamps("tally", TOWN, "--zoom", "14")[1])
        for row in tallies:
            self.assertTrue(self.asked("tile", row["z"], row["x"], row["y"], TOWN))

    def test_strips_of_a_plan_are_said(self):
        given = b"x,y,wh\n0,0,1\n1,1,1\n"
        flags = ("tile", "0", "0", "0", "--range", "0", "0", "1", "1", "--max-zoom", "0", "--radius", "1")
        said = "lamps: tiles of this plan have strips of the other end, as on a globe (--longitude-strips-only leaves them out)\n"
        with_strips = self.asked(*flags, given=given, said=said)
        said = "lamps: tiles of this plan have no strips of the other end\n"
        without = self.asked(*flags, "--longitude-strips-only", given=given, said=said)
        self.assertEqual((len(with_strips), len(without)), (4, 2))

    def test_names_are_kept(self):
        name = 'Straße "4", Nord\nTor'
        quoted = '"' + name.replace('"', '""') + '"'
        given = f"\ufeffwh,Name,LAT, lng \r\n5,{quoted},47.3,8.5\r\n\r\n6,,47.4,8.6\r\n".encode("utf-8")
        found = self.asked("owners", "--zoom", "17", given=given)
        self.assertEqual([(row["name"], row["wh"], row["lat"]) for row in found], [(name, "5", "47.3"), ("", "6", "47.4")])

    def test_floats_read_back_to_the_same_bits(self):
        numbers = [0.1, 1 / 3, 5e-324, 1e-300, 123456.789012345678, 65535.99999999999]
        given = "x,y\n" + "".join(f"{n!r},{n!r}\n" for n in numbers)
        status, out, _ = lamps("tables", "--range", "0", "0", "200000", "200000", "--radius", "0", given=given.encode())
        finest = [row for row in rows(out) if row["zoom"] == "17"]
        self.assertEqual([bits(float(row["x"])) for row in finest], [bits(n) for n in numbers])


class Checks(unittest.TestCase):
    def test_the_town(self):
        status, out, err = lamps("check", TOWN)
        digest = subprocess.run(["sha256sum", TOWN], capture_output=True, text=True, check=True).stdout.split()[0]
        self.assertRegex(out, rf"^ok lamps=334 tables=18 entries=\d+ clusters=\d+ wh=\d+ sha256={digest}\n$")
        self.assertEqual((status, err), (0, ""))

    def test_ten_thousand_lamps(self):
        chance = random.Random(11)
        lines = [f"Lamp {i},{8 + chance.gauss(0, 0.1):.7f},{47 + chance.gauss(0, 0.1):.7f},{chance.randrange(2**20)}"
                 for i in range(10_000)]
        given = "\n".join(["name,lng,lat,wh", *lines]).encode()
        status, out, err = lamps("check", given=given)
        self.assertEqual((status, err), (0, ""))
        self.assertIn("ok lamps=10000 tables=18 ", out)
        self.assertIn(f"wh={sum(int(line.rsplit(',', 1)[1]) for line in lines)} ", out)

    def spoiled(self, zoom, name, place, value):
        """What the check says of the town's tables, one number of which is another."""
        with open(TOWN, "rb") as file:
            given = read(file.read(), print, print)
        _, build = town()

        class Spoiled(Supercluster):
            def __init__(self):
                self.__dict__.update(build.__dict__)

            def table_column(self, asked, column):
                found = build.table_column(asked, column)
                if (asked, column) == (zoom, name):
                    found = found.tolist()
                    found[place] = value(found)
                return found

            def owners(self, asked):
                found = build.owners(asked).tolist()
                if (asked, "owners") == (zoom, name):
                    found[place] = value(found)
                return found

        asked = type("Asked", (), dict(build=Spoiled(), lamps=given, out=io.StringIO(), tell=staticmethod(lambda sentence: None)))
        with self.assertRaises(lamps_check.Differs) as caught:
            lamps_check.check(asked)
        return str(caught.exception)

    def test_spoiled_tables_are_found(self):
        self.assertIn("it says 15 lamps", self.spoiled(14, "num", 0, lambda found: found[0] + 1))
        self.assertIn("its lamps come to", self.spoiled(14, "energy", 3, lambda found: found[3] - 1))
        self.assertIn("two entries have one id", self.spoiled(14, "id", 0, lambda found: found[1]))
        self.assertIn("its lamps come to", self.spoiled(15, "parent", 0, lambda found: found[-1]))
        self.assertIn("no entry has the id 999999", self.spoiled(15, "parent", 0, lambda found: 999999))
        self.assertIn("not those of the file", self.spoiled(17, "energy", 5, lambda found: found[5] + 1))
        self.assertIn("not those of the lamps", self.spoiled(17, "id", 5, lambda found: 6))

    def test_a_spoiled_owner_is_found(self):
        """In each table, whatever the place that is kept in another's stead."""
        for zoom in range(18):
            said = self.spoiled(zoom, "owners", 333, lambda found: found[333] + 1)
            self.assertRegex(said, rf"^table {zoom}, lamp 333: the build keeps place \d+ as its owner's, the tables lead to place \d+$")
        self.assertIn("the build keeps place 16 as its owner's, the tables lead to place 0", self.spoiled(17, "owners", 0, lambda _: 16))

    def test_the_recount_does_not_look_at_the_owners_kept(self):
        _, build = town()
        build.owners = build.owner = None
        places = array("I", range(334))
        for zoom in build.zooms[1:]:
            places = lamps_check.climbed(build, zoom, places)
            lamps_check.check_table(build, zoom, places, build.table_column(17, "energy"))

    def test_spoiled_leaves_are_found(self):
        for wrong in (lambda found: found[:-1], lambda found: found[:-1] + found[:1], lambda found: found[:-1] + [333]):
            _, build = town()
            honest = build.get_leaves
            build.get_leaves = lambda id_, limit: wrong(honest(id_, limit))
            with self.assertRaisesRegex(lamps_check.Differs, "leaves are not the"):
                lamps_check.check_table(build, 14, build.owners(14), build.table_column(17, "energy"))


class Files(unittest.TestCase):
    def test_the_town_is_as_its_maker_makes_it(self):
        made = subprocess.run([sys.executable, path("examples", "make-town"), "--csv"], capture_output=True, text=True, check=True).stdout
        self.assertEqual(made, text_of("examples", "town.csv"))
        status, out, err = lamps("draw", TOWN)
        self.assertEqual((status, err), (0, ""))
        self.assertEqual(out, text_of("examples", "town.svg"))

    def test_pictures(self):
        picture = text_of("examples", "town.svg")
        titles = re.findall(r">zoom (\d+): ([\d,]+) entr(?:y|ies), ([\d,]+) clusters?, ([\d.]+) kWh<", picture)
        _, build = town()
        self.assertEqual(len(titles), 6)
        for zoom, entries, clusters, energy in titles:
            table = build.table(int(zoom))
            self.assertEqual((int(entries), int(clusters)), (len(table), sum(entry.is_cluster for entry in table)))
            self.assertEqual(energy, titles[0][3])
        circles = re.findall(r'<g class="(?:cluster|lamp)">\n((?:<circle.*\n)*)', picture)
        self.assertEqual(sum(group.count("<circle") for group in circles), sum(int(entries) for _, entries, _, _ in titles))
        drawn = lamps("draw", "--zooms", "3,1", "--y-up", given=b"x,y\n0,0\n1,1\n")[1]
        self.assertEqual(re.findall(r">zoom (\d+):", drawn), ["3", "1"])

    def test_each_command_has_an_example_that_runs(self):
        for name, (_, _, example) in COMMANDS.items():
            self.assertIn(f"./lamps {example}", lamps(name, "--help")[1])
            words = shlex.split(example.split(">")[0])
            ran = subprocess.run([path("lamps"), *words], cwd=ROOT, capture_output=True, text=True)
            self.assertEqual(ran.returncode, 0, ran.stderr)
            self.assertGreater(len(ran.stdout.splitlines()), 0 if name == "check" else 1, name)

    def test_defaults_stand_in_the_help(self):
        told = " ".join(lamps("tables", "--help")[1].split())
        for words in ("0 to 30 (0)", "above it (16)", "0 to 255 (2)", "65,536 (40.0)", "65,536 (512.0)", "search (64)", "end (off)"):
            self.assertIn(words, told)

    def test_a_closed_pipe_is_no_failure_of_ours(self):
        ran = subprocess.run(f"{shlex.quote(path('lamps'))} tables {shlex.quote(TOWN)} --max-zoom 30 --radius 0 | head -n 1", shell=True,
                             capture_output=True, text=True)
        self.assertEqual((ran.stdout[:5], ran.stderr), ("zoom,", ""))

    @unittest.skipUnless(os.path.exists("/dev/full"), "there is no /dev/full")
    def test_a_full_disk_is_said(self):
        with open("/dev/full", "w") as full:
            ran = subprocess.run([path("lamps"), "tables", TOWN], stdout=full, stderr=subprocess.PIPE, text=True)
        self.assertEqual((ran.returncode, ran.stderr), (2, "lamps: cannot write: No space left on device\n"))
