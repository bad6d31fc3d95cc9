"""The module's own part: refusals, owners, postings, buffers, rooms that grow, the index, the range, and where the library is found."""
import array
import ctypes
import math
import os
import pickle
import random
import re
import shutil
import subprocess
import sys
import tempfile
import unittest

from reachvolem import DataRange, Index, Refused, Supercluster, lamps_check, library, longitude
from reachvolem.library import Call, column, exact, room
from reachvolem.refusals import MEANINGS
from reachvolem.supercluster import INDEX_COLUMNS, TABLE_COLUMNS

from .shared import ROOT, bits, of_bits, options, path, text_of, worked

try:
    import numpy
except ImportError:
    numpy = None


class Refusals(unittest.TestCase):
    def refused(self, number, carried, words, call):
        with self.assertRaises(Refused) as caught:
            call()
        refused = caught.exception
        self.assertEqual((refused.number, refused.carried), (number, carried))
        self.assertIn(words, str(refused))

    def test_builds(self):
        load = lambda xs=(0.5,), ys=(0.5,), energies=(1,), **changes: Supercluster(options(**changes), xs, ys, energies)
        self.refused(1, 0, "min_zoom is 2, above max_zoom, 1", lambda: load(min_zoom=2))
        self.refused(1, 0, "max_zoom is 300", lambda: load(max_zoom=300))
        self.refused(1, 0, "radius is nan", lambda: load(radius=math.nan))
        self.refused(1, 0, "extent is 0.5", lambda: load(extent=0.5))
        self.refused(1, 0, "scale 0.0", lambda: load(range=DataRange(1.0, 1.0, 1.0, 1.0)))
        self.refused(1, 0, "max_y of the range is inf", lambda: load(range=DataRange(max_y=math.inf)))
        self.refused(2, 0, "there are 0 xs", lambda: load((), (), ()))
        self.refused(2, 0, "1 xs, 2 ys, 1 energies", lambda: load(ys=(0.5, 0.5)))
        self.refused(2, 0, "1 xs, 1 ys, 0 energies", lambda: load(energies=()))
        self.refused(2, 0, "1,048,577 xs", lambda: load(*[array.array(letter, bytes(8 * 1_048_577)) for letter in "ddQ"]))
        self.refused(3, 1, "lamp 1, counted from 0, at (2.0, 0.5)", lambda: load((0.5, 2.0), (0.5, 0.5), (1, 1)))
        self.refused(3, 0, "(nan, 0.5)", lambda: load((math.nan,)))
        self.refused(15, 0, "brings 1,099,511,627,777", lambda: load(energies=(2**40 + 1,)))
        self.assertEqual(load(energies=(2**40,)).table(0)[0].energy, 2**40)

    def test_options_are_refused_where_the_words_find_a_fault(self):
        """The words of refusal 1 are Python's, the refusal is the library's: at every bound they agree."""
        floats = (-1.0, -0.0, 0.5, 1.0, 65_536.0, 65_536.00000000001, math.inf, math.nan)
        cases = [dict(min_zoom=low, max_zoom=high) for low in (0, 1, 30, 31, 255, 256, -1) for high in (0, 1, 29, 30, 31, 255, 256, -1)]
        cases += [dict(min_points=points) for points in (-1, 0, 255, 256)]
        cases += [dict(node_size=size) for size in (-1, 0, 1, 65_535, 65_536, 2**64 - 1, 2**64)]
        cases += [{name: number} for name in ("radius", "extent") for number in floats]
        ranges = [(0.0, 0.0, 1.0, 1.0), (1.0, 1.0, 1.0, 1.0), (math.nan, 0.0, 1.0, 1.0), (0.0, 0.0, math.inf, 1.0)]
        ranges.append((-1e308, 0.0, 1e308, 1.0))
        cases += [dict(range=DataRange(*corners, offset, scale)) for corners in ranges for offset in (None, 0.0, -math.inf)
                  for scale in (None, 1.0, 0.0, -1.0, 5e-324, math.nan)]
        for case in cases:
            given = options(**case)
            corner = 0.0 if given.range is None else given.range.denormalize(0.0)
            try:
                number = Supercluster(given, [corner], [corner], [0]) and 0
            except Refused as refused:
                number = refused.number
            self.assertEqual(number == 1, given.fault() is not None, case)
            self.assertIn(number, (0, 1, 3), case)

    def test_questions(self):
        build = worked()
        self.refused(6, 0, "3 is the id of a lamp", lambda: build.get_leaves(3))
        self.refused(5, 0, "no cluster has the id 7", lambda: build.get_children(7))
        self.refused(7, 0, "no such tile", lambda: build.get_tile(2, 4, 0))
        self.refused(7, 0, "no such tile", lambda: build.tally(300, 0, 0))
        self.refused(7, 0, "no such tile", lambda: build.tally(1, -1, 0))
        self.refused(8, 0, "tile 2/0/0 has no entries", lambda: build.get_tile(2, 0, 0))
        self.refused(9, 0, "not finite", lambda: build.get_clusters((0, 0, math.inf, 1), 1))
        self.refused(9, 0, "not finite", lambda: build.get_clusters_within_effort((0, 0, math.nan, 1), 1, 5))
        self.refused(9, 0, "radius is below 0", lambda: build.ring(1, 0.5, 0.5, -1.0))
        self.refused(16, 0, "refused 16 (lamp): there is no lamp 4: the last one is 3", lambda: build.owner(4, 1))
        self.refused(16, 0, "there is no lamp 4294967295", lambda: build.owner(2**32 - 1, 255))
        self.refused(16, 0, "refused 16 (lamp): there is no lamp 4: the last one is 3", lambda: build.post(4, 2**64 - 1))
        self.refused(15, 0, "(energy): lamp 3 is posted 1,099,511,627,777 watt-hours: at most 1,099,511,627,776 (2^40) are allowed",
                     lambda: build.post(3, 2**40 + 1))
        for call in (lambda: build.get_leaves(2**32), lambda: build.get_leaves(5, limit=-1), lambda: build.ring(256, 0, 0, 0),
                     lambda: build.owner(2**32, 0), lambda: build.owner(-1, 0), lambda: build.owner(0, 256), lambda: build.owners(256)):
            self.assertRaises(ValueError, call)
        self.assertRaises(IndexError, build.entry, 0, 1)
        self.assertRaises(KeyError, build.table_column, 0, "owners")

    def test_of_an_index(self):
        self.refused(1, 0, "node_size is 0", lambda: Index(0, [0.5], [0.5]))
        self.refused(1, 0, "node_size is -1", lambda: Index(-1, [0.5], [0.5]))
        self.refused(2, 0, "1 to 1,048,576", lambda: Index(64, [], []))
        self.refused(3, 1, "point 1, counted from 0, at (0.5, 1.5)", lambda: Index(64, [0.5, 0.5], [0.5, 1.5]))
        self.refused(9, 0, "not finite", lambda: Index(64, [0.5], [0.5]).within(0.5, 0.5, math.nan))
        self.refused(9, 0, "not finite", lambda: list(Index(64, [0.5], [0.5]).iter_range(0, 0, 1, math.inf)))

    def test_those_that_the_module_keeps_away(self):
        """4, 10 and 11 come only where columns are lent by hand: here they are."""
        given = dict(node_size=64, xs=column("f64", [0.5], ""), ys=column("f64", [0.5], ""))
        build = Call("kdbush_build", **given, coords=room("f64", 2))
        self.assertEqual(build(ids=(ctypes.c_uint32 * 0)()), (4, 0))
        ids, coords = room("u32", 1), room("f64", 2)
        self.assertEqual(build(ids=ids, coords=coords), (0, 0))
        search = Call("kdbush_within", node_size=64, ids=ids, coords=coords, qx=0.5, qy=0.5, radius=1.0)
        self.assertEqual(search(n=1, out=(ctypes.c_uint32 * 0)()), (10, 1))
        self.assertEqual(search(n=1000, out=ids)[0], 11)

    def test_each_number_has_words_and_survives_a_pickle(self):
        numbers = [int(number) for number in re.findall(r"^- \*\*(\d+) ", text_of("docs", "SCOPE.md"), re.M)]
        self.assertEqual(sorted(MEANINGS), sorted(numbers))
        again = pickle.loads(pickle.dumps(Refused(3, 7, "words")))
        self.assertEqual((again.number, again.carried, str(again)), (3, 7, "refused 3 (point): words"))
        self.assertEqual(Refused(17).name, "unknown")


class Owners(unittest.TestCase):
    """The owners beside the tables: those that the tables lead to; and what is refused where the columns are lent by hand."""

    def lent(self, owners):
        """The worked example's build in columns of our own, with this column of owners; its reply, and the state and columns left."""
        words = options().words()
        xs = column("f64", [0.25, 0.3125, 0.40625, 0.40625], "")
        given = dict(xs=xs, ys=column("f64", [0.5] * 4, ""), energies=column("u64", [10, 20, 30, 40], ""))
        kinds = {**TABLE_COLUMNS, **INDEX_COLUMNS, "near": "u32"}
        lent = {name: library.names.WORDS[word] * (12 * (1 + (name == "coords"))) for name, word in kinds.items()}
        lent = {name: kind.from_buffer(bytearray(b"\xa5" * ctypes.sizeof(kind))) for name, kind in lent.items()}
        lent.update(starts=(ctypes.c_uint32 * 32)(), lens=(ctypes.c_uint32 * 32)(), owners=owners)
        reply = Call("supercluster_load", **words, **given, **lent)()
        return reply, dict(words, count=4, starts=lent["starts"], lens=lent["lens"]), lent

    def painted(self, length):
        return (ctypes.c_uint32 * length)(*[77] * length)

    def test_those_that_the_tables_lead_to(self):
        chance = random.Random(13)
        xs, ys = ([chance.random() ** 2 for _ in range(500)] for _ in "xy")
        for changes in (dict(max_zoom=6), dict(min_zoom=2, max_zoom=5, min_points=4), dict(max_zoom=0, radius=0.0)):
            build = Supercluster(options(**changes), xs, ys, [1] * 500)
            places = array.array("I", range(500))
            for zoom in build.zooms:
                if zoom != build.zooms[0]:
                    places = lamps_check.climbed(build, zoom, places)
                self.assertEqual(build.owners(zoom).tolist(), places.tolist())
                self.assertEqual([build.owner(lamp, zoom) for lamp in range(500)], places.tolist())
                owned = [places.tolist().count(place) for place in range(build.length(zoom))]
                self.assertEqual(owned, build.table_column(zoom, "num").tolist())

    def test_the_column_stands_where_the_build_left_it(self):
        build = worked()
        found = build.owners(1)
        self.assertEqual((found.readonly, found.format, len(found)), (True, "I", 4))
        with self.assertRaises(TypeError):
            found[0] = 5
        build._columns["owners"].array[4] = 1
        self.assertEqual((list(found), build.owner(0, 1)), ([1, 0, 1, 1], 1))
        build._columns["owners"].array[4] = 2
        with self.assertRaisesRegex(Refused, "refused 11 .spoiled.") as caught:
            build.owner(0, 1)
        self.assertEqual((caught.exception.number, caught.exception.carried), (11, 0))

    @unittest.skipIf(numpy is None, "numpy is not installed")
    def test_numpy_reads_it_without_a_copy(self):
        build = worked()
        found = numpy.asarray(build.owners(1))
        self.assertEqual((found.dtype, found.tolist()), (numpy.uint32, [0, 0, 1, 1]))
        self.assertEqual(found.ctypes.data, ctypes.addressof(build._columns["owners"].array) + 16)

    def test_a_build_leaves_what_lies_behind(self):
        owners = self.painted(15)
        reply, _, _ = self.lent(owners)
        self.assertEqual((reply, list(owners)), ((0, 0), [0, 1, 2, 3, 0, 0, 1, 1, 0, 0, 0, 0, 77, 77, 77]))
        self.assertEqual(self.lent(self.painted(12))[0], (0, 0))

    def test_a_short_column_is_refused_4(self):
        for length in (0, 1, 4, 11):
            owners = self.painted(length)
            reply, state, lent = self.lent(owners)
            self.assertEqual((reply, list(owners)), ((4, 0), [77] * length))
            self.assertEqual({byte for name in lent if name not in ("owners", "starts", "lens") for byte in bytes(lent[name])}, {0xa5})
            self.assertEqual({*state["starts"], *state["lens"]}, {0})

    def test_spoiled_is_refused_11(self):
        owners = self.painted(12)
        _, state, _ = self.lent(owners)
        ask = Call("supercluster_owner", **state)
        self.assertEqual([ask(owners=owners, lamp=lamp, zoom=1) for lamp in range(5)], [(0, 0), (0, 0), (0, 1), (0, 1), (16, 0)])
        short = (ctypes.c_uint32 * 11)(*owners[:11])
        self.assertEqual([ask(owners=short, lamp=lamp, zoom=2) for lamp in (0, 4)], [(11, 0)] * 2)
        owners[7] = 2
        self.assertEqual([ask(owners=owners, lamp=lamp, zoom=1) for lamp in (2, 3, 4)], [(0, 1), (11, 0), (16, 0)])
        self.assertEqual([ask(owners=owners, lamp=3, zoom=zoom) for zoom in (2, 0)], [(0, 3), (0, 0)])
        lens = (ctypes.c_uint32 * 32)(*state["lens"])
        lens[1] += 1
        self.assertEqual([ask(owners=owners, lens=lens, lamp=lamp, zoom=2) for lamp in (0, 4)], [(11, 0)] * 2)
        self.assertEqual(ask(owners=owners, count=5, lamp=4, zoom=2), (11, 0))
        self.assertEqual(ask(owners=owners, max_zoom=31, lamp=4, zoom=2), (11, 0))


class Posts(unittest.TestCase):
    """A figure replaced: the tables are those of a fresh build; and what is refused changes nothing."""

    def setUp(self):
        chance = random.Random(110)
        self.xs, self.ys = ([chance.random() ** 2 for _ in range(300)] for _ in "xy")
        self.energies = [chance.randrange(1000) for _ in range(300)]
        self.chance = chance

    def built(self, changes, energies):
        return Supercluster(options(**changes), self.xs, self.ys, energies)

    def left(self, build):
        """All columns, what lies behind the tables too, and the state."""
        columns = {name: bytes(lent.view) for name, lent in build._columns.items()}
        return columns, list(build._starts), list(build._lens)

    def energies_of(self, build):
        return {zoom: build.table_column(zoom, "energy").tolist() for zoom in build.zooms}

    def test_what_a_fresh_build_has(self):
        for changes in (dict(max_zoom=6), dict(min_zoom=2, max_zoom=5, min_points=4), dict(max_zoom=0, radius=0.0), dict(max_zoom=30)):
            energies = list(self.energies)
            build = self.built(changes, energies)
            for figure in (0, 2**40, 1, 500, 2**40, 0, 777):
                lamp = self.chance.randrange(300)
                build.post(lamp, figure)
                energies[lamp] = figure
                fresh = self.built(changes, energies)
                self.assertEqual([build.table(zoom) for zoom in build.zooms], [fresh.table(zoom) for zoom in fresh.zooms])
                self.assertEqual(self.left(build), self.left(fresh))

    def test_only_the_owners_energies_change(self):
        build = self.built(dict(max_zoom=6), self.energies)
        for lamp in range(0, 300, 11):
            before, old, figure = self.energies_of(build), build.entry(7, lamp).energy, self.chance.randrange(1000)
            rest = {name: column for name, column in self.left(build)[0].items() if name != "energy"}
            build.post(lamp, figure)
            for zoom in build.zooms:
                before[zoom][build.owner(lamp, zoom)] += figure - old
            self.assertEqual(self.energies_of(build), before)
            self.assertEqual({name: column for name, column in self.left(build)[0].items() if name != "energy"}, rest)

    def test_in_either_order(self):
        for _ in range(20):
            first, second = self.chance.sample(range(300), 2)
            one, other = ((lamp, self.chance.randrange(1000)) for lamp in (first, second))
            builds = [self.built(dict(max_zoom=6), self.energies) for _ in range(2)]
            for build, postings in zip(builds, ((one, other), (other, one))):
                for lamp, figure in postings:
                    build.post(lamp, figure)
            self.assertEqual(*map(self.left, builds))

    def test_the_last_of_two_counts_and_the_old_figure_gives_the_build_back(self):
        build = self.built(dict(max_zoom=6), self.energies)
        before = self.left(build)
        for figure in (2**40, 0, self.energies[7]):
            build.post(7, figure)
        self.assertEqual(self.left(build), before)

    def test_where_it_is_seen(self):
        """By a column that was read before, and by each question that answers entries; an entry that was read before keeps its own."""
        build = worked()
        column, entry = build.table_column(1, "energy"), build.entry(1, 0)
        build.post(1, 25)
        self.assertEqual((column.tolist(), entry.energy, build.entry(1, 0).energy), ([35, 70], 30, 35))
        self.assertEqual([entry.energy for entry in build.get_clusters((0, 0, 1, 1), 2)], [10, 25, 30, 40])
        self.assertEqual([entry.energy for entry in build.get_children(5)], [35, 70])
        self.assertEqual([item.entry.energy for item in build.get_tile(0, 0, 0)], [105])

    def test_refusals_change_nothing(self):
        build = self.built(dict(max_zoom=6), self.energies)
        before = self.left(build)
        for number, lamp, figure in ((16, 300, 0), (16, 2**32 - 1, 2**64 - 1), (15, 0, 2**40 + 1), (15, 299, 2**64 - 1)):
            with self.assertRaises(Refused) as caught:
                build.post(lamp, figure)
            self.assertEqual((caught.exception.number, caught.exception.carried), (number, 0))
            self.assertEqual(self.left(build), before)
        build.post(299, 2**40)

    def test_numbers_that_are_none(self):
        build = worked()
        before = self.left(build)
        for lamp, figure, said in (
            (1.5, 0, "lamp is 1.5: it must be a whole number"), ("1", 0, "lamp is '1': it must be a whole number"),
            (None, 0, "lamp is None: it must be a whole number"), (-1, 0, "lamp is -1: it must be from 0 to 4,294,967,295"),
            (2**32, 0, "lamp is 4294967296: it must be from 0 to 4,294,967,295"), (1, 12.5, "wh is 12.5: it must be a whole number"),
            (1, "25", "wh is '25': it must be a whole number"), (1, None, "wh is None: it must be a whole number"),
            (1, math.nan, "wh is nan: it must be a whole number"), (1, math.inf, "wh is inf: it must be a whole number"),
            (1, [25], "wh is [25]: it must be a whole number"), (1, -1, "wh is -1: it must be from 0 to 18,446,744,073,709,551,615"),
            (1, 2**64, "wh is 18446744073709551616: it must be from 0 to 18,446,744,073,709,551,615"),
        ):
            with self.assertRaises(ValueError) as caught:
                build.post(lamp, figure)
            self.assertEqual((str(caught.exception), self.left(build)), (said, before))
        self.assertRaises(TypeError, build.post, 1)
        self.assertEqual([exact("u32", number, "") for number in (3, 3.0, True)], [3, 3, 1])

    @unittest.skipIf(numpy is None, "numpy is not installed")
    def test_numbers_of_numpy(self):
        build = worked()
        build.post(numpy.int64(1), numpy.uint64(25))
        self.assertEqual(self.energies_of(build), {2: [10, 25, 30, 40], 1: [35, 70], 0: [105]})
        self.assertRaisesRegex(ValueError, "it must be a whole number", build.post, 1, numpy.float64(12.5))

    def test_spoiled_is_refused_11(self):
        """By columns that a caller writes to or lends by hand, which the module does not: nothing is written then."""
        honest = worked()
        state = dict(honest._words, count=4, starts=honest._starts, lens=honest._lens)
        page, owners = [10, 20, 30, 40, 30, 70, 100], list(honest._columns["owners"].view)

        def post(lamp, figure, energies=page, places=owners, **changes):
            energy, kept = (ctypes.c_uint64 * len(energies))(*energies), (ctypes.c_uint32 * len(places))(*places)
            reply = Call("supercluster_post", **{**state, **changes})(energy=energy, owners=kept, lamp=lamp, figure=figure)
            self.assertEqual(list(kept), list(places))
            if reply[0]:
                self.assertEqual(list(energy), list(energies))
            return reply + (list(energy),)

        def spoiled(at, place):
            return owners[:at] + [place] + owners[at + 1:]

        lens = (ctypes.c_uint32 * 32)(*state["lens"])
        lens[1] += 1
        self.assertEqual(post(1, 25), (0, 0, [10, 25, 30, 40, 35, 70, 105]))
        self.assertEqual(post(1, 25, page + [7, 7], owners + [7]), (0, 0, [10, 25, 30, 40, 35, 70, 105, 7, 7]))
        for lamp, figure in ((1, 25), (4, 25), (1, 2**40 + 1)):
            for changes in (dict(lens=lens), dict(count=5), dict(max_zoom=31), dict(energies=page[:6]), dict(energies=[]),
                            dict(places=owners[:11]), dict(places=[])):
                self.assertEqual(post(lamp, figure, **changes)[:2], (11, 0), (lamp, figure, changes))
        for at, place in ((1, 0), (1, 2), (1, 4), (5, 2), (9, 1), (9, 2**32 - 1)):
            places = spoiled(at, place)
            self.assertEqual([post(lamp, figure, places=places)[0] for lamp, figure in ((1, 25), (4, 2**40 + 1), (1, 2**40 + 1), (0, 25))],
                             [11, 16, 15, 0])
        for at in (4, 6):
            for energy, figure, number in ((19, 0, 11), (19, 25, 11), (20, 25, 0), (2**64 - 1, 20, 0), (2**64 - 1, 21, 11),
                                           (2**64 - 6, 25, 0)):
                energies = page[:at] + [energy] + page[at + 1:]
                found = post(1, figure, energies)
                self.assertEqual((found[0], found[2][at]), (number, energy if number else energy - 20 + figure))

    def test_spoiled_by_the_module(self):
        build = worked()
        build._columns["owners"].array[5] = 2
        before = self.left(build)
        with self.assertRaisesRegex(Refused, "refused 11 .spoiled.: the state and the columns do not fit together"):
            build.post(1, 25)
        self.assertEqual(self.left(build), before)


class Buffers(unittest.TestCase):
    def address(self, taken):
        return ctypes.addressof(taken)

    def test_taken_as_they_stand(self):
        floats, words = array.array("d", [0.25, 0.5]), array.array("Q", [1, 2])
        self.assertEqual(self.address(column("f64", floats, "")), floats.buffer_info()[0])
        self.assertEqual(self.address(column("u64", words, "")), words.buffer_info()[0])
        others = (ctypes.c_double * 2)(0.25, 0.5)
        self.assertEqual(self.address(column("f64", others, "")), ctypes.addressof(others))
        self.assertEqual(self.address(column("f64", memoryview(floats)[1:], "")), floats.buffer_info()[0] + 8)

    def test_copied(self):
        floats = array.array("d", [0.25, 0.5, 0.75])
        strided = memoryview(floats)[::2]
        fixed = memoryview(array.array("d", [0.25, 0.75])).toreadonly()
        for given in (strided, strided.toreadonly(), fixed, [0.25, 0.75], (0.25, 0.75), array.array("f", [0.25, 0.75])):
            self.assertEqual(list(column("f64", given, "")), [0.25, 0.75])
        self.assertEqual(list(column("u64", array.array("i", [1, 2]), "")), [1, 2])
        self.assertEqual(len(column("f64", [], "")), 0)
        for given in ([-1], [0.5], [2**64], ["1x"], [None], [math.nan], [math.inf]):
            with self.assertRaisesRegex(ValueError, "energies must be whole numbers"):
                column("u64", given, "energies")
        with self.assertRaisesRegex(ValueError, "xs must be numbers"):
            column("f64", ["east"], "xs")

    @unittest.skipIf(numpy is None, "numpy is not installed")
    def test_numpy_without_a_copy(self):
        xs, energies = numpy.array([0.25, 0.5]), numpy.array([1, 2], dtype=numpy.uint64)
        self.assertEqual(self.address(column("f64", xs, "")), xs.ctypes.data)
        self.assertEqual(self.address(column("u64", energies, "")), energies.ctypes.data)
        self.assertEqual(list(column("f64", xs[::2], "")), [0.25])
        self.assertEqual(Supercluster(options(), xs, xs, energies).count, 2)

    def test_columns_of_tables_cannot_be_written_to(self):
        with self.assertRaises(TypeError):
            worked().table_column(0, "num")[0] = 5


class Searches(unittest.TestCase):
    def setUp(self):
        chance = random.Random(7)
        self.points = [(chance.random(), chance.random()) for _ in range(3000)]
        self.xs, self.ys = (array.array("d", axis) for axis in zip(*self.points))

    def test_index_lists_what_passes(self):
        index = Index(16, self.xs, self.ys)
        found = index.range(0.2, 0.3, 0.7, 0.8)
        inside = [i for i, (x, y) in enumerate(self.points) if 0.2 <= x <= 0.7 and 0.3 <= y <= 0.8]
        self.assertGreater(len(inside), 64)
        self.assertEqual(sorted(found), inside)
        self.assertEqual(list(index.iter_range(0.2, 0.3, 0.7, 0.8)), found)
        found = index.within(0.5, 0.5, 0.25)
        near = [i for i, (x, y) in enumerate(self.points) if (x - 0.5) * (x - 0.5) + (y - 0.5) * (y - 0.5) <= 0.0625]
        self.assertEqual(sorted(found), near)
        self.assertEqual(list(index.iter_within(0.5, 0.5, 0.25)), found)
        self.assertEqual(list(index.iter_within(0.5, 0.5, 0.0)), [])

    def test_answers_larger_than_the_first_room(self):
        build = Supercluster(options(max_zoom=5), self.xs, self.ys, [1] * 3000)
        finest = build.zooms[0]
        self.assertEqual(sorted(entry.id for entry in build.get_clusters((0, 0, 1, 1), finest)), list(range(3000)))
        self.assertEqual(len(build.ring(finest, 0.5, 0.5, 1.0)), 3000)
        self.assertEqual(len(build.get_clusters_within_effort((0, 0, 1, 1), finest, 10**6).entries), 3000)
        plain = Supercluster(options(max_zoom=0, radius=0.0, longitude_strips_only=True), self.xs, self.ys, [1] * 3000)
        quarter = [lamp for lamp, (x, y) in enumerate(self.points) if x <= 0.5 and y <= 0.5]
        self.assertEqual(sorted(item.entry.id for item in plain.get_tile(1, 0, 0)), quarter)
        largest = max(build.table(0), key=lambda entry: entry.num)
        self.assertGreater(largest.num, 64)
        whole = build.get_leaves(largest.id)
        self.assertEqual(sorted(whole), [lamp for lamp, owner in enumerate(build.owners(0)) if owner == largest.place])
        pages = [build.leaves_page(largest.id, page, 7) for page in range(largest.num // 7 + 1)]
        self.assertEqual(sum(pages, []), whole)


class Ranges(unittest.TestCase):
    def same(self, found, expected):
        self.assertTrue(found == expected and bits(found) == bits(expected) or found != found and expected != expected, (found, expected))

    def test_stored_vectors(self):
        """Those that the original's own code has made."""
        lines = text_of("crates", "replay_range", "stdin").splitlines()
        self.assertEqual(len(lines), 4000)
        for line in lines:
            numbers = [None if word.startswith("-") else of_bits(word) for word in line.split()]
            plan, (value, normal, back, lng) = DataRange(*numbers[:6]), numbers[6:]
            self.same(plan.normalize(value), normal)
            self.same(plan.denormalize(value), back)

    def test_entries_are_those_of_the_c_name(self):
        build = worked()
        state = dict(build._words, count=build.count, starts=build._starts, lens=build._lens)
        lent = {name: build._columns[name].array for name in (*TABLE_COLUMNS, *INDEX_COLUMNS)}
        words = dict(x="f64", y="f64", seen="u8", id="u32", parent="u32", num="u32")
        for zoom in build.zooms:
            for entry in build.table(zoom):
                out = {"entry_" + name: library.names.WORDS[word]() for name, word in words.items()}
                self.assertEqual(Call("supercluster_entry", **state, **lent)(zoom=zoom, place=entry.place, **out), (0, entry.energy))
                found = [one.value for one in out.values()]
                self.assertEqual(found, [build.table_column(zoom, name)[entry.place] for name in words])

    def test_a_range_that_was_used_is_pickled(self):
        plan = DataRange(offset=1.0, scale=4.0)
        self.assertEqual(plan.normalize(2.0), 0.25)
        self.assertEqual(pickle.loads(pickle.dumps(plan)), plan)

    def test_zooms_used(self):
        given = options(min_zoom=2, max_zoom=4)
        self.assertEqual([given.zoom_used(zoom) for zoom in (0, 2, 3, 5, 6, 255)], [2, 2, 3, 5, 5, 5])
        self.assertRaises(ValueError, given.zoom_used, 256)

    def test_centres(self):
        build = worked()
        entry = build.table(0)[0]
        self.assertEqual(build.centre(entry), (entry.x, entry.y))
        self.assertEqual([longitude(x) for x in (0.0, 0.5, 1.0)], [-180.0, 0.0, 180.0])
        globe = Supercluster(options(range=None), [0.0], [0.5], [0])
        self.assertEqual(globe.centre(globe.table(0)[0]), (0.0, 0.0))


class Finding(unittest.TestCase):
    def run_with(self, variable):
        environment = {**os.environ, "PYTHONPATH": path("python"), "REACHVOLEM_LIB": variable}
        code = "import reachvolem; print(reachvolem.Index(1, [0.5], [0.5]).within(0.5, 0.5, 0.0))"
        return subprocess.run([sys.executable, "-c", code], env=environment, capture_output=True, text=True)

    def test_by_the_variable(self):
        made = library.candidates()[0]
        with tempfile.TemporaryDirectory() as folder:
            self.assertIn(f"not at {folder}/libreachvolem.so: correct REACHVOLEM_LIB", self.run_with(folder).stderr)
            shutil.copy(made, folder)
            for variable in (folder, os.path.join(folder, library.FILE)):
                self.assertEqual(self.run_with(variable).stdout, "[0]\n")
            with open(os.path.join(folder, "not.so"), "w") as file:
                file.write("no library")
            self.assertIn("cannot be used", self.run_with(os.path.join(folder, "not.so")).stderr)

    def test_in_the_repository(self):
        self.assertEqual([place.replace(ROOT, "") for place in library.candidates()],
                         ["/target/native/libreachvolem.so", "/dist/lib/libreachvolem.so", "/dist/libreachvolem.so"])
