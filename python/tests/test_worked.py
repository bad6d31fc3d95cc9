"""docs/SCOPE.md's worked example, by the module."""
import re
import unittest

from reachvolem import Refused, Supercluster

from .shared import lister_line, options, text_of, worked


def ids(entries):
    return [entry.id for entry in entries]


class Worked(unittest.TestCase):
    def setUp(self):
        self.build = worked()

    def refused(self, number, call, *words):
        with self.assertRaises(Refused) as caught:
            call(*words)
        self.assertEqual(caught.exception.number, number)

    def test_tables_are_the_lines_of_the_page(self):
        page = re.findall(r"^    (\d \d [0-9a-f]{16} .*)$", text_of("docs", "SCOPE.md"), re.M)
        self.assertEqual(len(page), 7)
        lines = [lister_line(zoom, entry) for zoom in self.build.zooms for entry in self.build.table(zoom)]
        self.assertEqual(lines, page)

    def test_children_and_expansion_zoom(self):
        self.assertEqual([entry.place for entry in self.build.get_children(5)], [0, 1])
        self.assertEqual(ids(self.build.get_children(5)), [6, 70])
        self.assertEqual(ids(self.build.get_children(70)), [2, 3])
        self.assertEqual([self.build.get_cluster_expansion_zoom(id_) for id_ in (5, 6)], [1, 2])

    def test_leaves(self):
        leaves = self.build.get_leaves
        self.assertEqual(leaves(5), [0, 1, 2, 3])
        self.assertEqual(leaves(5, 10, 0), [0, 1, 2, 3])
        self.assertEqual(leaves(5, 3, 1), [1, 2, 3])
        self.assertEqual([leaves(5, 0, 0), leaves(5, 0, 1)], [[], []])
        self.assertEqual([leaves(5, 3, 0), leaves(5, 3, 3), leaves(5, 3, 6)], [[0, 1, 2], [3], []])
        self.assertEqual([self.build.leaves_page(5, page, 3) for page in range(3)], [[0, 1, 2], [3], []])

    def test_ids_that_lead_to_no_cluster(self):
        for call in (self.build.get_children, self.build.get_leaves, self.build.get_cluster_expansion_zoom):
            for id_ in (3, 4, 134):
                self.refused(6, call, id_)
            self.refused(5, call, 7)

    def test_tile_and_tally(self):
        (item,) = self.build.get_tile(0, 0, 0)
        self.assertEqual((item.entry.place, item.x, item.y), (0, 176, 256))
        self.assertEqual(self.build.tally(0, 0, 0), 4)
        self.assertEqual(sum(self.build.tally(2, x, y) for x in range(4) for y in range(4)), 4)

    def test_options_at_their_bounds(self):
        self.assertEqual(worked(max_zoom=30).count, 4)
        self.refused(1, lambda: worked(max_zoom=31))
        self.refused(1, lambda: worked(node_size=0))
        build = worked(min_points=3)
        self.assertEqual([[(entry.id, entry.num) for entry in build.table(zoom)] for zoom in build.zooms],
                         [[(0, 1), (1, 1), (2, 1), (3, 1)]] * 3)

    def test_box_and_ring(self):
        self.assertEqual(ids(self.build.get_clusters((0.3, 0, 0.45, 1), 2)), [1, 2, 3])
        self.assertEqual(ids(self.build.ring(2, 0.40625, 0.5, 0.01)), [2, 3])

    def test_strips(self):
        for only, tiles in ((False, [(512, 256), (0, 256)]), (True, [(512, 256)])):
            alone = Supercluster(options(longitude_strips_only=only), [1.0], [0.5], [0])
            self.assertEqual([(item.x, item.y) for item in alone.get_tile(0, 0, 0)], tiles)
            if only:
                self.refused(8, alone.get_tile, 1, 0, 0)
            else:
                self.assertEqual([(item.x, item.y) for item in alone.get_tile(1, 0, 0)], [(0, 512)])

    def test_effort(self):
        lamps = Supercluster(options(range=None, node_size=1, radius=0.0), [-180.0, -170.0, 0.0, 170.0, 180.0], [0.5] * 5, [0] * 5)
        box = (-180.00000000000006, 0.0, -170.0, 1.0)
        for allowance, found in ((6, [2, 3, 4, 0, 1]), (7, [2, 3, 4, 0, 1, 0]), (8, [2, 3, 4, 0, 1, 0, 1])):
            effort = lamps.get_clusters_within_effort(box, 2, allowance)
            self.assertEqual((ids(effort.entries), effort.tested, effort.stopped), (found, allowance, allowance < 8))
        self.assertEqual(ids(lamps.get_clusters(box, 2)), [2, 3, 4, 0, 1, 0, 1])

    def test_owners(self):
        page = [[0, 1, 2, 3], [0, 0, 1, 1], [0, 0, 0, 0]]
        self.assertEqual([list(self.build.owners(zoom)) for zoom in (2, 1, 0)], page)
        self.assertEqual([[self.build.owner(lamp, zoom) for lamp in range(4)] for zoom in (2, 1, 0)], page)
        for zoom in (3, 255):
            self.assertEqual([self.build.owners(zoom).tolist(), [self.build.owner(lamp, zoom) for lamp in range(4)]], [page[0]] * 2)
        above = worked(min_zoom=1)
        for zoom in (0, 1):
            self.assertEqual([above.owners(zoom).tolist(), [above.owner(lamp, zoom) for lamp in range(4)]], [page[1]] * 2)
        self.refused(16, self.build.owner, 4, 0)
        self.assertEqual([self.build.zoom_used(zoom) for zoom in (0, 1, 2, 9)], [0, 1, 2, 2])

    def energies(self):
        return [self.build.table_column(zoom, "energy").tolist() for zoom in (2, 1, 0)]

    def test_posting(self):
        posted = [[10, 25, 30, 40], [35, 70], [105]]
        self.assertIsNone(self.build.post(1, 25))
        self.assertEqual(self.energies(), posted)
        for number, lamp, figure in ((16, 4, 25), (15, 1, 2**40 + 1), (16, 4, 2**40 + 1)):
            self.refused(number, self.build.post, lamp, figure)
            self.assertEqual(self.energies(), posted)
        for _ in range(2):
            self.build.post(1, 20)
            self.test_tables_are_the_lines_of_the_page()
        self.test_owners()
