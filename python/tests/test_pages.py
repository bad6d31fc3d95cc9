"""What pages and docstrings show runs, and answers what they say."""
import contextlib
import doctest
import importlib
import io
import pkgutil
import re
import unittest

import reachvolem

from .shared import lamps, path, text_of

HEADING = "## Use it from Python"


def load_tests(loader, tests, pattern):
    for module in pkgutil.iter_modules(reachvolem.__path__):
        tests.addTests(doctest.DocTestSuite(importlib.import_module(f"reachvolem.{module.name}")))
    return tests


class Snippet(unittest.TestCase):
    def test_the_snippet_of_each_page_that_has_one(self):
        pages = [page for page in (text_of("README.md"), text_of("python", "README.md")) if HEADING in page]
        self.assertTrue(pages)
        for page in pages:
            block = page.split(HEADING)[1].split("\n## ")[0]
            lines = [line[4:] for line in re.search(r"\n\n((?:    .*\n)+)", block)[1].splitlines()]
            self.assertLessEqual(len(lines), 12)
            printed = io.StringIO()
            with contextlib.redirect_stdout(printed):
                exec("\n".join(lines), {})
            said = [line.split("# ", 1)[1] for line in lines if "print(" in line]
            self.assertEqual(printed.getvalue().splitlines(), said)

    def test_the_owners_that_the_page_shows(self):
        """The first lines of `./lamps owners` of the town, under '## ./lamps'."""
        shown = re.search(r"((?:    [^.].*\n)+)", text_of("python", "README.md").split("prints, for each lamp,")[1])[1]
        lines = [line[4:] for line in shown.splitlines()]
        _, printed, _ = lamps("owners", path("examples", "town.csv"), "--zoom", "13")
        self.assertEqual(printed.splitlines()[:len(lines)], lines)
        self.assertGreater(len(lines), 2)
