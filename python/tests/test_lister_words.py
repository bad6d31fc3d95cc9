"""The words of ./lister beside its own refusals: those of the stored vectors, and of the proved program."""
import re
import shutil
import subprocess
import unittest

from reachvolem.lister_words import explained

from .shared import path, text_of

WORKED = text_of("crates", "lister", "stdin")
LAMPS = "./lamps takes up to 1,048,576 lamps, from a CSV file"
POINT = "x=1\ny=2\nwh=3\n"


def head(count, **changes):
    numbers = {**dict(min_zoom=0, max_zoom=1, min_points=2, radius=64, extent=512, node_size=64), **changes, "count": count}
    return "".join(f"{key}={value}\n" for key, value in numbers.items())


# By kind: the text, what is printed, and what is said on standard error.
KINDS = {
    "a CSV file": ("name,lng,lat,wh\nElm,8.5,47.3,1\n", "refusal=12",
                   "refused 12: line 1: min_zoom= was expected, and there is 'name,lng,lat,wh'; a CSV file is for ./lamps"),
    "no text": ("", "refusal=12", "refused 12: line 1: the text ends, and min_zoom= of the options was expected"),
    "a line too few": (WORKED.replace("wh=10\n", ""), "refusal=12", "refused 12: line 10: wh= was expected, and there is 'x=20480'"),
    "a point too few": (head(2) + POINT, "refusal=12",
                        "refused 12: line 11: the text ends, and x= of point 1, counted from 0, of 2 was expected"),
    "a point too many": (head(1) + POINT * 2, "refusal=12", "refused 12: line 11 is one too many: count=1 makes 10 lines"),
    "far too many": (head(1) + POINT * 6000, "refusal=12",
                     f"refused 12: line 11 is one too many: count=1 makes 10 lines; {LAMPS}"),
    "a decimal point": (WORKED.replace("x=16384", "x=0.25"), "refusal=12",
                        "refused 12: line 8: 'x=0.25': the character 4 is not a decimal digit"),
    "CR LF": (WORKED.replace("\n", "\r\n"), "refusal=12", "refused 12: line 1: it ends in CR LF: end each line in LF alone"),
    "no LF at the end": (WORKED[:-1], "refusal=12", "refused 12: line 19: its LF is missing at the end of the text"),
    "too many digits": (WORKED.replace("wh=10\n", "wh=12345678\n"), "refusal=12",
                        "refused 12: line 10: 'wh=12345678': 1 to 7 decimal digits are expected behind wh="),
    "count too large": (head(1153) + POINT * 1153, "refusal=12", f"refused 12: line 7: 'count=1153': count is at most 1,152; {LAMPS}"),
    "an option": (head(1, extent=0) + POINT, "refusal=1", "refused 1: extent is 0: it must be from 1 to 65,536"),
    "zooms": (head(1, min_zoom=3) + POINT, "refusal=1", "refused 1: min_zoom is 3, above max_zoom, 1"),
    "no points": (head(0), "refusal=2", "refused 2: line 7: count=0: at least one point is needed"),
    "outside": (WORKED.replace("y=32768\nwh=30", "y=65537\nwh=30"), "refusal=3 at=2",
                "refused 3 at=2: line 15: y=65537 of point 2, counted from 0, is above 65536, so that it lies outside the square"),
    "outside in x": (WORKED.replace("x=20480", "x=70000"), "refusal=3 at=1",
                     "refused 3 at=1: line 11: x=70000 of point 1, counted from 0, is above 65536, so that it lies outside the square"),
    "no room": (head(100, max_zoom=16) + POINT * 100, "refusal=4",
                "refused 4: the tables take (max_zoom - min_zoom + 2) * count = 18 * 100 = 1,800 entries, and there is room for 1,152: "
                f"up to 64 points fit with these zooms; 100 points fit with up to 10 zooms; {LAMPS}"),
}


def vectors():
    """The stored texts, and what is printed for each."""
    with open(path("crates", "replay_lister", "stdin"), "rb") as file:
        while sizes := file.readline():
            text, printed = (file.read(int(size, 16)) for size in sizes.split())
            yield text, printed.decode("ascii")


class Words(unittest.TestCase):
    def test_stored_vectors(self):
        kinds = set()
        for text, printed in vectors():
            refused = printed.strip() if printed.startswith("refusal=") else ""
            expected, why = explained(text)
            self.assertEqual(expected, refused, text[:200])
            self.assertEqual(bool(why), bool(refused))
            kinds.add(refused.split(" ")[0])
        self.assertEqual(kinds, {"", "refusal=1", "refusal=2", "refusal=3", "refusal=4", "refusal=12"})

    def test_words(self):
        for kind, (text, printed, said) in KINDS.items():
            with self.subTest(kind):
                refusal, why = explained(text.encode())
                self.assertEqual((refusal, "refused " + refusal[8:] + ": " + why), (printed, said))

    def test_the_page_says_how_many_fit(self):
        lines = text_of("python", "README.md").split("## How many lamps fit the lister")[1].splitlines()
        zooms, lamps = ([int(number) for number in re.findall(r"\| (\d+)", line)] for line in lines if re.match(r"\| (zooms|lamps)", line))
        self.assertEqual(len(zooms), 6)
        for zoom, most in zip(zooms, lamps):
            fits, refused = (explained((head(count, max_zoom=zoom - 1) + POINT * count).encode())[0] for count in (most, most + 1))
            self.assertEqual((fits, refused), ("", "refusal=4"))


@unittest.skipIf(shutil.which("rt") is None, "rt is not installed")
class Lister(unittest.TestCase):
    def lister(self, text):
        ran = subprocess.run([path("lister")], input=text.encode(), capture_output=True)
        return ran.returncode, ran.stdout.decode(), ran.stderr.decode()

    def test_refusals_of_the_program(self):
        for kind, (text, printed, said) in KINDS.items():
            with self.subTest(kind):
                self.assertEqual(self.lister(text), (1, printed + "\n", f"lister: {said}\n"))

    def test_tables_of_the_program(self):
        self.assertEqual(self.lister(WORKED), (0, text_of("crates", "lister", "stdout"), ""))
