"""Bad input to ./lamps, a kind at a time: the exit status, and the whole message, as a person reads it."""
import os
import subprocess
import tempfile
import unittest

from .shared import lamps, path

HEAD = b"name,lng,lat,wh\n"
TWO = HEAD + b"Elm 1,8.5,47.3,100\nElm 2,8.6,47.4,200\n"
PLAN = b"name,x,y,wh\nA,1,2,3\nB,4,5,6\n"
OWN = "lamps: the range is the file's own: --range "
HEADER = "the first line must be a header such as name,lng,lat,wh"

# Of the file: what it has, the exit status, and what is said.
FILES = {
    "empty file": (b"", 2, f"the input is empty: {HEADER}"),
    "blank lines alone": (b"\n\n \r\n", 2, f"the input is empty: {HEADER}"),
    "no header": (b"8.5,47.3,100\n", 2, f"line 1: no column is named x, y, lng or lat: {HEADER}"),
    "missing column": (b"name,lng,wh\na,1,2\n", 2,
                       "line 1: the column lat is missing: the header must have x,y or lng,lat, such as name,lng,lat,wh"),
    "both systems": (b"x,y,lng,lat\n1,2,3,4\n", 2,
                     "line 1: the header has columns of x,y and of lng,lat: keep x,y for a plan or lng,lat for a map"),
    "half of each": (b"x,lat\n1,2\n", 2,
                     "line 1: the header has columns of x,y and of lng,lat: keep x,y for a plan or lng,lat for a map"),
    "duplicate names": (b"lng,LNG,lat\n1,2,3\n", 2, "line 1: the header has 2 columns lng: keep one"),
    "a header in the third line": (b"\n\nlng,wh\n1,2\n", 2,
                                   "line 3: the column lat is missing: the header must have x,y or lng,lat, such as name,lng,lat,wh"),
    "semicolons": (b"lng;lat;wh\n1;2;3\n", 2, "line 1: the columns are separated by ';': separate them by commas"),
    "short row": (TWO + b"Elm,8.5\n", 2, "line 4: there are 2 fields where the header has 4"),
    "long row": (TWO + b"Elm St, 4,8.5,47.3,100\n", 2,
                 "line 4: there are 5 fields where the header has 4: is a comma in a name not quoted?"),
    "short row behind a name of two lines": (HEAD + b'"A\nB",8.5,47.3,1\nElm,1\n', 2, "line 4: there are 2 fields where the header has 4"),
    "text for a number": (HEAD + b"Elm,east,47.3,1\n", 2, "line 2: lng is 'east': a finite decimal number is needed"),
    "no number": (HEAD + b"Elm,,47.3,1\n", 2, "line 2: lng is empty: a number is needed"),
    "nan": (HEAD + b"Elm,nan,47.3,1\n", 2, "line 2: lng is 'nan': a finite decimal number is needed"),
    "inf": (HEAD + b"Elm,8.5,-inf,1\n", 2, "line 2: lat is '-inf': a finite decimal number is needed"),
    "1e400": (HEAD + b"Elm,1e400,47.3,1\n", 2, "line 2: lng is '1e400': that is too large for a number"),
    "underscore": (HEAD + b"Elm,8_5,47.3,1\n", 2, "line 2: lng is '8_5': a finite decimal number is needed"),
    "other digits": (HEAD + "Elm,\uff18,47.3,1\n".encode(), 2, "line 2: lng is '\uff18': a finite decimal number is needed"),
    "decimal comma": (HEAD + b'Elm,8.5,"47,3",1\n', 2, "line 2: lat is '47,3': write it with a decimal point"),
    "negative wh": (TWO + b"Elm,8.5,47.3,-5\n", 2, "line 4: wh is '-5': it must be 0 or more"),
    "no wh": (HEAD + b"Elm,8.5,47.3,\n", 2, "line 2: wh is empty: write 0 where no energy is known"),
    "wh with a point": (HEAD + b"Elm,8.5,47.3,12.5\n", 2, "line 2: wh is '12.5': whole watt-hours are needed, in digits alone"),
    "wh over 2^40": (TWO + b"Elm 3,8.5,47.3,1099511627777\n", 1,
                     "refused 15 (energy): lamp 2 'Elm 3' (line 4 of the file) brings more than 1,099,511,627,776 watt-hours (2^40): "
                     "correct its wh"),
    "wh over 2^64": (TWO + b"Elm 3,8.5,47.3,99999999999999999999999\n", 1,
                     "refused 15 (energy): lamp 2 'Elm 3' (line 4 of the file) brings more than 1,099,511,627,776 watt-hours (2^40): "
                     "correct its wh"),
    "wh with an exponent": (HEAD + b"Elm,8.5,47.3,1e3\n", 2, "line 2: wh is '1e3': whole watt-hours are needed, in digits alone"),
    "zero lamps": (HEAD, 1, "refused 2 (count): the file has a header and no lamps"),
    "too many lamps": (b"x,y,wh\n" + b"0,1,0\n" * 1_048_577, 1, "refused 2 (count): the file has more than 1,048,576 lamps: split it"),
    "lat above 90": (HEAD + b"Pole,8.5,90.5,1\n", 2, "line 2: lat is '90.5': a latitude is from -90 to 90 (are lng and lat exchanged?)"),
    "lng out of range": (TWO + b'"Far, away",200,47,1\n', 1,
                         "refused 3 (point): lamp 2 'Far, away' (line 4 of the file) lies outside the map, at lng 200.0, lat 47.0: "
                         "a longitude is from -180 to 180"),
    "quote not closed": (TWO + b'"Elm,8.5,47.3,100\nElm,8.5,47.3,1\n', 2, "line 4: a quote is opened and not closed"),
    "quote not closed in a long file": (TWO + b'"Elm,8.5,47.3,100\n' + b"Elm,8.5,47.3,1\n" * 10_000, 2,
                                        "line 4: a quote is opened and not closed"),
    "text behind a quote": (HEAD + b'"Elm"s,8.5,47.3,1\n', 2,
                            "line 2: a quoted field goes on behind its closing quote: write a quote within it twice "
                            "(',' expected after '\"')"),
    "NUL byte": (TWO + b"El\0m,8.5,47.3,1\n", 2, "line 4: there is a NUL byte, so this is no text: save it as CSV in UTF-8"),
    "Latin-1": (TWO + b"Stra\xdfe,8.5,47.3,1\n", 2, "line 4: the byte 0xdf is not UTF-8: save the file as UTF-8 (it may be in Latin-1)"),
    "UTF-16": (TWO.decode().encode("utf-16"), 2, "the file is in UTF-16: save it as UTF-8"),
}

# Of the words: the words, the file, the exit status, and what is said.
WORDS = {
    "unknown flag": ("owners --zoom 3 --colour red", TWO, 2, "'--colour' is not understood: ./lamps owners --help lists what is"),
    "two files": ("tables a.csv b.csv", b"", 2, "'b.csv' is not understood: ./lamps tables --help lists what is"),
    "zoom far too large": ("owners --zoom 300", TWO, 2, "--zoom is 300: it must be from 0 to 255"),
    "zoom below 0": ("box 0 0 1 1 --zoom -1", TWO, 2, "--zoom is -1: it must be from 0 to 255"),
    "tiles of no zoom": ("tally --zoom 40", TWO, 1, "refused 7 (tile): there are no tiles of zoom 40: they go up to 31"),
    "min_zoom above max_zoom": ("tables --min-zoom 5 --max-zoom 3", TWO, 1, "refused 1 (options): min_zoom is 5, above max_zoom, 3"),
    "max_zoom 31": ("tables --max-zoom 31", TWO, 1, "refused 1 (options): max_zoom is 31: it must be a whole number from 0 to 30"),
    "max_zoom 300": ("tables --max-zoom 300", TWO, 1, "refused 1 (options): max_zoom is 300: it must be a whole number from 0 to 30"),
    "radius nan": ("tables --radius nan", TWO, 1, "refused 1 (options): radius is nan: it must be from 0 to 65,536"),
    "node_size 0": ("tables --node-size 0", TWO, 1, "refused 1 (options): node_size is 0: it must be a whole number from 1 to 65,535"),
    "unknown id": ("leaves 99999", TWO, 1,
                   "refused 5 (no tree): no cluster has the id 99999 with these options: ./lamps tables lists the ids that there are"),
    "an id too large": ("children 99999999999", TWO, 2, "ID is 99999999999: an id is from 0 to 4,294,967,295"),
    "a lamp's id": ("leaves 1", TWO, 1, "refused 6 (no cluster): 1 is the id of a lamp, 'Elm 2'; those of clusters begin at 2"),
    "a nameless lamp's id": ("children 0", b"lng,lat,wh\n1,1,1\n", 1,
                             "refused 6 (no cluster): 0 is the id of a lamp, not of a cluster; those of clusters begin at 1"),
    "page alone": ("leaves 2 --page 1", TWO, 2, "--page and --size go together: give both, or neither for all lamps"),
    "page below 0": ("leaves 2 --page -1 --size 5", TWO, 2, "--page is -1 and --size 5: a page is 0 or more, a size 1 or more, both small"),
    "tile out of range": ("tile 2 4 0", TWO, 1, "refused 7 (tile): there is no tile 2/4/0: z is from 0 to 31, x and y from 0 to 2^z - 1"),
    "tile below 0": ("tile 3 -1 0", TWO, 1, "refused 7 (tile): there is no tile 3/-1/0: z is from 0 to 31, x and y from 0 to 2^z - 1"),
    "empty tile": ("tile 3 0 0", TWO, 1,
                   "refused 8 (empty tile): tile 3/0/0 has no entries: ./lamps tally --zoom 3 lists the tiles that have"),
    "box not finite": ("box nan 0 1 1 --zoom 3", TWO, 1,
                       "refused 9 (box): a corner of the box is not finite: give four plain numbers, W S E N"),
    "box of 1e400": ("box 0 1e400 1 1 --zoom 3", TWO, 1,
                     "refused 9 (box): a corner of the box is not finite: give four plain numbers, W S E N"),
    "box upside down": ("box 0 50 1 40 --zoom 3", TWO, 2, "the box has S 50.0 above N 40.0: give W S E N, the lesser lat first"),
    "range on a map": ("tables --range 0 0 1 1", TWO, 2, "--range, --offset and --scale are for a plan: the file has lng,lat"),
    "range too small": ("tables --range 0 0 3 3", PLAN, 1,
                        "refused 3 (point): lamp 1 'B' (line 3 of the file) lies outside the map, at x 4.0, y 5.0: widen --range"),
    "zooms in letters": ("draw --zooms a,b", TWO, 2, "--zooms is 'a,b': write zooms with commas between, such as 17,14,11"),
    "a zoom that is not drawn": ("draw --zooms 40", TWO, 2, "--zooms: zoom 40 has no table; they go from 0 to 17"),
    "a map upside down": ("draw --y-up", TWO, 2, "--y-up is for a plan: on a map north is up already"),
    "no such file": ("tables /no/such.csv", b"", 2, "/no/such.csv cannot be read: No such file or directory"),
    "a folder": ("tables /", b"", 2, "/ cannot be read: Is a directory"),
    "a file that even root cannot read": ("tables /proc/self/mem", b"", 2, "/proc/self/mem cannot be read: Input/output error"),
}


class BadInput(unittest.TestCase):
    maxDiff = None

    def test_files(self):
        for kind, (given, status, said) in FILES.items():
            with self.subTest(kind):
                if kind == "too many lamps":
                    said = OWN + "0.0 1.0 0.0 1.0\nlamps: " + said
                    self.assertEqual(lamps("check", given=given), (status, "", said + "\n"))
                else:
                    self.assertEqual(lamps("check", given=given), (status, "", f"lamps: {said}\n"))

    def test_words(self):
        for kind, (words, given, status, said) in WORDS.items():
            with self.subTest(kind):
                self.assertEqual(lamps(*words.split(), given=given), (status, "", f"lamps: {said}\n"))

    def test_words_that_argparse_refuses(self):
        for words, said in (
            ("owners", "lamps owners: error: the following arguments are required: --zoom\n"),
            ("owners --zoom x", "lamps owners: error: argument --zoom: invalid int value: 'x'\n"),
            ("gather", "lamps: error: argument COMMAND: invalid choice: 'gather' (choose from "),
            ("", "lamps: error: the following arguments are required: COMMAND\n"),
        ):
            status, out, err = lamps(*words.split(), given=TWO)
            self.assertEqual((status, out), (2, ""))
            self.assertIn(said, err)
            self.assertTrue(err.startswith("usage: lamps"))

    def test_notes_with_an_answer(self):
        """What is not wrong, and yet is said."""
        for words, given, said in (
            ("owners --zoom 40", TWO, "lamps: zoom 40 has no table, these go from 0 to 17: table 17 answers\n"),
            ("check", HEAD + b"Pole,8.5,90,1\n", "lamps: 1 of the lamps, beyond latitude 85.0512: put at the edge of the map\n"),
            ("check", b"lng,lat,pole,height\n1,2,3,4\n",
             "lamps: not used: columns pole, height\nlamps: there is no column wh: each lamp brings 0 watt-hours\n"),
            ("check", b"lng,lat,wh,\n1,2,3,\n", "lamps: not used: column (without a name)\n"),
            ("check", PLAN, OWN + "1.0 2.0 4.0 5.0\n"),
            ("check", b"\xef\xbb\xbf" + TWO, ""),
            ("check", TWO.replace(b"\n", b"\r\n"), ""),
            ("check", TWO.rstrip(b"\n"), ""),
            ("box -1e2 -80 1e2 80 --zoom 3", TWO, ""),
        ):
            status, out, err = lamps(*words.split(), given=given)
            self.assertEqual((status, err), (0, said))
            self.assertTrue(out)

    def test_a_plan_of_one_place(self):
        said = ("lamps: refused 1 (options): the range has offset 5.0 and scale 0.0: its scale must be finite and above 0: "
                "give --range, or --offset and --scale\n")
        self.assertEqual(lamps("tables", given=b"x,y,wh\n5,5,1\n"), (1, "", OWN + "5.0 5.0 5.0 5.0\n" + said))

    @unittest.skipIf(os.geteuid() == 0, "root reads every file")
    def test_an_unreadable_file(self):
        with tempfile.NamedTemporaryFile() as file:
            os.chmod(file.name, 0)
            self.assertEqual(lamps("tables", file.name), (2, "", f"lamps: {file.name} cannot be read: Permission denied\n"))

    def test_no_library(self):
        environment = {**os.environ, "REACHVOLEM_LIB": "/nowhere"}
        said = "lamps: the compiled library is not at /nowhere: correct REACHVOLEM_LIB\n"
        self.assertEqual(lamps("check", given=TWO, environment=environment), (2, "", said))

    def test_from_another_folder(self):
        file = os.path.relpath(path("examples", "town.csv"), "/tmp")
        ran = subprocess.run([path("lamps"), "check", file], cwd="/tmp", capture_output=True)
        self.assertEqual(ran.returncode, 0)
