#!/usr/bin/env python3
"""The page of banks.py on a small table:  python3 tools/specimen/test_banks.py"""
import html.parser
import os
import shutil
import subprocess
import sys
import tempfile
import unittest

sys.dont_write_bytecode = True
import banks as b
import specimen

HERE = os.path.dirname(os.path.abspath(__file__))
DIGITS = os.path.join(HERE, "..", "..", "examples", "digits.pfb")

# A glyph's name may have all of these; < and > end a name, but a label may ask for them.
ODD = "a&b\"c'~\xe9,"
COLUMNS = "font bank prints failing which short default nominal glyph_bytes subroutine_bytes notes window".split()


def encrypt(plain, key):
    out = bytearray()
    for p in plain:
        out.append(p ^ (key >> 8))
        key = ((out[-1] + key) * 52845 + 22719) & 0xFFFF
    return bytes(out)


def odd_font():
    """A font of two glyphs that are not encrypted: a square, and an unknown operator after a line. The first is
    there twice; the second has a byte in its name that the program prints as a question mark."""
    square = bytes.fromhex("8B F8 88 0D EF EF 15 EF 06 EF 07 27 06 09 0E")
    halted = bytes.fromhex("8B F8 88 0D EF EF 15 EF 06 02")
    private = b"0000/lenIV -1 def /CharStrings 2 dict dup begin\n"
    for name, code in ((ODD, b"\x0e"), ("halt\x01ed", halted), (ODD, square)):
        private += b"/%s %d RD %s ND\n" % (name.encode("latin-1"), len(code), code)
    return b"%!PS\n/FontName /Odd def\ncurrentfile eexec\n" + encrypt(private + b"end\n", 55665)


def write_sample(folder):
    """Fonts, a table of them and what was said, in this folder; the table's rows as lists, `which` as a list of its parts."""
    paths = [os.path.join(folder, name) for name in ("digits.pfb", "odd & <i>\"'\xe9.pfa", "broken.pfb", "gone.pfb")]
    shutil.copy(DIGITS, paths[0])
    with open(paths[1], "wb") as f:
        f.write(odd_font())
    with open(paths[2], "wb") as f:
        f.write(b"no font")
    widths = ["480", "347", "996", "117"]
    rows = [
        [paths[0], "small", "no", "6", ["eight 18", "accent 12", "space 18", "nine crossing", "aring missing", "<script> missing"],
         "output 128 < 203"] + widths + ["-", "-"],
        [paths[0], "large & <wide>", "yes", "0", [], "-"] + widths + ["-", "16 < 32"],
        [paths[1], "small", "no", "2", [ODD + " 17", "halt?ed 6"], "commands 1 < 5", "500", "500", "-", "6", "<b>bold</b>", "-"],
        [paths[1], "large & <wide>", "no", "2", [ODD + " outside", "halt?ed 6"], "-", "500", "500", "14", "6", "-", "-"],
        [paths[2], "small", "unreadable", "-", []] + ["-"] * 7,
        [paths[2], "large & <wide>", "unreadable", "-", []] + ["-"] * 7,
        [paths[3], "small", "no", "1", ["one 18"], "output 1 < 38"] + widths + ["-", "-"],
        [paths[3], "large & <wide>", "yes", "0", [], "-"] + widths + ["-", "-"],
    ]
    # Paths are the system's bytes, names of glyphs the font's.
    lines = [[os.fsencode(r[0])] + [c.encode("latin-1") for c in r[1:4] + [", ".join(r[4]) or "-"] + r[5:]] for r in rows]
    files = [os.path.join(folder, name) for name in ("rows.tsv", "messages.txt", "banks.tsv", "label.txt")]
    with open(files[0], "wb") as f:
        f.write(b"\n".join(b"\t".join(line) for line in [[c.encode() for c in COLUMNS]] + lines) + b"\n")
    with open(files[1], "wb") as f:
        f.write(os.fsencode(paths[2]) + b": no eexec up to the end, at byte 7 & more\n")
        f.write(b"cribstork: fonts 4, banks 2, yes 2, no 4, unreadable 2\n")
    with open(files[2], "w") as f:
        f.write("# banks\nname\tstems\tcommands\toutput\ta\tb\tc\td\ttx\tty\tx0\ty0\tx1\ty1\tstrict\n\n"
                "small\t7\t20\t128\t0.5\t0\t0\t0.5\t0\t0\t-0.5\t-5\t240\t350\tyes # half\n"
                "large & <wide>\t64\t256\t1024\t1\t0\t0\t1\t0\t0\t-\t-\t-\t-\t-\n")
    with open(files[3], "w") as f:
        f.write("space one\n eight\taccent aring <script> one\n")
    return files, rows


class Tree(html.parser.HTMLParser):
    """The page's elements, each with its text; a tag that is not closed is an error."""

    EMPTY = {"meta", "input", "br", "path"}

    def __init__(self, text):
        super().__init__()
        self.stack, self.all = [], []
        self.feed(text)
        self.close()
        assert not self.stack, self.stack

    def handle_starttag(self, tag, attrs):
        e = {"tag": tag, "text": "", "in": list(self.stack), **dict(attrs)}
        self.all.append(e)
        if tag not in self.EMPTY:
            self.stack.append(e)

    def handle_startendtag(self, tag, attrs):
        self.all.append({"tag": tag, "text": "", "in": list(self.stack), **dict(attrs)})

    def handle_endtag(self, tag):
        assert self.stack.pop()["tag"] == tag, tag

    def handle_data(self, data):
        for e in self.stack:
            e["text"] += data

    def with_id(self, name):
        found = [e for e in self.all if e.get("id") == name]
        assert len(found) == 1, (name, len(found))
        return found[0]

    def within(self, e, tag):
        return [x for x in self.all if x["tag"] == tag and e in x["in"]]


def run(*arguments):
    return subprocess.run([sys.executable, os.path.join(HERE, "banks.py"), *arguments], stdout=subprocess.PIPE, stderr=subprocess.PIPE)


class Page(unittest.TestCase):
    @classmethod
    def setUpClass(cls):
        cls.folder = tempfile.TemporaryDirectory()
        cls.files, cls.rows = write_sample(cls.folder.name)
        table, messages, banks, label = cls.files
        made = run("--table", table, "--messages", messages, "--banks", banks, "--need", label)
        cls.text = made.stdout.decode("utf-8")
        cls.tree = Tree(cls.text)

    @classmethod
    def tearDownClass(cls):
        cls.folder.cleanup()

    def test_a_program_that_prints_the_table(self):
        table, messages, banks, label = self.files
        program = os.path.join(self.folder.name, "program")
        with open(program, "w") as f:
            f.write("#!/bin/sh\n[ \"$*\" = '--banks %s --need %s a.pfb b.pfb' ] && cat %s && cat %s >&2\nexit 1\n"
                    % (banks, label, table, messages))
        os.chmod(program, 0o755)
        made = run("--cribstork", program, "--banks", banks, "--need", label, "a.pfb", "b.pfb")
        self.assertEqual((made.returncode, made.stdout.decode("utf-8")), (0, self.text))
        with open(messages, "rb") as f:
            self.assertEqual(made.stderr, f.read())

    def test_totals_that_differ(self):
        wrong = os.path.join(self.folder.name, "wrong.txt")
        with open(wrong, "w") as f:
            f.write("cribstork: fonts 4, banks 2, yes 3, no 3, unreadable 2\n")
        made = run("--table", self.files[0], "--messages", wrong)
        self.assertEqual((made.returncode, made.stdout), (2, b""))
        self.assertIn(b"the totals differ from the rows", made.stderr)

    def facts(self, n, m):
        return self.tree.with_id("facts-%d-%d" % (n, m))

    def test_cells_have_class_word_and_count(self):
        for i, row in enumerate(self.rows):
            e = self.tree.with_id("cell-%d-%d" % (i // 2 + 1, i % 2 + 1))
            self.assertEqual(e["class"], "cell " + row[2])
            said = self.tree.within(e, "button")[0]["text"]
            self.assertEqual(said, row[2] + (" not read" if row[3] == "-" else " %s failing" % row[3]))

    def test_totals_and_heads(self):
        self.assertEqual(self.tree.with_id("totals")["text"], "4 fonts, 2 banks: 2 yes, 4 no, 2 unreadable.")
        heads = [e["text"] for e in self.tree.all if e.get("scope") == "col"]
        self.assertEqual(heads[1:], ["smallprints 0 of 4stems 7commands 20output 128matrix 0.5 0 0 0.5 0 0window -0.5 -5 240 350strict yes",
                                     "large & <wide>prints 2 of 4stems 64commands 256output 1024"])
        self.assertIn("The label needs 6 glyphs.", self.text)

    def test_facts(self):
        text = self.facts(1, 1)["text"]
        for part in ("digits.pfb at small: no", "18 output short", "12 seac", "crossing the bank's windownine", "missing: the font has no such glyph", "aring <script>",
                     "short ofoutput 128 < 203", "default width480", "nominal width347", "glyph bytes996", "subroutine bytes117"):
            self.assertIn(part, text)
        self.assertIn("All 6 needed glyphs print.", self.facts(1, 2)["text"])
        self.assertIn("window16 < 32", self.facts(1, 2)["text"])
        self.assertIn("notes<b>bold</b>", self.facts(2, 1)["text"])
        self.assertIn("no eexec up to the end, at byte 7 & more", self.facts(3, 1)["text"])

    def test_each_failing_glyph_links_to_its_drawing(self):
        for i, row in enumerate(self.rows):
            e = self.facts(i // 2 + 1, i % 2 + 1)
            links = [x for x in self.tree.within(e, "a") if x["class"] == "glyph"]
            names = [part.rsplit(" ", 1)[0] for part in row[4] if not part.endswith(" missing")]
            self.assertEqual(sorted(x["text"] for x in links), sorted(names))
            for x in links:
                self.assertEqual(self.tree.with_id(x["href"][1:])["tag"], "figure")

    def drawing(self, name):
        e = self.tree.with_id(name)
        return e["text"], [x["d"] for x in self.tree.within(e, "path") if x["class"] == "t1"]

    def test_drawings(self):
        text, paths = self.drawing("font-1-glyph-eight")
        self.assertIn("18 output short, at small", text)
        self.assertTrue(len(paths) == 1 and len(paths[0]) > 200)
        text, paths = self.drawing("font-2-glyph-" + "a~26b~22c~27~7E~E9~2C")
        self.assertIn("17 command store full, at smalloutside the bank's window, at large & <wide>", text)
        self.assertEqual(paths, ["M100 100L200 100L200 200L100 200Z"])
        text, paths = self.drawing("font-1-glyph-nine")
        self.assertIn("crossing the bank's window, at small", text)
        self.assertTrue(len(paths) == 1 and len(paths[0]) > 200)
        text, paths = self.drawing("font-2-glyph-halt~3Fed")
        self.assertIn("6 unknown operator, at small, large & <wide>Drawn as far as its run goes.", text)
        self.assertEqual(paths, ["M100 100L200 100Z"])
        text, paths = self.drawing("font-1-glyph-accent")
        self.assertIn("12 seac, at smallRefused before anything is drawn.", text)
        self.assertEqual(paths, [])
        self.assertIn("The glyph is empty.", self.drawing("font-1-glyph-space")[0])
        self.assertIn("No drawing: the file cannot be read", self.drawing("font-4-glyph-one")[0])
        self.assertEqual(len([e for e in self.tree.all if e["tag"] == "figure"]), 7)

    def test_every_link_has_its_place(self):
        ids = [e["id"] for e in self.tree.all if "id" in e]
        self.assertEqual(len(ids), len(set(ids)))
        for e in self.tree.all:
            if e["tag"] == "a":
                self.assertIn(e["href"][1:], ids)
        for part in ("src=", "http:", "https:", "url("):
            self.assertNotIn(part, self.text)

    def test_numbers_say_what_to_do(self):
        dts = [e["text"] for e in self.tree.all if e["tag"] == "dt" and e.get("id")]
        self.assertEqual([t.split(":")[0] for t in dts], ["6", "12", "17", "18"])
        self.assertIn("Board: lend more bytes", self.text)


class Words(unittest.TestCase):
    def test_same_numbers_as_the_document(self):
        with open(b.REFUSALS, encoding="utf-8") as f:
            self.assertEqual(sorted(b.read_refusals(f.read())), sorted(specimen.MEANINGS))


class Table(unittest.TestCase):
    HEAD = "bank\tprints\tfailing\twhich\tfont\n"

    def test_columns_by_name(self):
        _, rows = b.read_rows(self.HEAD + "s\tno\t4\ta, 12, b missing, c crossing, d outside\tx.pfb\n")
        self.assertEqual((rows[0].font, rows[0].failing), ("x.pfb", [("a,", 12), ("b", None), ("c", "crossing"), ("d", "outside")]))

    def test_a_font_given_twice(self):
        _, rows = b.read_rows(self.HEAD + "s\tyes\t0\t-\tx\nt\tyes\t0\t-\tx\n" * 2)
        fonts, banks = b.by_font(rows)
        self.assertEqual((len(fonts), banks, b.sums_of(fonts, banks)), (2, ["s", "t"], [2, 2, 4, 0, 0]))

    def test_tables_that_are_refused(self):
        for text in ("", "font\tbank\n", self.HEAD, self.HEAD + "s\tyes\n", self.HEAD + "s\tmaybe\t0\t-\tx\n",
                     self.HEAD + "s\tno\t2\ta 12\tx\n", self.HEAD + "s\tno\t1\ta\tx\n", self.HEAD + "s\tno\t1\ta within\tx\n", self.HEAD + "s\tno\tmany\ta 12\tx\n"):
            with self.assertRaises(b.BadTable, msg=text):
                b.read_rows(text)

    def test_what_a_bank_says_of_the_strict_reading(self):
        said = b.read_banks("strict\tname\tstems\nno\ts\t1\n\tt\t2\nyes\tu\t3\n")
        self.assertEqual(said, {"s": ["stems 1", "strict no"], "t": ["stems 2"], "u": ["stems 3", "strict yes"]})

    def test_two_banks_of_one_name(self):
        with self.assertRaises(b.BadTable):
            b.read_banks("name\tstems\ns\t1\ns\t2\n")


if __name__ == "__main__":
    unittest.main()
