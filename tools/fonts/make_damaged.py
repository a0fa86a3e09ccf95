#!/usr/bin/env python3
"""Writes the small files that the gate tries the font reader on: faults of a font, and files that are no font.

    python3 tools/fonts/make_damaged.py FOLDER            writes them into FOLDER
    python3 tools/fonts/make_damaged.py FOLDER --check    compares FOLDER with what would be written
    python3 tools/fonts/make_damaged.py --list            prints each file, what is expected of it, and where its fault is
    python3 tools/fonts/make_damaged.py --try BINARY      tries that the program does what is expected of each

They are made from the example font (examples/make_digits.py), most of them with five of its glyphs: `.notdef`, `space`,
`one`, `seven` (a flex) and `nine` (subroutines that call). Nothing is random. Of each file is said what is expected:

    read         every glyph is read, and nothing is to be said of the file
    note         every glyph is read, and the report says what the note is about
    unreadable   one line says what is wrong and at which byte
    no font      one line says what the file looks like

The byte is that of the file, counted from 0: where the token, the entry or the number at fault begins, or where the file ends.
A missing file, a directory and a file without permission cannot be kept in a folder of files; the gate names them itself.
"""
import os
import re
import struct
import subprocess
import sys
import tempfile
import zlib

HERE = os.path.dirname(os.path.abspath(__file__))
sys.path.insert(0, os.path.join(HERE, "..", "..", "examples"))
import make_digits as digits  # noqa: E402

NAMES = (".notdef", "space", "one", "seven", "nine")
GLYPHS = [(name, text) for name, text in digits.GLYPHS if name in NAMES]
CLEAR = digits.clear_text("0.001 0 0 0.001 0 0")
LEAD = 4
READ, NOTE, UNREADABLE, NO_FONT = "read", "note", "unreadable", "no font"


def charstring(text, len_iv):
    """The bytes of a charstring; they are not encrypted where lenIV is negative."""
    plain = digits.code(text)
    return plain if len_iv < 0 else digits.encrypt(plain, 4330, bytes(len_iv))


def private(len_iv=None, before="", glyphs=GLYPHS, declared=None, subroutines=digits.SUBROUTINES, places=None):
    """The text of the private part. `before` stands before the subroutines, `declared` and `places` are the counts that are said."""
    said = "" if len_iv is None else f"/lenIV {len_iv} def\n"
    n = 4 if len_iv is None else len_iv
    # A lenIV that no charstring can have: the charstrings are as they were.
    n = 4 if n > 100 else n
    out = (
        "dup /Private 9 dict dup begin\n/RD {string currentfile exch readstring pop} executeonly def\n"
        "/ND {noaccess def} executeonly def\n/NP {noaccess put} executeonly def\n/BlueValues [-10 0 700 710] def\n"
        f"/MinFeature {{16 16}} def\n/password 5839 def\n{said}{before}"
        f"/Subrs {len(subroutines) if places is None else places} array\n"
    ).encode()
    for i, text in enumerate(subroutines):
        body = charstring(text, n)
        out += f"dup {i} {len(body)} RD ".encode() + body + b" NP\n"
    out += b"ND\n" + f"2 index /CharStrings {len(glyphs) if declared is None else declared} dict dup begin\n".encode()
    for name, text in glyphs:
        body = charstring(text, n)
        out += f"/{name} {len(body)} RD ".encode() + body + b" ND\n"
    return out + b"end\nend\nreadonly put\nnoaccess put\ndup /FontName get exch definefont pop\nmark currentfile closefile\n"


def in_pfb(clear, at):
    """The byte of a PFB file where byte `at` of the decrypted text stands."""
    return 6 + len(clear) + 6 + LEAD + at


def in_pfa(clear, at):
    digit = 2 * (LEAD + at)
    return len(clear) + digit + digit // 64


def pfb(text, clear=CLEAR):
    return digits.pfb(clear, digits.eexec(text))


def replaced(text, old, new):
    assert text.count(old) == 1, old
    return text.replace(old, new)


def entry(name, glyphs=GLYPHS, len_iv=4):
    """The bytes of a glyph's entry, and its head up to the bytes of the charstring."""
    body = charstring(dict(glyphs)[name], len_iv)
    head = f"/{name} {len(body)} RD ".encode()
    return head + body + b" ND\n", head


def body_entry(number):
    body = charstring(digits.SUBROUTINES[number], 4)
    head = f"dup {number} {len(body)} RD ".encode()
    return head + body + b" NP\n", head


class Cases:
    """The files by name: what is expected, the byte of the fault or None, and the file's bytes."""

    def __init__(self):
        self.files = {}

    def add(self, name, expected, about, at, data):
        assert name not in self.files, name
        self.files[name] = (expected, about, at, data)

    def text(self, name, expected, about, text, fault=None, clear=CLEAR):
        """A font with this private text; `fault` stands at the fault, once."""
        at = None
        if fault is not None:
            assert text.count(fault) == 1, (name, fault)
            at = in_pfb(clear, text.index(fault))
        self.add(name, expected, about, at, pfb(text, clear))

    def clear(self, name, expected, about, clear, fault=None):
        at = None
        if fault is not None:
            assert clear.count(fault) == 1, (name, fault)
            at = 6 + clear.index(fault)
        self.add(name, expected, about, at, pfb(private(), clear))


def kept_cases(c):
    """The files that make_digits.py makes, under the names that they have."""
    font = digits.files()
    about = {
        "cut.pfb": (UNREADABLE, "a PFB segment runs past the end of the file"),
        "cut.pfa": (UNREADABLE, "a charstring runs past the end"),
        "short.pfa": (UNREADABLE, "a charstring runs past the end"),
        "segment.pfb": (UNREADABLE, "a PFB segment runs past the end of the file"),
        "mark.pfb": (UNREADABLE, "no PFB segment"),
        "clear.pfa": (UNREADABLE, "no eexec"),
        "none.pfb": (UNREADABLE, "no CharStrings"),
        "no-glyph.pfb": (UNREADABLE, "CharStrings with no glyph"),
        "length.pfb": (UNREADABLE, "a charstring runs past the end"),
        "no-length.pfb": (UNREADABLE, "an entry with no length"),
        "subrs.pfb": (UNREADABLE, "a subroutine number beyond the array"),
        "many.pfb": (UNREADABLE, "20000 subroutines are declared, and the program has room for 16384"),
        "byte.pfb": (READ, "a byte of the charstring of `two` is changed: the glyph is refused"),
        "empty.pfb": (NO_FONT, "an empty file"),
    }
    for name, (expected, said) in about.items():
        c.add(name, expected, said, None, font["damaged/" + name])


def len_iv_cases(c):
    c.text("lenIV-99999.pfb", UNREADABLE, "lenIV beyond what a charstring can have", private(99999), b"/lenIV")
    c.text("lenIV-large.pfb", UNREADABLE, "lenIV beyond what a charstring can have",
           replaced(private(4), b"/lenIV 4 ", b"/lenIV 18446744073709551620 "), b"/lenIV")
    c.text("lenIV-word.pfb", UNREADABLE, "lenIV is no whole number", replaced(private(4), b"/lenIV 4 ", b"/lenIV four "), b"four ")
    c.text("lenIV-minus-1.pfb", READ, "the charstrings are not encrypted", private(-1))
    c.text("lenIV-0.pfb", READ, "encrypted, with no byte before the charstring", private(0))
    c.text("lenIV-1.pfb", READ, "encrypted, with one byte before the charstring", private(1))
    # Names of lenIV that define nothing, before and after the true one.
    c.text("lenIV-named.pfb", READ, "lenIV in a comment, a string and a procedure; the charstrings have 4",
           private(4, before="% /lenIV 1 def\n/Said (/lenIV 2 def) def\n/Never {/lenIV 3 def} def\n"))
    whole, head = entry("space")
    c.text("short-charstring.pfb", UNREADABLE, "a charstring shorter than lenIV", replaced(private(), whole, b"/space 3 RD abc ND\n"), b"/space")
    whole, _ = body_entry(3)
    c.text("short-body.pfb", UNREADABLE, "a subroutine shorter than lenIV", replaced(private(), whole, b"dup 3 3 RD abc NP\n"), b"dup 3 ")


def name_cases(c):
    """Names where they are neither executed nor defined."""
    true = b"currentfile eexec\n"
    c.clear("eexec-in-comment.pfb", READ, "eexec in a comment before the true one", replaced(CLEAR, true, b"% currentfile eexec\n" + true))
    c.clear("eexec-in-string.pfb", READ, "eexec in a string before the true one",
            replaced(CLEAR, true, b"(currentfile eexec \\) \\( (eexec) ) pop\n" + true))
    c.clear("eexec-in-procedure.pfb", READ, "eexec in a procedure before the true one", replaced(CLEAR, true, b"{currentfile eexec} pop\n" + true))
    c.clear("eexec-as-name.pfb", READ, "/eexec as a name, and a name that ends so, before the true one",
            replaced(CLEAR, true, b"/eexec pop /myeexec pop\n" + true))
    for word, line in (("charstrings", "/CharStrings 3 dict dup begin /zero 3 RD abc ND end"), ("subrs", "/Subrs 2 array dup 0 3 RD abc NP ND")):
        c.text(word + "-in-comment.pfb", READ, word + " named in a comment", private(before=f"% {line}\n"))
        c.text(word + "-in-string.pfb", READ, word + " named in a string", private(before=f"/Said (say \\) {line} (that) ) def\n"))
        c.text(word + "-in-procedure.pfb", READ, word + " named in a procedure", private(before=f"/Never {{ {{ {line} }} pop }} def\n"))
    c.clear("clear-names.pfb", READ, "FontType, FontMatrix, CharStrings and WeightVector named in comments, strings and procedures",
            replaced(CLEAR, b"/FontName", b"% /FontType 3 def /WeightVector [1 0] def\n/Said (/FontMatrix [1 2] def /CharStrings 2 dict) def\n"
                     b"/Never {/FontType 3 def /FontMatrix [1 2] def /WeightVector [1 0] def} def\n/FontName"))


def count_cases(c):
    whole, _ = entry("one")
    c.text("fewer-glyphs.pfb", NOTE, "4 glyphs of 5 that are declared", replaced(private(), whole, b""))
    c.text("more-glyphs.pfb", NOTE, "5 glyphs where 4 are declared", private(declared=4))
    c.text("fewer-subroutines.pfb", NOTE, "7 subroutines of 8 that are declared", private(places=8))
    whole, _ = body_entry(3)
    c.text("subroutine-missing.pfb", NOTE, "6 subroutines of 7: number 3 is not there", replaced(private(), whole, b""))
    whole, _ = entry("one")
    other = charstring("0 100 hsbw endchar", 4)
    twice = b"/one %d RD %s ND\n" % (len(other), other) + whole
    c.text("glyph-twice.pfb", NOTE, "`one` defined twice: the later entry counts", replaced(private(), whole, twice))
    whole, _ = body_entry(4)
    other = charstring("return", 4)
    twice = b"dup 4 %d RD %s NP\n" % (len(other), other) + whole
    c.text("subroutine-twice.pfb", NOTE, "subroutine 4 defined twice: the later entry counts", replaced(private(), whole, twice))


def kind_cases(c):
    c.clear("fonttype-3.pfb", UNREADABLE, "FontType 3", replaced(CLEAR, b"/FontType 1 ", b"/FontType 3 "), b"/FontType")
    c.clear("fonttype-missing.pfb", NOTE, "no FontType", replaced(CLEAR, b"/FontType 1 def\n", b""))
    c.clear("multiple-master.pfb", UNREADABLE, "a multiple-master font",
            replaced(CLEAR, b"/FontName", b"/WeightVector [0.25 0.75] def\n/FontName"), b"/WeightVector")
    blended = [(name, text.replace("84 480 hsbw", "84 85 480 -1 1 14 callothersubr pop pop pop pop hsbw")) for name, text in GLYPHS]
    text = private(glyphs=blended)
    c.text("othersubr-14.pfb", UNREADABLE, "a multiple-master font: only the charstring of `one` tells, by OtherSubr 14", text, b"/one ")


def matrix_cases(c):
    true = b"[0.001 0 0 0.001 0 0]"
    for name, about, matrix in (
            ("matrix-five.pfb", "five numbers", b"[0.001 0 0 0.001 0]"),
            ("matrix-seven.pfb", "seven numbers", b"[0.001 0 0 0.001 0 0 0]"),
            ("matrix-not-finite.pfb", "a number that is not finite", b"[1e999 0 0 0.001 0 0]"),
            ("matrix-of-words.pfb", "words", b"[a b c d e f]"),
            ("matrix-empty.pfb", "no number", b"[]"),
            ("matrix-open.pfb", "no closing bracket", b"[0.001 0 0 0.001 0 0"),
            ("matrix-number.pfb", "a number and no array", b"0.001")):
        c.clear(name, UNREADABLE, "a FontMatrix that is none: " + about, replaced(CLEAR, true, matrix), b"/FontMatrix")
    c.clear("matrix-missing.pfb", NOTE, "no FontMatrix", replaced(CLEAR, b"/FontMatrix " + true + b" readonly def\n", b""))
    c.clear("matrix-braces.pfb", READ, "a FontMatrix in braces", replaced(CLEAR, true, b"{0.001 0 0 0.001 0 0}"))
    c.clear("matrix-forms.pfb", READ, "1e-3, +0, .001, 0. and a comment within", replaced(CLEAR, true, b"[1e-3 +0 -0 % a comment ]\n.001 0. 0.0E0]"))


def damage_cases(c):
    text = private()
    coded = digits.eexec(text)
    whole, head = entry("seven")
    inside = text.index(whole) + len(head) + 9
    font = digits.pfa(CLEAR, coded)
    at = in_pfa(CLEAR, inside)
    assert font[at:at + 2] == b"%02x" % coded[LEAD + inside]
    c.add("hex-wrong-digit.pfa", UNREADABLE, "a letter that is no hexadecimal digit", at, font[:at] + b"g" + font[at + 1:])
    other = b"1" if font[at:at + 1] != b"1" else b"2"
    # The key goes astray there: all that follows is noise.
    c.add("hex-changed-digit.pfa", UNREADABLE, "a changed digit: the dictionary is damaged before its end", at, font[:at] + other + font[at + 1:])
    c.add("hex-odd.pfa", UNREADABLE, "a digit is missing: the dictionary is damaged before its end", at, font[:at] + font[at + 1:])
    bad = pfb(text)
    at = in_pfb(CLEAR, inside)
    c.add("eexec-changed.pfb", UNREADABLE, "a changed byte: the dictionary is damaged before its end", at, bad[:at] + bytes([bad[at] ^ 1]) + bad[at + 1:])
    c.add("segments-swapped.pfb", UNREADABLE, "the encrypted segment comes first", 0,
          digits.segment(2, coded) + digits.segment(1, CLEAR) + digits.segment(1, digits.TRAILER) + b"\x80\x03")
    last = entry("nine")[0]
    cut = text[:text.index(last) + len(last)]
    c.add("no-end.pfb", UNREADABLE, "the charstrings have no end", in_pfb(CLEAR, len(cut)),
          digits.segment(1, CLEAR) + digits.segment(2, digits.eexec(cut)) + b"\x80\x03")
    c.text("no-name.pfb", UNREADABLE, "an entry without its name: the dictionary is damaged before its end", replaced(text, head, head[len("/seven "):]),
           head[len("/seven "):])
    c.text("minus-length.pfb", UNREADABLE, "an entry with a negative length", replaced(text, head, b"/seven -7 RD "), b"-7 RD ")
    c.text("no-array.pfb", UNREADABLE, "Subrs with no count", replaced(text, b"/Subrs 7 array", b"/Subrs array"), b"/Subrs")
    c.text("minus-subroutine.pfb", UNREADABLE, "a negative subroutine number", replaced(text, b"dup 6 ", b"dup -6 "), b"-6 ")
    c.add("clear-only.pfb", UNREADABLE, "nothing after eexec", 6 + len(CLEAR), digits.segment(1, CLEAR) + b"\x80\x03")
    c.add("clear-cut.pfb", UNREADABLE, "no eexec", 6 + 100, digits.segment(1, CLEAR[:100]) + b"\x80\x03")


def lawful_cases(c):
    """Other forms of a font that are to be read."""
    text = private()
    coded = digits.eexec(text)
    halves = digits.segment(2, coded[:700]) + digits.segment(2, coded[700:])
    c.add("segments-four.pfb", READ, "the encrypted part in two segments", None,
          digits.segment(1, CLEAR) + halves + digits.segment(1, digits.TRAILER) + b"\x80\x03")
    c.add("segments-hex.pfb", READ, "the encrypted part in hexadecimal digits, in a segment of text", None,
          digits.segment(1, digits.pfa(CLEAR, coded)) + b"\x80\x03")
    c.add("segments-no-end.pfb", READ, "no segment 3 at the end", None, pfb(text)[:-2])
    font = CLEAR + digits.pfa(b"", coded).replace(digits.TRAILER, b"").upper() + digits.TRAILER
    c.add("carriage-return.pfa", READ, "lines that end with a carriage return, digits in capitals", None, font.replace(b"\n", b"\r"))
    c.add("no-trailer.t1", READ, "nothing after the encrypted part", None, CLEAR + coded)
    c.text("comment-between.pfb", READ, "comments between entries",
           replaced(replaced(text, b" ND\n/one ", b" ND % the next is /two 9 RD\n/one "), b" NP\ndup 3 ", b" NP % end\ndup 3 "))
    marks = text.replace(b"/RD {", b"/-| {").replace(b"/ND {", b"/|- {").replace(b"/NP {", b"/| {")
    c.text("other-words.pfb", READ, "-|, |- and | instead of RD, ND and NP",
           replaced(marks.replace(b" RD ", b" -| ").replace(b" ND\n", b" |-\n"), b" NP\nND\n", b" NP\n|-\n").replace(b" NP\n", b" |\n"))


def found_cases(c):
    """What damaged copies of fonts (damage.py) brought to light."""
    text = private()
    whole, head = body_entry(1)
    length = int(head.split()[2])
    c.text("subrs-in-array.pfb", READ, "names within an array", private(before="/Said [/CharStrings /Subrs] def\n/Also [/lenIV] def\n"))
    c.text("stored-plainly.pfb", READ, "the first subroutine and a glyph stored by put and def, the others by NP and ND",
           replaced(replaced(text, body_entry(0)[0], body_entry(0)[0][:-3] + b"put\n"), entry("one")[0], entry("one")[0][:-3] + b"noaccess def\n"))
    c.text("lenIV-behind-subrs.pfb", READ, "lenIV 0 defined between Subrs and CharStrings",
           replaced(replaced(private(0), b"/lenIV 0 def\n", b""), b"ND\n2 index", b"ND\n/lenIV 0 def\n2 index"))
    c.text("charstrings-behind-subrs.pfb", READ, "/CharStrings right behind Subrs", replaced(text, b"ND\n2 index /CharStrings", b"ND\n/CharStrings"))
    c.text("dup-charstrings.pfb", READ, "dup /CharStrings behind Subrs", replaced(text, b"2 index /CharStrings", b"dup /CharStrings"))
    c.text("behind-charstrings.pfb", READ, "a stray brace and a stray parenthesis behind the end of CharStrings", replaced(text, b"readonly put\n", b"readonly { ( put\n"))
    c.text("second-subrs.pfb", UNREADABLE, "Subrs is defined a second time", replaced(text, b"ND\n2 index", b"ND\n/Subrs 1 array\n" + body_entry(3)[0].replace(b"dup 3", b"dup 0") + b"ND\n2 index"),
           b"/Subrs 1 ")
    c.text("subrs-minus-1.pfb", UNREADABLE, "Subrs with a negative count", private(places=-1), b"/Subrs")
    c.text("charstrings-minus-1.pfb", UNREADABLE, "CharStrings with a negative count", private(declared=-1), b"/CharStrings")
    c.text("brace-missing.pfb", UNREADABLE, "the brace that closes RD's procedure is lost: the subroutines are within it", replaced(text, b"readstring pop}", b"readstring pop "), b"{string")
    c.text("stray-brace.pfb", UNREADABLE, "a brace that nothing opened, in Subrs", replaced(text, b"dup 5 ", b"du} 5 "), b"} 5 ")
    c.text("length-one-less.pfb", UNREADABLE, "a length that is one too small: its last byte is taken for the word that stores it",
           replaced(text, head, b"dup 1 %d RD " % (length - 1)), b"dup 1 ")
    c.text("other-reading-word.pfb", UNREADABLE, "an entry that is read by another word", replaced(text, head, head.replace(b"RD ", b"R  ")), b"dup 1 ")
    c.text("dup-no-number.pfb", UNREADABLE, "dup without a number in Subrs", replaced(text, b"dup 5 ", b"dup five "), b"five ")


def table(tag, names):
    """A TrueType or OpenType file's table directory, with empty tables."""
    out = tag + struct.pack(">HHHH", len(names), 16, 0, 16 * len(names) - 16)
    for name in names:
        out += name + struct.pack(">III", 0, 12 + 16 * len(names), 0)
    return out


def chunk(kind, data):
    return struct.pack(">I", len(data)) + kind + data + struct.pack(">I", zlib.crc32(kind + data))


def other_cases(c):
    """Files that are no Type 1 font."""
    def add(name, about, data):
        c.add(name, NO_FONT, about, None, data)

    add("truetype.ttf", "TrueType", table(b"\0\1\0\0", (b"cmap", b"glyf", b"head", b"loca")))
    add("apple.ttf", "TrueType", table(b"true", (b"cmap", b"glyf", b"head", b"loca")))
    add("opentype.otf", "OpenType", table(b"OTTO", (b"CFF ", b"cmap", b"head", b"maxp")))
    add("collection.ttc", "a collection of TrueType fonts", b"ttcf" + struct.pack(">III", 0x10000, 1, 16) + table(b"\0\1\0\0", (b"cmap", b"glyf")))
    add("web.woff", "WOFF", b"wOFF\0\1\0\0" + struct.pack(">IHH", 44, 0, 0) + bytes(28))
    add("web.woff2", "WOFF2", b"wOF2\0\1\0\0" + struct.pack(">IHH", 48, 0, 0) + bytes(32))
    add("image.png", "PNG", b"\x89PNG\r\n\x1a\n" + chunk(b"IHDR", struct.pack(">IIBBBBB", 1, 1, 8, 0, 0, 0, 0))
        + chunk(b"IDAT", zlib.compress(b"\0\0", 0)) + chunk(b"IEND", b""))
    add("document.pdf", "PDF", b"%PDF-1.4\n1 0 obj\n<< /Type /Catalog >>\nendobj\ntrailer\n<< /Root 1 0 R >>\n%%EOF\n")
    add("metrics.afm", "AFM: metrics, no outlines", b"StartFontMetrics 2.0\nFontName Digits\nStartCharMetrics 1\nC 48 ; WX 480 ; N zero ;\nEndCharMetrics\nEndFontMetrics\n")
    add("metrics.pfm", "PFM: metrics, no outlines", struct.pack("<HI", 0x100, 147) + b"Digits".ljust(60, b"\0") + struct.pack("<H", 0x81) + bytes(79))
    add("page.ps", "PostScript, no Type 1 font", b"%!PS-Adobe-3.0\n/Times-Roman findfont 12 scalefont setfont\n72 72 moveto (eexec) show\nshowpage\n")
    add("archive.zip", "a zip archive", b"PK\5\6" + bytes(18))
    add("packed.gz", "gzip", b"\x1f\x8b\x08\0\0\0\0\0\0\3\3\0\0\0\0\0\0\0\0\0")
    add("bare.cff", "a bare CFF font", b"\1\0\4\1\0\1\1\1\7Digits\0\0\0\0\0\0")
    add("text.txt", "text", b"No font is in this file.\n")
    add("zeros.bin", "unknown", bytes(64))
    add("one-byte.pfb", "a lone 128", b"\x80")


def cases():
    c = Cases()
    for part in (kept_cases, len_iv_cases, name_cases, count_cases, kind_cases, matrix_cases, damage_cases, lawful_cases, found_cases, other_cases):
        part(c)
    return c.files


def tried(binary, files):
    """How many files the program does not take as expected; each is named."""
    wrong = 0
    with tempfile.TemporaryDirectory() as folder:
        for name, (_, _, _, data) in files.items():
            with open(os.path.join(folder, name), "wb") as out:
                out.write(data)
        run = subprocess.run([os.path.abspath(binary), *files], cwd=folder, capture_output=True)
    rows = {row.split("\t")[0]: row.split("\t")[-1] for row in run.stdout.decode("latin-1").split("\n") if "\t" in row}
    said = {line.split(": ")[0]: line.split(": ", 1)[1] for line in run.stderr.decode("latin-1").split("\n") if ": " in line}
    for name, (expected, about, at, data) in files.items():
        note, message = rows.get(name, "nothing"), said.get(name, "")
        is_font = expected in (READ, NOTE)
        got = READ if note == "-" else UNREADABLE if note == "unreadable" else NOTE
        place = re.search(r"at byte (\d+)", message)
        good = got == (expected if is_font else UNREADABLE) and bool(message) == (not is_font)
        if not good or place and int(place.group(1)) > len(data):
            wrong += 1
            print(f"{name}: expected {expected} ({about}); {note}; {message}")
    print(f"files: {len(files)}, not as expected: {wrong}")
    return wrong


def main():
    if "--try" in sys.argv:
        return 1 if tried(sys.argv[sys.argv.index("--try") + 1], cases()) else 0
    words = [w for w in sys.argv[1:] if not w.startswith("--")]
    files = cases()
    if "--list" in sys.argv:
        for name, (expected, about, at, data) in files.items():
            print(f"{name:26} {len(data):5}  {expected:10} {'-' if at is None else at:>5}  {about}")
        return 0
    if len(words) != 1:
        sys.exit(__doc__)
    wrong = 0
    os.makedirs(words[0], exist_ok=True)
    for name, (_, _, _, data) in files.items():
        place = os.path.join(words[0], name)
        if "--check" not in sys.argv:
            with open(place, "wb") as out:
                out.write(data)
        elif not os.path.exists(place) or open(place, "rb").read() != data:
            print("differs:", name)
            wrong = 1
    if "--check" in sys.argv:
        for name in sorted(set(os.listdir(words[0])) - set(files)):
            print("not made here:", name)
            wrong = 1
    return wrong


if __name__ == "__main__":
    sys.exit(main())
