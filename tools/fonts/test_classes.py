#!/usr/bin/env python3
"""Makes the smallest input of each class (classes.py) from the example font, and tries that the three readers disagree on it in that class.

    test_classes.py --binary PATH
"""
import os
import sys
import tempfile

HERE = os.path.dirname(os.path.abspath(__file__))
sys.path.insert(0, HERE)
sys.path.insert(0, os.path.join(HERE, "..", "..", "examples"))
import damage  # noqa: E402
import make_digits  # noqa: E402
import readers  # noqa: E402
from classes import CLASSES, classify  # noqa: E402

FONT = os.path.join(HERE, "..", "..", "examples", "digits.pfb")
SOURCE = damage.Source(FONT)
CLEAR, TEXT = SOURCE.clear, SOURCE.text


def once(text, old, new):
    assert text.count(old) == 1, old
    return text.replace(old, new)


def clear(old, new, form="pfb"):
    return form, SOURCE.made(form, clear=once(CLEAR, old, new))


def private(old, new, form="pfb"):
    return form, SOURCE.made(form, text=once(TEXT, old, new))


def entry(name):
    """The whole entry of a glyph or a subroutine, and its bytes."""
    for start, end, size, token, code in SOURCE.glyphs + SOURCE.bodies:
        if TEXT[slice(*token)] == name:
            return TEXT[start:end], TEXT[code:code + int(TEXT[slice(*size)])]
    raise KeyError(name)


def recharged(name, plain_before):
    """A glyph's entry with bytes put before its charstring."""
    whole, body = entry(name)
    plain = damage.decrypt(body, damage.CHARSTRING_KEY)
    new = damage.encrypt(plain[:4] + plain_before + plain[4:], damage.CHARSTRING_KEY)
    return private(whole, b"%s %d RD %s ND" % (name, len(new), new))


def recoded(len_iv, place):
    """The charstrings with another lenIV, which is said at one of the places."""
    class Chosen:
        def choice(self, values):
            return len_iv if -1 in values else values[place]
    return "pfb", SOURCE.made("pfb", text=damage.recoded(Chosen(), SOURCE)[0])


def cut_behind_glyphs():
    """The private part ends behind the last glyph, and the file with it."""
    plain = SOURCE.lead + TEXT[:SOURCE.glyphs[-1][1]] + b"\n"
    return damage.segment(1, CLEAR) + damage.segment(2, damage.encrypt(plain, damage.EEXEC_KEY)) + b"\x80\3"


def in_digits(at_token):
    """The font in hexadecimal digits, with the first digit of a token of the private part removed."""
    data = SOURCE.made("pfa")
    digit = 2 * (4 + TEXT.index(at_token))
    at = len(CLEAR) + digit + digit // 64
    return "pfa", data[:at] + data[at + 1:]


PFB = SOURCE.made("pfb")
MATRIX = b"/FontMatrix [0.001 0 0 0.001 0 0] readonly def"
SPACE, ONE, NOTDEF = entry(b"/space")[0], entry(b"/one")[0], entry(b"/.notdef")[0]
BODY_0, BODY_1, BODY_4 = entry(b"0")[0], entry(b"1")[0], entry(b"4")[0]
STORED = TEXT.replace(b" ND\n/", b" noaccess def\n/").replace(b" ND\nend", b" noaccess def\nend")

INPUTS = {
    "the count of CharStrings is negative: fontTools reads": private(b"/CharStrings 15 dict", b"/CharStrings -1 dict"),
    "a PFB segment behind the private part is damaged: FreeType reads": ("pfb", PFB[:-1] + b"\4"),
    "FontType is not 1: FreeType reads": clear(b"/FontType 1 def", b"/FontType 3 def"),
    "a multiple-master font: fontTools and FreeType read": clear(b"/FontName", b"/WeightVector [0.25 0.75] def\n/FontName"),
    "FontMatrix is not six finite numbers: fontTools reads": clear(MATRIX, b"/FontMatrix [] def"),
    "FontMatrix is not six finite numbers: FreeType reads": clear(MATRIX, b"/FontMatrix [0.001 0 0 0.001 0 0 0] def"),
    "lenIV beyond 65535: fontTools reads": private(b"/password", b"/lenIV 99999 def\n/password"),
    "lenIV is no whole number, or below -1: FreeType reads": private(b"/password", b"/lenIV 4.0 def\n/password"),
    "a charstring or subroutine shorter than lenIV: fontTools reads": private(SPACE, b"/space 3 RD abc ND"),
    "CharStrings is cut before its end: FreeType reads": ("pfb", cut_behind_glyphs()),
    "CharStrings or Subrs is damaged: FreeType reads": private(SPACE, SPACE[:-3]),
    "an entry is read or stored by another word than the first: FreeType reads": private(b"dup 1 9 RD", b"dup 1 8 RD"),
    "a subroutine number beyond the array: FreeType reads": ("pfb", SOURCE.made("pfb", text=once(once(TEXT, b"/Subrs 7 ", b"/Subrs 5000 "), b"dup 6 ", b"dup 6000 "))),
    "more than 16,384 subroutines are declared: the other reads": private(b"/Subrs 7 array", b"/Subrs 20000 array"),
    "eexec is not executed, or too soon: FreeType reads": clear(b"currentfile eexec", b"currentfile pop"),
    "a stray delimiter, or a byte that is no ASCII in a procedure: the other reads": private(b"readstring pop}", b"readstring pop"),
    "a vertical tab among hexadecimal digits: fontTools reads": ("pfa", SOURCE.made("pfa")[:len(CLEAR) + 400] + b"\x0b" + SOURCE.made("pfa")[len(CLEAR) + 400:]),
    "Subrs or CharStrings is defined a second time: the other reads": private(b"ND\n2 index", b"ND\n/Subrs 1 array\n" + BODY_0 + b"\nND\n2 index"),
    "a negative subroutine number: fontTools reads": private(b"dup 6 ", b"dup -1 "),
    "no space behind the word that reads a charstring: fontTools reads": private(ONE, ONE.replace(b"RD ", b"RD{", 1)),
    "a subroutine of the array is not defined: fontTools refuses": private(b"/Subrs 7 array", b"/Subrs 8 array"),
    "FontType is not written '/FontType 1 def': fontTools refuses": clear(b"/FontType 1 def", b"/FontType 1 readonly def"),
    "the first line is not '%!PS-AdobeFont' or '%!FontType1': fontTools and FreeType refuse": clear(b"%!PS-AdobeFont", b"%!PS-AdobeFonx"),
    "'currentfile eexec' is not written so: fontTools refuses": clear(b"currentfile eexec", b"currentfile  eexec"),
    "no 512 zeros, or no 'currentfile closefile': fontTools refuses": ("pfa", SOURCE.made("pfa", trailer=make_digits.TRAILER)),
    "no end mark of the PFB file: fontTools refuses": ("pfb", PFB[:-2]),
    "lenIV is -1: fontTools refuses": recoded(-1, 0),
    "lenIV is defined behind Subrs: FreeType reads the subroutines without it": recoded(0, -1),
    "hexadecimal digits behind CharStrings are damaged: fontTools refuses": in_digits(b"noaccess put\ndup /FontName"),
    "a token that defines nothing we read is damaged: fontTools refuses": private(b"/password 5839 def", b"/password 5839 dex"),
    "an escaped parenthesis in a string: fontTools refuses": clear(b"/FontName", b"/Said (\\() def\n/FontName"),
    "a glyph has the name of a word that is executed: fontTools refuses": private(b"/one ", b"/end "),
    "CharStrings is put elsewhere: fontTools refuses": private(b"2 index /CharStrings", b"dup /CharStrings"),
    "a PFB segment is of the other kind: FreeType refuses": ("pfb", b"\x80\2" + PFB[2:]),
    "a code beyond 255 in Encoding: fontTools and FreeType refuse": clear(b"/Encoding StandardEncoding def", b"/Encoding 256 array\ndup 256 /A put\nreadonly def"),
    "a charstring of exactly lenIV bytes: FreeType refuses": private(SPACE, b"/space 4 RD abcd ND"),
    "a FontMatrix that is singular or far from the usual: FreeType refuses": clear(MATRIX, b"/FontMatrix [0.001 0 0 0 0 0] def"),
    "more glyphs than are declared: FreeType refuses": private(b"/CharStrings 15 ", b"/CharStrings 8 "),
    "a key or a token before eexec that we do not read is damaged: FreeType refuses": clear(b"{30 -10 450 710}", b"{30 -10 450}"),
    "the text behind CharStrings is damaged: FreeType refuses": private(b"readonly put", b"readonly > put"),
    "a key or a token of the private part that we do not read is damaged: FreeType refuses": private(b"/Private", b"/Privat"),
    "hexadecimal digits in a PFB file: fontTools and FreeType refuse": damage.segments_hex(None, SOURCE)[:2],
    "the name /Subrs is damaged: fontTools and FreeType refuse": private(TEXT[TEXT.index(b"/Subrs"):SOURCE.bodies[-1][1]], b"/Subr 7 array"),
    "a glyph is defined twice: FreeType lists both": private(ONE, ONE + b"\n" + ONE),
    "no .notdef: FreeType adds one": private(NOTDEF, b""),
    "fewer subroutines than declared: FreeType shortens the array": private(b"/Subrs 7 array", b"/Subrs 1000 array"),
    "a vertical tab or a zero byte in a glyph's name: fontTools ends the name elsewhere": private(b"/one ", b"/on\x0b "),
    "entries stored by the word def: FreeType loses glyphs": ("pfb", SOURCE.made("pfb", text=STORED)),
    "FreeType loses subroutines": private(b" NP\ndup 3 ", b" NP NP\ndup 3 "),
    "a string at the end of a procedure: FreeType loses Subrs, or refuses": private(b"/Subrs", b"/Never {(x)} def\n/Subrs"),
    "a subroutine of exactly lenIV bytes: the bytes run are counted otherwise": private(BODY_4, b"dup 4 4 RD abcd NP"),
    "the same bytes, drawn otherwise by FreeType": private(BODY_0, b""),
    "the same bytes, refused by FreeType's interpreter": recharged(b"/one", b"\x8b\xa6\x0c\x10"),
    "the FontMatrix is not the usual one: FreeType applies it": clear(MATRIX, b"/FontMatrix [0.001 0 0 0.001 100 50] def"),
}
# What a class asks of the copy beside what the readers say: the kind of damage, and what was done.
KINDS = {"hexadecimal digits in a PFB file": "segments-hex", "a PFB segment is of the other kind": "segment-kind", "entries stored by the word def": "stored-plainly", "CharStrings is put elsewhere": "directly",
         "a subroutine of exactly lenIV bytes": "short"}
BEHIND = TEXT.index(b"2 index /CharStrings")
DONE = {"lenIV is defined behind": f"lenIV 0 said at {BEHIND}", "the count of CharStrings": "the count at 0 from 15 to -1", "an escaped parenthesis": "\\\\(", "a string at the end": "{(x)}", "a glyph has the name": "/one renamed to b'/end'", "a vertical tab or": "x0b"}


def beginning(table, name, default):
    return next((value for start, value in table.items() if name.startswith(start)), default)


def main():
    binary = sys.argv[sys.argv.index("--binary") + 1]
    readers.SAMPLE = None
    comparison = readers.Comparison(binary, damage.Damage([FONT], "0"))
    wrong = 0
    with tempfile.TemporaryDirectory() as folder:
        cases = []
        for i, (name, (form, data)) in enumerate(INPUTS.items()):
            path = os.path.join(folder, f"{i}.{form}")
            with open(path, "wb") as file:
                file.write(data)
            cases.append((path, beginning(KINDS, name, "smallest"), FONT, beginning(DONE, name, "")))
        records = comparison.files(cases)
    comparison.close()
    for name, r in zip(INPUTS, records):
        named, faults = classify(r)
        if name not in [n for n, _ in named] or faults:
            wrong += 1
            print(f"{name}\n    {named}\n    {faults}")
    missing = set(CLASSES) - set(INPUTS) - {"fontTools does not end"}
    print(f"classes: {len(CLASSES)}, inputs: {len(INPUTS)}, not in their class: {wrong}, without an input: {sorted(missing)}")
    return 1 if wrong or missing else 0


if __name__ == "__main__":
    sys.exit(main())
