"""The classes of disagreements between our reader, fontTools and FreeType, and the rule that each follows.

`classify` takes what readers.py found of a file. It gives the disagreements, each as (class, what it is), with None for a class where
none applies, and the faults of our program. A class is given by what a reader said and by what is known of the copy, and not by the
kind of damage alone: our message, the other's error, where the copy differs from its font (before eexec, in the private part, behind
CharStrings), and whether our glyphs are those of the undamaged font.
"""
import re

# Copies of these kinds are lawful fonts: we are to read them.
LAWFUL = {"segments-split", "hex-case", "recoded", "glyph-moved", "comment", "form", "glyph-removed", "body-removed", "glyph-doubled", "body-doubled",
          "clear-names", "private-names", "charstring-byte", "charstring-part", "segments-hex", "words", "stored-plainly", "line-ends", "directly"}
# Copies of these kinds have other glyphs than their font, in ways that no reader can tell from a font that was made so.
OTHER_GLYPHS = {"charstring-byte", "charstring-part", "other-subr", "glyph-removed", "glyph-doubled", "glyph-renamed", "body-removed", "body-doubled", "short", "lenIV"}

CLASSES = {}


def new(name, why):
    CLASSES[name] = why
    return name


# ---- we refuse, the other reads

REFUSED = [
    (r"CharStrings|that does not end", "fontTools",
     new("the count of CharStrings is negative: fontTools reads", "fontTools throws the count away. PostScript's dict refuses a negative one.")),
    (r"no PFB segment|a PFB segment runs past", "FreeType",
     new("a PFB segment behind the private part is damaged: FreeType reads",
         "FreeType takes the first segment and the binary ones after it, and looks at nothing behind them. We follow all segments up to the end mark, as fontTools does: "
         "where one is damaged, nothing says which bytes of the file are the font's.")),
    (r"FontType is not 1", None,
     new("FontType is not 1: FreeType reads", "FreeType does not look at FontType. Another type has other charstrings.")),
    (r"multiple-master font", None,
     new("a multiple-master font: fontTools and FreeType read", "WeightVector, or a call of OtherSubrs 14 to 18: a glyph is blended from several designs. The board has no such blending; "
         "FreeType has it, and fontTools does not run the charstrings.")),
    (r"FontMatrix is not six", "fontTools",
     new("FontMatrix is not six finite numbers: fontTools reads", "fontTools takes any object as FontMatrix.")),
    (r"FontMatrix is not six", "FreeType",
     new("FontMatrix is not six finite numbers: FreeType reads", "FreeType takes the first six numbers, whatever follows, and does not ask for the closing bracket.")),
    (r"lenIV is neither", "fontTools",
     new("lenIV beyond 65535: fontTools reads", "fontTools drops that many bytes of each charstring: nothing is left of any glyph.")),
    (r"lenIV is neither", "FreeType",
     new("lenIV is no whole number, or below -1: FreeType reads", "FreeType reads 4.0 as 4, (4) and a word as 0, and takes every negative number for charstrings that are not encrypted; T1 has only -1.")),
    (r"(charstring|subroutine) shorter than lenIV", "fontTools",
     new("a charstring or subroutine shorter than lenIV: fontTools reads", "fontTools takes it as an empty one. FreeType refuses the font, as we do.")),
    (r"CharStrings ends without its end|no hexadecimal digit", "FreeType",
     new("CharStrings is cut before its end: FreeType reads", "The text ends, or in a part of hexadecimal digits another byte ends it. FreeType keeps the glyphs before the cut, and nothing tells that others "
         "are lost.")),
    (r"CharStrings is damaged|Subrs is damaged|an entry with no length|a length runs past", "FreeType",
     new("CharStrings or Subrs is damaged: FreeType reads", "Of CharStrings FreeType passes over every token that is no name, and takes the next name for a glyph; Subrs ends for it at the first token that is not dup. "
         "Glyphs and subroutines may be lost or have a part of another's bytes, and nothing tells.")),
    (r"read or stored by another word", "FreeType",
     new("an entry is read or stored by another word than the first: FreeType reads", "FreeType passes over the word before the bytes and the one behind them, whatever they are. By these words we see that a length is "
         "wrong, where PostScript would fail on them.")),
    (r"a subroutine number beyond", "FreeType",
     new("a subroutine number beyond the array: FreeType reads", "Where an array is declared that the rest of the file has no room for, FreeType keeps subroutines by number and takes any number.")),
    (r"too many subroutines", None,
     new("more than 16,384 subroutines are declared: the other reads", "The limit of our program, which it names. The count is damaged in each of these copies.")),
    (r"no eexec|that does not end|no CharStrings is defined", "FreeType",
     new("eexec is not executed, or too soon: FreeType reads", "In a PFB file FreeType takes the binary segment for the private part, whether the text before it executes eexec or not.")),
    (r"that does not end", None,
     new("a stray delimiter, or a byte that is no ASCII in a procedure: the other reads", "A brace, parenthesis or angle bracket is lost or added. Where a brace is lost, FreeType takes the Subrs for a part of a procedure, and nothing tells; "
         "by a byte that is no printable ASCII in a procedure we see that its end is lost. fontTools reads such a byte in a procedure that is never executed. Or the bytes of a subroutine are read as text, since a word before them is damaged.")),
    (r"no hexadecimal digit", "fontTools",
     new("a vertical tab among hexadecimal digits: fontTools reads", "It is white space to Python, and not to PostScript.")),
    (r"defined a second time", None,
     new("Subrs or CharStrings is defined a second time: the other reads", "FreeType keeps the first Subrs, fontTools the second. We do not choose.")),
    (r"a subroutine number beyond", "fontTools",
     new("a negative subroutine number: fontTools reads", "Python counts it from the end of the list.")),
    (r"an entry with no length, or no bytes|CharStrings is damaged|Subrs is damaged|by another word", "fontTools",
     new("no space behind the word that reads a charstring: fontTools reads", "fontTools passes over any byte there, as FreeType does. PostScript's readstring begins with a byte that is no white space: the charstring would be shifted.")),
]


LATE = new("lenIV is defined behind Subrs: FreeType reads the subroutines without it", "FreeType decrypts a subroutine when it meets it, with the 4 that holds until then. PostScript decrypts when a glyph is run: one lenIV for all, "
           "as fontTools and we have it.")


def ends_with_string(r):
    """A procedure of the copy ends with a string."""
    return re.search(r"\)\}", r["what"]) is not None


def late(r):
    found = re.search(r"lenIV \S+ (?:said|inserted) at (\d+)", r["what"].replace(",", ""))
    return found is not None and int(found.group(1)) == r.get("behind Subrs")


def refuses_lawful(r):
    """We refuse a lawful font; a damaged byte may make a charstring call one of OtherSubrs 14 to 18."""
    return r["kind"] in LAWFUL and r["ours"]["state"] == "refused" and "multiple-master" not in r["ours"]["message"]


def misses_eexec(r):
    """The text before eexec is damaged, and what we refuse stands behind it."""
    found = re.search(r"at byte (\d+)", r["ours"]["message"])
    return r.get("where") == "clear" and found and int(found.group(1)) > r["clear"] or "in the encrypted part" in r["ours"]["message"] and r.get("where") == "clear"


def refused_by_us(r, other):
    message = r["ours"]["message"]
    if refuses_lawful(r):
        return None
    if other == "FreeType" and late(r) and "shorter than lenIV" in message:
        return LATE
    for pattern, reader, name in REFUSED:
        if reader in (None, other) and re.search(pattern, message):
            if name.startswith("eexec is not executed") and not misses_eexec(r):
                continue
            if name.startswith("the count of CharStrings") and not re.search(r"the count at \d+ from \d+ to -", r["what"]):
                continue
            return name
    return None


# ---- the other refuses, we read

FONTTOOLS = [
    (r"'NoneType' object has no attribute 'value'",
     new("a subroutine of the array is not defined: fontTools refuses", "fontTools fails on the null that PostScript has there. We say how many there are of how many (a note); FreeType reads too.")),
    (r"^T1Error: not a Type 1 font",
     new("FontType is not written '/FontType 1 def': fontTools refuses", "fontTools searches the text for exactly that.")),
    (r"^T1Error: not a PostScript font",
     new("the first line is not '%!PS-AdobeFont' or '%!FontType1': fontTools and FreeType refuse", "A comment, which PostScript passes over, and we too.")),
    (r"^T1Error: not an encrypted Type 1 font",
     new("'currentfile eexec' is not written so: fontTools refuses", "fontTools searches the text for exactly that. We ask for eexec, executed.")),
    (r"^T1Error: can't find end of eexec part|^T1Error: invalid end",
     new("no 512 zeros, or no 'currentfile closefile': fontTools refuses", "fontTools finds the end of a private part without segments by them, and the beginning by the first 'currentfile eexec', "
         "also in a comment. All glyphs stand before it.")),
    (r"^T1Error: (corrupt PFB|bad chunk)|^ValueError: string must be 4 bytes|^TypeError: ord\(\)",
     new("no end mark of the PFB file: fontTools refuses", "All segments before it are whole.")),
    (r"^AssertionError",
     new("lenIV is -1: fontTools refuses", "fontTools has no charstrings that are not encrypted.")),
    (r"Odd-length string|Non-hexadecimal digit",
     new("hexadecimal digits behind CharStrings are damaged: fontTools refuses", "fontTools wants whole bytes up to the zeros. All glyphs stand before the damage.")),
    (r"^(PSError|PSTokenError|TypeError|IndexError|RuntimeError|KeyError|AttributeError|ValueError|UnicodeDecodeError|RecursionError|MemoryError|OverflowError|UnboundLocalError|Error)",
     new("a token that defines nothing we read is damaged: fontTools refuses", "fontTools executes every token of the program: a word that is not known, a missing operand, a number that is none. "
         "We read what is defined, and our glyphs are those of the undamaged font, or those that FreeType reads too.")),
]

STRINGS = new("an escaped parenthesis in a string: fontTools refuses", "fontTools' pattern for strings does not know it. FreeType and we read.")
COLLIDES = new("a glyph has the name of a word that is executed: fontTools refuses", "`end`, or the word that stores an entry, is looked up in CharStrings first, and gives a charstring. FreeType and we do not execute the words between entries.")
ELSEWHERE = new("CharStrings is put elsewhere: fontTools refuses", "fontTools executes the words that put CharStrings into the font's dictionary. FreeType and we take it where it is named.")
NOT_ENDING = new("fontTools does not end", "Its pattern for strings tries every way to split a long string.")

HEADER = "the first line is not '%!PS-AdobeFont' or '%!FontType1': fontTools and FreeType refuse"
FIRST_SEGMENT = new("a PFB segment is of the other kind: FreeType refuses", "FreeType wants kind 1 first, then kind 2. We and fontTools take both kinds alike.")
ENCODING = new("a code beyond 255 in Encoding: fontTools and FreeType refuse", "We do not read Encoding: a board asks by name.")
EMPTY = new("a charstring of exactly lenIV bytes: FreeType refuses", "It has no byte to run. FreeType wants one at least; we and fontTools read a glyph that draws nothing.")
MATRIX = new("a FontMatrix that is singular or far from the usual: FreeType refuses", "FreeType refuses a matrix that it cannot turn round, or that stretches one direction some fifty times more than the other. "
             "Six finite numbers are a matrix for us; a glyph that it puts beyond the range is refused where --font-matrix asks for it.")
MORE = new("more glyphs than are declared: FreeType refuses", "FreeType makes room for six more, and refuses a dictionary that is declared to be empty. We read all and say how many are declared (a note); PostScript's "
           "dictionaries grow.")
CLEAR = new("a key or a token before eexec that we do not read is damaged: FreeType refuses",
            "FontBBox, FontInfo, Encoding or a brace that nothing opened. FreeType reads these; the glyphs do not depend on them, and ours are those of the undamaged font.")
AFTER = new("the text behind CharStrings is damaged: FreeType refuses", "FreeType reads on up to closefile. All glyphs and subroutines stand before it, and ours are those of the undamaged font.")
PRIVATE = new("a key or a token of the private part that we do not read is damaged: FreeType refuses",
              "A brace that nothing opened, hints that are no numbers, or /Private itself, without which FreeType looks for no CharStrings. Our glyphs are those of the undamaged font.")


HEX_SEGMENT = new("hexadecimal digits in a PFB file: fontTools and FreeType refuse", "Both take the private part of a PFB file for bytes. eexec takes either (T1 7.2), and so do we; our glyphs are those of the font.")
NO_SUBRS = new("the name /Subrs is damaged: fontTools and FreeType refuse", "No array of that name is left. We read the glyphs and say that there is no Subrs (a note); each glyph that calls a subroutine is refused with 8.")


def unchanged(r):
    """Our glyphs and subroutines are those of the undamaged font; a copy with other glyphs is judged by another reader."""
    f = r["ours"].get("from source")
    return f is not None and not (f["missing"] or f["added"] or f["changed"]) and f["subroutines"][0] == f["subroutines"][1]


def agrees(r, other):
    """The other reader has the same glyphs with the same bytes."""
    d = r[other].get("differs")
    return d is not None and not (d["only ours"] or set(d["only theirs"]) - {b".notdef"} or d["contents"])


def refused_by_fonttools(r):
    error = r["fontTools"]["error"]
    if r["fontTools"]["state"] == "hang":
        return NOT_ENDING
    if r["kind"] == "segments-hex" and unchanged(r):
        return HEX_SEGMENT
    if "no Subrs" in notes(r) and r.get("where") == "private":
        return NO_SUBRS
    if re.search(r"\\\\[()]", r["what"]) and re.match(r"PS(Token)?Error", error) and agrees(r, "FreeType"):
        return STRINGS
    if "list assignment index out of range" in error and r.get("where") == "clear" and unchanged(r):
        return ENCODING
    if re.search(r"renamed to (a b c|b'/end')$", r["what"]) and agrees(r, "FreeType"):
        return COLLIDES
    if r["kind"] == "directly" and unchanged(r):
        return ELSEWHERE
    for pattern, name in FONTTOOLS:
        if re.search(pattern, error):
            known = name.startswith(("a subroutine of the array", "lenIV is -1"))
            return name if known or unchanged(r) or agrees(r, "FreeType") or r["kind"] == "as it is" and agrees(r, "FreeType") else None
    return None


def notes(r):
    return " ".join(r["ours"]["notes"])


def refused_by_freetype(r):
    error = r["FreeType"]["error"]
    if r["kind"] == "segments-hex" and unchanged(r):
        return HEX_SEGMENT
    if late(r) and (unchanged(r) or agrees(r, "fontTools")):
        return LATE
    if ends_with_string(r) and unchanged(r):
        return CLOSED
    if "no Subrs" in notes(r) and r.get("where") == "private":
        return NO_SUBRS
    good = unchanged(r) or agrees(r, "fontTools")
    if r["kind"] == "segment-kind" and good:
        return FIRST_SEGMENT
    if "unknown file format" in error and good:
        return HEADER
    found = re.search(r"glyphs (\d+), declared (\d+)", notes(r))
    if found and int(found.group(1)) > int(found.group(2)) and ("invalid argument" in error or found.group(2) == "0"):
        return MORE
    if r["ours"]["empty"] and agrees(r, "fontTools"):
        return EMPTY
    if not good:
        return None
    if matrix_moves(r):
        return MATRIX
    if r.get("where") == "clear":
        return ENCODING if "invalid argument" in error else CLEAR
    if r.get("where") == "after":
        return AFTER
    return PRIVATE if r.get("where") == "private" else None


# ---- both read

TWICE = new("a glyph is defined twice: FreeType lists both", "PostScript and fontTools keep the later one, and so do we, with a note. FreeType has two glyphs of that name, and finds the first by name.")
NOTDEF = new("no .notdef: FreeType adds one", "FreeType makes one of its own, 500 wide. We list what the font defines.")
COUNT = new("fewer subroutines than declared: FreeType shortens the array", "It allows one subroutine for eight bytes that are left of the file. The subroutines that are there are the same.")
TAB = new("a vertical tab or a zero byte in a glyph's name: fontTools ends the name elsewhere", "A vertical tab is white space to Python and not to PostScript, a zero byte to PostScript and not to Python.")
AT_DEF = new("entries stored by the word def: FreeType loses glyphs", "FreeType ends CharStrings at the first def, which is meant for fonts that define it elsewhere, and adds a .notdef of its own where that is among the lost. Our glyphs are those of the font.")
STOPPED = new("FreeType loses subroutines", "It ends the array at a token that is not dup, or takes it for a part of an array or a procedure before it whose bracket is damaged. Ours are those of the undamaged font.")
CLOSED = new("a string at the end of a procedure: FreeType loses Subrs, or refuses", "FreeType passes over the byte behind a string within a procedure, here the brace that closes it: the procedure goes on into Subrs.")
EMPTY_BODY = new("a subroutine of exactly lenIV bytes: the bytes run are counted otherwise", "FreeType gives it as one that is not there. What is drawn is the same.")
DRAWN = new("the same bytes, drawn otherwise by FreeType", "The charstring or a subroutine is damaged, or one that is called is not there. Both readers have the same bytes: the difference is in how FreeType runs them, "
            "and docs/DIFFERENCES.md has how we do.")
UNDRAWN = new("the same bytes, refused by FreeType's interpreter", "As above: it refuses what document 01 runs, as OtherSubrs that it does not know, or bytes behind a closepath.")
PUT = new("the FontMatrix is not the usual one: FreeType applies it", "FreeType puts it on the outlines, scaled by its fourth number, with its offsets. We print it, and apply it where --font-matrix asks.")


def matrix_moves(r):
    numbers = r["ours"]["matrix"].split()
    return len(numbers) == 6 and [float(n) for n in numbers] != [0.001, 0, 0, 0.001, 0, 0]


def both_read(r, other):
    """The classes of what differs where both read."""
    d, out = r[other]["differs"], []
    here = d["contents"]
    if d["twice theirs"] or d["first counts"]:
        out.append((TWICE, "twice: %r" % d["twice theirs"][:3]))
    if other == "fontTools" and re.search(r"x0b|x00", r["what"]) and len(d["only theirs"]) == len(d["only ours"]) == 1:
        return out + [(TAB, "names %r and %r" % (d["only ours"], d["only theirs"]))]
    if d["only theirs"]:
        added = other == "FreeType" and d["only theirs"] == [b".notdef"]
        out.append((NOTDEF if added else None, "only theirs: %r" % d["only theirs"][:5]))
    if d["only ours"]:
        lost = other == "FreeType" and (unchanged(r) or agrees(r, "fontTools")) and not d["only theirs"]
        out.append((AT_DEF if lost else None, "only ours: %r" % d["only ours"][:5]))
    if d["twice ours"]:
        out.append((None, "twice ours: %r" % d["twice ours"][:5]))
    if d["lenIV"][0] != d["lenIV"][1]:
        out.append((None, "lenIV %s and %s" % d["lenIV"]))
        here = []
    fewer = other == "FreeType" and re.search(r"subroutines \d+, declared", notes(r)) and d["subroutines"][0] > d["subroutines"][1]
    if here and all(what == ["bytes run: %s here" % w] for _, what, _, _ in here for w in [re.sub(r"\D", "", what[0])]):
        out.append((EMPTY_BODY if r["kind"] in ("short", "charstring-part") else None, "contents: %r" % (here[:3],)))
    elif here:
        good = other == "FreeType" and (unchanged(r) or agrees(r, "fontTools"))
        # A .notdef that FreeType made stands for one that it lost.
        made = good and d["only ours"] and [name for name, _, _, _ in here] == [b".notdef"]
        name = AT_DEF if made else LATE if late(r) else CLOSED if ends_with_string(r) else STOPPED
        out.append((name if good else None, "contents: %r" % (here[:3],)))
    elif d["subroutines"][0] != d["subroutines"][1]:
        out.append((COUNT if fewer else None, "subroutines %d and %d" % d["subroutines"]))
    drawn = [name for name, differs in d["outlines"] if not differs]
    if drawn:
        damaged = r.get("where") == "private" or r["kind"] == "as it is"
        out.append((PUT if matrix_moves(r) else DRAWN if damaged else None, "outlines: %r" % drawn[:5]))
    undrawn = [n for n in d["not drawn"] if n[0] not in [h[0] for h in d["contents"]]]
    if undrawn:
        out.append((UNDRAWN, "not drawn: %r" % undrawn[:3]))
    return out


# ---- all together

def faults(r):
    """What is wrong with our program on this file."""
    ours, out = r["ours"], []
    if ours["state"] not in ("read", "refused"):
        out.append("our program: " + ours["state"] + " " + ours["message"])
    found = re.search(r"at byte (\d+)", ours["message"])
    if found and int(found.group(1)) > r["size"]:
        out.append(f"the place is beyond the file's {r['size']} bytes: {ours['message']}")
    if "no hexadecimal digit" in ours["message"] and ours["there"].startswith(b"cleartom") and int(found.group(1)) > r["size"] - 40:
        out.append("the place is that of the lawful cleartomark: " + ours["message"])
    if refuses_lawful(r):
        out.append("a lawful font is refused: " + ours["message"])
    f = ours.get("from source")
    if f and not ours["notes"]:
        lost = len(f["missing"]) > len(f["added"])
        if lost and r["kind"] not in ("glyph-renamed",):
            out.append("glyphs are lost, and nothing says so: %r" % f["missing"][:5])
        if f["subroutines"][0] != f["subroutines"][1]:
            out.append("subroutines are lost, and nothing says so: %d of %d" % f["subroutines"])
        elif f["changed"] and r["kind"] not in OTHER_GLYPHS:
            out.append("glyphs are changed, and nothing says so: %r" % f["changed"][:5])
    if ours["state"] == "read" and not ours["notes"]:
        both = [r[o]["differs"]["only theirs"] for o in ("fontTools", "FreeType") if "differs" in r[o]]
        if len(both) == 2 and set(both[0]) & set(both[1]):
            out.append("both others have glyphs that we have not: %r" % sorted(set(both[0]) & set(both[1]))[:5])
    if ours["said"] is not None and ours["said"] != ours["glyphs"]:
        out.append(f"{ours['glyphs']} rows, {ours['said']} said")
    return out


def classify(r):
    out = []
    for other in ("fontTools", "FreeType"):
        ours, o = r["ours"]["state"], r[other]["state"]
        if ours == "read" and o == "read":
            out += [(name, f"{other}: {what}") for name, what in both_read(r, other)]
        elif ours == "read":
            name = refused_by_fonttools(r) if other == "fontTools" else refused_by_freetype(r)
            out.append((name, f"{other} {o}: {r[other]['error']}"))
        elif o == "read":
            out.append((refused_by_us(r, other), f"{other} read; ours: {r['ours']['message']}"))
        elif o != "refused":
            out.append((NOT_ENDING if other == "fontTools" and o == "hang" else None, f"{other} {o}: {r[other]['error']}"))
    return out, faults(r)


# The smallest input of each class: what is changed in the example font (examples/digits.pfb where no other form is named).
SMALLEST = {
    "the count of CharStrings is negative: fontTools reads": "`/CharStrings -1 dict`",
    "a PFB segment behind the private part is damaged: FreeType reads": "the end mark `80 03` is `80 04`",
    "FontType is not 1: FreeType reads": "`/FontType 3 def`",
    "a multiple-master font: fontTools and FreeType read": "`/WeightVector [0.25 0.75] def`, or a glyph that begins with `8B 99 0C 10`",
    "FontMatrix is not six finite numbers: fontTools reads": "`/FontMatrix [] def`",
    "FontMatrix is not six finite numbers: FreeType reads": "`/FontMatrix [0.001 0 0 0.001 0 0 0] def`",
    "lenIV beyond 65535: fontTools reads": "`/lenIV 99999 def`",
    "lenIV is no whole number, or below -1: FreeType reads": "`/lenIV 4.0 def`, `/lenIV -2 def`",
    "a charstring or subroutine shorter than lenIV: fontTools reads": "`/space 3 RD abc ND`",
    "lenIV is defined behind Subrs: FreeType reads the subroutines without it": "`/lenIV 0 def` between Subrs and CharStrings",
    "CharStrings is cut before its end: FreeType reads": "the private part ends behind the last `ND`",
    "CharStrings or Subrs is damaged: FreeType reads": "an `ND` is removed",
    "an entry is read or stored by another word than the first: FreeType reads": "`dup 1 8 RD` where the body has 9 bytes",
    "a subroutine number beyond the array: FreeType reads": "`/Subrs 5000 array`, with `dup 6000`",
    "more than 16,384 subroutines are declared: the other reads": "`/Subrs 20000 array`",
    "eexec is not executed, or too soon: FreeType reads": "`currentfile pop` for `currentfile eexec`",
    "a stray delimiter, or a byte that is no ASCII in a procedure: the other reads": "`/RD {string currentfile exch readstring pop executeonly def`",
    "a vertical tab among hexadecimal digits: fontTools reads": "`digits.pfa` with one between two digits",
    "Subrs or CharStrings is defined a second time: the other reads": "`/Subrs 1 array ..` behind the first",
    "a negative subroutine number: fontTools reads": "`dup -1 9 RD`",
    "no space behind the word that reads a charstring: fontTools reads": "`/one 48 RD{`",
    "a subroutine of the array is not defined: fontTools refuses": "`/Subrs 8 array` with seven",
    "FontType is not written '/FontType 1 def': fontTools refuses": "`/FontType 1 readonly def`",
    "the first line is not '%!PS-AdobeFont' or '%!FontType1': fontTools and FreeType refuse": "`%!PS-AdobeFonx`",
    "'currentfile eexec' is not written so: fontTools refuses": "two spaces between the words",
    "no 512 zeros, or no 'currentfile closefile': fontTools refuses": "`digits.pfa`, which has 64",
    "no end mark of the PFB file: fontTools refuses": "without `80 03`",
    "lenIV is -1: fontTools refuses": "`/lenIV -1 def`, charstrings not encrypted",
    "hexadecimal digits behind CharStrings are damaged: fontTools refuses": "`digits.pfa` with a digit removed there",
    "a token that defines nothing we read is damaged: fontTools refuses": "`/password 5839 dex`",
    "an escaped parenthesis in a string: fontTools refuses": "`/Said (\\() def`",
    "a glyph has the name of a word that is executed: fontTools refuses": "`/end` for `/one`",
    "CharStrings is put elsewhere: fontTools refuses": "`dup /CharStrings` for `2 index /CharStrings`",
    "fontTools does not end": "none among the copies",
    "a PFB segment is of the other kind: FreeType refuses": "`80 02` first",
    "a code beyond 255 in Encoding: fontTools and FreeType refuse": "`dup 256 /A put`",
    "a charstring of exactly lenIV bytes: FreeType refuses": "`/space 4 RD abcd ND`",
    "a FontMatrix that is singular or far from the usual: FreeType refuses": "`/FontMatrix [0.001 0 0 0 0 0] def`",
    "more glyphs than are declared: FreeType refuses": "`/CharStrings 8 dict` with 15",
    "a key or a token before eexec that we do not read is damaged: FreeType refuses": "`/FontBBox {30 -10 450} readonly def`",
    "the text behind CharStrings is damaged: FreeType refuses": "`readonly > put`",
    "a key or a token of the private part that we do not read is damaged: FreeType refuses": "`/Privat` for `/Private`",
    "hexadecimal digits in a PFB file: fontTools and FreeType refuse": "`digits.pfa` in a segment of kind 1",
    "the name /Subrs is damaged: fontTools and FreeType refuse": "`/Subr 7 array` without entries",
    "a glyph is defined twice: FreeType lists both": "the entry `/one` twice",
    "no .notdef: FreeType adds one": "without the entry `/.notdef`",
    "fewer subroutines than declared: FreeType shortens the array": "`/Subrs 1000 array` with seven",
    "a vertical tab or a zero byte in a glyph's name: fontTools ends the name elsewhere": "`/on<0B>`",
    "entries stored by the word def: FreeType loses glyphs": "`noaccess def` for each `ND`",
    "FreeType loses subroutines": "`NP` twice behind an entry",
    "a string at the end of a procedure: FreeType loses Subrs, or refuses": "`/Never {(x)} def` before `/Subrs`",
    "a subroutine of exactly lenIV bytes: the bytes run are counted otherwise": "`dup 4 4 RD abcd NP`",
    "the same bytes, drawn otherwise by FreeType": "without subroutine 0: `seven`",
    "the same bytes, refused by FreeType's interpreter": "a glyph that begins with `8B A6 0C 10` (OtherSubr 27)",
    "the FontMatrix is not the usual one: FreeType applies it": "`/FontMatrix [0.001 0 0 0.001 100 50] def`",
}
assert set(SMALLEST) == set(CLASSES), set(SMALLEST) ^ set(CLASSES)
