#!/usr/bin/env python3
"""Writes the example fonts `digits.pfb` and `operands.pfb`, and the damaged copies that the program `cribstork` is tried on.

    python3 examples/make_digits.py            writes the fonts of examples/ and crates/cribstork/data/
    python3 examples/make_digits.py --check    compares them with what would be written

The digits are drawn here, of strokes of one weight. Between them the glyphs have what a Type 1 font has: hsbw and sbw,
the move, line and curve operators, stems, dotsection, hint replacement by OtherSubr 3, a flex, a div, subroutines that
call subroutines. Three glyphs are not converted: one is an accent made by seac, one divides by 0, one has an
operator that is unknown.

`operands.pfb` is for the strict reading, in which 24 operands fit: glyphs that bring the 24th and the 25th.
"""
import os
import struct
import sys
from fractions import Fraction

HERE = os.path.dirname(os.path.abspath(__file__))
DATA = os.path.join(HERE, "..", "crates", "cribstork", "data")
LEN_IV = 4


def encrypt(plain, key, first):
    out = bytearray()
    for p in first + plain:
        c = p ^ (key >> 8)
        key = ((c + key) * 52845 + 22719) & 0xFFFF
        out.append(c)
    return bytes(out)


def number(n):
    if -107 <= n <= 107:
        return bytes([n + 139])
    if 108 <= n <= 1131:
        return bytes([(n - 108) // 256 + 247, (n - 108) % 256])
    if -1131 <= n <= -108:
        return bytes([(-n - 108) // 256 + 251, (-n - 108) % 256])
    return b"\xff" + struct.pack(">i", n)


OPERATORS = {
    "hstem": 1, "vstem": 3, "vmoveto": 4, "rlineto": 5, "hlineto": 6, "vlineto": 7, "rrcurveto": 8, "closepath": 9, "callsubr": 10,
    "return": 11, "hsbw": 13, "endchar": 14, "rmoveto": 21, "hmoveto": 22, "vhcurveto": 30, "hvcurveto": 31,
    "dotsection": (12, 0), "vstem3": (12, 1), "hstem3": (12, 2), "seac": (12, 6), "sbw": (12, 7), "div": (12, 12),
    "callothersubr": (12, 16), "pop": (12, 17), "setcurrentpoint": (12, 33), "unknown": 2, "cut": 247,
}


def code(text):
    out = b""
    for word in text.split():
        if word in OPERATORS:
            op = OPERATORS[word]
            out += bytes(op) if isinstance(op, tuple) else bytes([op])
        else:
            out += number(int(word))
    return out


def drawn(text):
    """The charstring's words, with the outlines in them made relative.

    M, L and C take points counted from the sidebearing point, for a move, a line and a curve; F takes a flex's six points; Z closes.
    The current point stays where the last segment ended, as it does in Type 1: closepath does not bring it back to the start.
    A number such as 399/2 becomes a div. Other words stay as they are.
    """
    words = text.split()
    at, out, i = (Fraction(0), Fraction(0)), [], 0

    def written(n):
        return str(n) if n.denominator == 1 else f"{n.numerator} {n.denominator} div"

    def say(numbers, operator):
        out.extend([written(n) for n in numbers] + [operator])

    while i < len(words):
        word = words[i]
        count = {"M": 1, "L": 1, "C": 3, "F": 6}.get(word, 0)
        numbers = [Fraction(n) for n in words[i + 1:i + 1 + 2 * count]]
        points = list(zip(numbers[::2], numbers[1::2]))
        i += 1 + 2 * count
        steps = [(b[0] - a[0], b[1] - a[1]) for a, b in zip([at] + points, points)]
        if word in ("M", "L"):
            (dx, dy), kind = steps[0], {"M": "moveto", "L": "lineto"}[word]
            if dy == 0:
                say([dx], "h" + kind)
            elif dx == 0:
                say([dy], "v" + kind)
            else:
                say([dx, dy], "r" + kind)
        elif word == "C":
            (ax, ay), (bx, by), (cx, cy) = steps
            if ay == 0 and cx == 0:
                say([ax, bx, by, cy], "hvcurveto")
            elif ax == 0 and cy == 0:
                say([ay, bx, by, cx], "vhcurveto")
            else:
                say([ax, ay, bx, by, cx, cy], "rrcurveto")
        elif word == "F":
            # Seven rmoveto, each followed by subroutine 2: to the reference point, which is level with the start and stands over
            # the middle, from there to the first control point, and on. Subroutine 0 takes the height and the end.
            reference = (points[2][0], at[1])
            path = [at, reference] + points
            out.append("1 callsubr")
            for a, b in zip(path, path[1:]):
                say([b[0] - a[0], b[1] - a[1]], "rmoveto 2 callsubr")
            say([Fraction(50), points[-1][0] + int(words[0]), points[-1][1]], "0 callsubr")
        else:
            out.append("closepath" if word == "Z" else word)
        if points:
            at = points[-1]
    return " ".join(out)


# 0 to 3 are those that every font with flex and hint replacement has. 5 calls 4; 6 replaces the stems by those of another and adds two.
SUBROUTINES = [
    "3 0 callothersubr pop pop setcurrentpoint return",
    "0 1 callothersubr return",
    "0 2 callothersubr return",
    "return",
    "0 80 vstem 320 80 vstem return",
    "4 callsubr -10 72 hstem 638 72 hstem return",
    "1 3 callothersubr pop callsubr -10 72 hstem 368 72 hstem return",
]

# Upright strokes are 80 wide, level ones 72; round ones reach 10 beyond 0 and 700. Outer outlines go against the clock, inner ones with it.
DRAWINGS = [
    (".notdef", "40 480 hsbw 0 40 hstem 660 40 hstem 0 40 vstem 360 40 vstem "
                "M 0 0 L 400 0 L 400 700 L 0 700 Z M 40 40 L 40 660 L 360 660 L 360 40 Z endchar"),
    ("space", "0 240 hsbw endchar"),
    # Three upright strokes, the middle one a dot.
    ("zero", "40 480 hsbw -10 72 hstem 298 104 hstem 638 72 hstem 0 80 160 80 320 80 vstem3 "
             "M 0 350 C 0 122 70 -10 200 -10 C 330 -10 400 122 400 350 C 400 578 330 710 200 710 C 70 710 0 578 0 350 Z "
             "M 80 350 C 80 540 120 638 200 638 C 280 638 320 540 320 350 C 320 160 280 62 200 62 C 120 62 80 160 80 350 Z "
             "dotsection M 160 350 C 160 318 176 298 200 298 C 224 298 240 318 240 350 C 240 382 224 402 200 402 C 176 402 160 382 160 350 Z "
             "dotsection endchar"),
    ("one", "84 480 hsbw 0 72 hstem 116 80 vstem "
            "M 0 0 L 312 0 L 312 72 L 196 72 L 196 700 L 130 700 L 0 600 L 0 506 L 116 596 L 116 72 L 0 72 Z endchar"),
    ("two", "42 480 hsbw 0 72 hstem 638 72 hstem 304 80 vstem "
            "M 0 0 L 396 0 L 396 72 L 116 72 L 296 272 C 350 332 384 404 384 504 C 384 628 308 710 198 710 C 94 710 26 652 8 548 L 86 530 "
            "C 98 602 138 638 196 638 C 262 638 304 586 304 504 C 304 432 282 377 236 326 L 0 66 Z endchar"),
    ("three", "42 480 hsbw -10 72 hstem 330 72 hstem 638 72 hstem 316 80 vstem "
              "M 0 150 C 22 48 92 -10 194 -10 C 314 -10 396 72 396 190 C 396 276 352 340 278 366 C 340 394 374 448 374 524 "
              "C 374 634 300 710 194 710 C 98 710 32 656 14 562 L 92 544 C 104 604 142 638 194 638 C 254 638 294 590 294 522 "
              "C 294 448 246 402 172 402 L 124 402 L 124 330 L 178 330 C 262 330 316 276 316 192 C 316 114 266 62 194 62 "
              "C 134 62 92 100 78 168 Z endchar"),
    ("four", "30 480 hsbw 160 72 hstem 262 80 vstem "
             "M 262 0 L 342 0 L 342 160 L 420 160 L 420 232 L 342 232 L 342 700 L 246 700 L 0 236 L 0 160 L 262 160 Z "
             "M 262 232 L 88 232 L 262 560 Z endchar"),
    ("five", "42 480 hsbw -10 72 hstem 368 72 hstem 628 72 hstem 316 80 vstem "
             "M 0 146 C 20 48 90 -10 188 -10 C 312 -10 396 84 396 220 C 396 352 316 440 204 440 C 164 440 130 428 104 402 "
             "L 118 628 L 364 628 L 364 700 L 44 700 L 18 316 L 92 306 C 114 346 150 368 194 368 C 268 368 316 310 316 216 "
             "C 316 122 266 62 188 62 C 130 62 90 98 78 164 Z endchar"),
    # Hint replacement: new stems from the left side of the bowl on.
    ("six", "40 480 hsbw 638 72 hstem 0 80 vstem 306 76 vstem "
            "M 80 366 C 84 540 134 638 214 638 C 262 638 292 614 306 562 L 382 584 C 360 666 302 710 216 710 C 80 710 0 578 0 330 "
            "4 6 callsubr C 0 116 76 -10 205 -10 C 318 -10 400 84 400 217 C 400 348 324 440 216 440 C 154 440 108 414 80 366 Z "
            "M 84 208 C 84 304 128 368 204 368 C 276 368 320 306 320 215 C 320 124 276 62 204 62 C 130 62 84 122 84 208 Z endchar"),
    # A flex: the upper edge is almost straight.
    ("seven", "42 480 hsbw 628 72 hstem "
              "M 96 0 L 181 0 L 396 643 L 396 700 F 328 700 266 694 198 694 130 694 68 700 0 700 L 0 628 L 306 628 Z endchar"),
    # Divs: 81 over 2 is half a unit, and the waist lies at a third of one.
    ("eight", "81 2 div 0 480 0 sbw -10 72 314 72 638 72 hstem3 0 80 vstem 319 80 vstem "
              "M 0 184 C 0 68 80 -10 399/2 -10 C 319 -10 399 68 399 184 C 399 264 362 326 300 1072/3 C 352 384 378 442 378 522 "
              "C 378 634 304 710 399/2 710 C 95 710 21 634 21 522 C 21 442 47 384 99 1072/3 C 37 326 0 264 0 184 Z "
              "M 80 187 C 80 262 128 314 399/2 314 C 271 314 319 262 319 187 C 319 112 271 62 399/2 62 C 128 62 80 112 80 187 Z "
              "M 101 514 C 101 588 140 638 399/2 638 C 259 638 298 588 298 514 C 298 440 258 386 399/2 386 C 141 386 101 440 101 514 Z endchar"),
    # Six turned round. A div: the width is 480.1.
    ("nine", "40 4801 10 div hsbw 5 callsubr 260 72 hstem "
             "M 320 334 C 316 160 266 62 186 62 C 138 62 108 86 94 138 L 18 116 C 40 34 98 -10 184 -10 C 320 -10 400 122 400 370 "
             "C 400 584 324 710 195 710 C 82 710 0 616 0 483 C 0 352 76 260 184 260 C 246 260 292 286 320 334 Z "
             "M 316 492 C 316 396 272 332 196 332 C 124 332 80 394 80 485 C 80 576 124 638 196 638 C 270 638 316 578 316 492 Z endchar"),
    ("accent", "40 480 hsbw 40 100 200 48 194 seac"),
    ("divided", "40 480 hsbw 10 0 div hmoveto endchar"),
    ("unknown", "40 480 hsbw 10 unknown endchar"),
]
GLYPHS = [(name, drawn(text)) for name, text in DRAWINGS]


def zeros(n):
    return "0 " * n


# A box, after the operator that takes the operands.
BOX = "dotsection M 0 0 L 400 0 L 400 700 L 0 700 Z endchar"
# OtherSubr 13 is unknown to document 01: its arguments are left for pop. Subroutine 0 gives it 22, with 24 operands in all.
OPERAND_SUBROUTINES = [zeros(22) + "22 13 callothersubr return"]
OPERAND_DRAWINGS = [
    (".notdef", "40 480 hsbw endchar"),
    # The 24th and the 25th by a number, by a pop, and by the number of an OtherSubr.
    ("number24", "40 480 hsbw " + zeros(24) + BOX),
    ("number25", "40 480 hsbw " + zeros(25) + BOX),
    ("pop24", "40 480 hsbw 7 1 13 callothersubr " + zeros(23) + "pop " + BOX),
    ("pop25", "40 480 hsbw 7 1 13 callothersubr " + zeros(24) + "pop " + BOX),
    ("othersubr24", "40 480 hsbw 0 callsubr " + BOX),
    ("othersubr25", "40 480 hsbw 0 0 callsubr " + BOX),
    # The 25th is a number that is cut (5), or a pop with nothing left for it (11).
    ("cut25", "40 480 hsbw " + zeros(24) + "cut"),
    ("nothing25", "40 480 hsbw " + zeros(24) + "pop " + BOX),
    # 257 operands, and 264 values left for pop (15).
    ("number257", "40 480 hsbw " + zeros(257) + BOX),
    ("left264", "40 480 hsbw " + "0 callsubr " * 12 + BOX),
]
OPERAND_GLYPHS = [(name, drawn(text)) for name, text in OPERAND_DRAWINGS]


def clear_text(matrix):
    return (
        "%!PS-AdobeFont-1.0: Digits 001.000\n"
        "11 dict begin\n"
        "/FontInfo 2 dict dup begin\n/version (001.000) readonly def\n/FullName (Digits) readonly def\nend readonly def\n"
        "/FontName /Digits def\n/PaintType 0 def\n/FontType 1 def\n"
        f"/FontMatrix [{matrix}] readonly def\n"
        "/Encoding StandardEncoding def\n/FontBBox {30 -10 450 710} readonly def\ncurrentdict end\ncurrentfile eexec\n"
    ).encode()


def charstring(text):
    return encrypt(code(text), 4330, bytes(LEN_IV))


def private_text(glyphs, subroutines):
    out = (
        "dup /Private 8 dict dup begin\n/RD {string currentfile exch readstring pop} executeonly def\n"
        "/ND {noaccess def} executeonly def\n/NP {noaccess put} executeonly def\n/BlueValues [-10 0 700 710] def\n"
        "/MinFeature {16 16} def\n/password 5839 def\n"
    ).encode()
    if subroutines:
        out += f"/Subrs {len(subroutines)} array\n".encode()
        for i, text in enumerate(subroutines):
            body = charstring(text)
            out += f"dup {i} {len(body)} RD ".encode() + body + b" NP\n"
        out += b"ND\n"
    if glyphs:
        out += f"2 index /CharStrings {len(glyphs)} dict dup begin\n".encode()
        for name, text in glyphs:
            body = charstring(text)
            out += f"/{name} {len(body)} RD ".encode() + body + b" ND\n"
        out += b"end\nend\nreadonly put\nnoaccess put\n"
    return out + b"dup /FontName get exch definefont pop\nmark currentfile closefile\n"


def changed(text):
    """The same with one byte of the charstring of `two` changed."""
    body = charstring(dict(GLYPHS)["two"])
    return text.replace(body, body[:23] + bytes([body[23] ^ 1]) + body[24:])


TRAILER = b"0" * 64 + b"\ncleartomark\n"


def eexec(text):
    return encrypt(text, 55665, b"dgts")


def segment(kind, data):
    return bytes([128, kind]) + struct.pack("<I", len(data)) + data


def pfb(clear, private):
    return segment(1, clear) + segment(2, private) + segment(1, TRAILER) + b"\x80\x03"


def pfa(clear, private):
    digits = private.hex()
    return clear + "\n".join(digits[i:i + 64] for i in range(0, len(digits), 64)).encode() + b"\n" + TRAILER


def files():
    clear = clear_text("0.001 0 0 0.001 0 0")
    text = private_text(GLYPHS, SUBROUTINES)
    font = pfb(clear, eexec(text))
    hexadecimal = pfa(clear, eexec(text))
    operands = pfb(clear.replace(b"Digits", b"Operands"), eexec(private_text(OPERAND_GLYPHS, OPERAND_SUBROUTINES)))
    made = {"examples/digits.pfb": font, "examples/digits.pfa": hexadecimal, "examples/digits.t1": clear + eexec(text) + TRAILER,
            "examples/operands.pfb": operands}
    damaged = {
        # The file ends within its second segment.
        "cut.pfb": font[:1500],
        # The same, with no segments: it ends within the charstring of `five`, and of `zero`.
        "cut.pfa": hexadecimal[:2700],
        "short.pfa": hexadecimal[:1700],
        # The second segment says that it is longer than the file.
        "segment.pfb": segment(1, clear) + b"\x80\x02" + struct.pack("<I", 0x7FFFFFFF) + eexec(text),
        # The second segment does not begin with 128.
        "mark.pfb": segment(1, clear) + b"\x81" + segment(2, eexec(text))[1:],
        "clear.pfa": clear.replace(b"currentfile eexec\n", b""),
        "none.pfb": pfb(clear, eexec(private_text([], SUBROUTINES))),
        "no-glyph.pfb": pfb(clear, eexec(text.replace(b"/CharStrings 15 dict dup begin\n", b"/CharStrings 15 dict dup begin\nend\n"))),
        "length.pfb": pfb(clear, eexec(text.replace(b"/four %d RD" % len(charstring(dict(GLYPHS)["four"])), b"/four 99999 RD"))),
        "no-length.pfb": pfb(clear, eexec(text.replace(b"/four %d RD" % len(charstring(dict(GLYPHS)["four"])), b"/four RD"))),
        "subrs.pfb": pfb(clear, eexec(text.replace(b"dup 6 ", b"dup 7 "))),
        "many.pfb": pfb(clear, eexec(text.replace(b"/Subrs 7 array", b"/Subrs 20000 array"))),
        # A byte of a charstring is changed: it is refused, and the rest is as before.
        "byte.pfb": pfb(clear, eexec(changed(text))),
        "empty.pfb": b"",
    }
    made.update({"damaged/" + name: data for name, data in damaged.items()})
    return made


def main():
    wrong = 0
    for name, data in files().items():
        places = [os.path.join(DATA, name)]
        if name.startswith("examples/"):
            places.append(os.path.join(HERE, name[len("examples/"):]))
        for place in places:
            if "--check" in sys.argv:
                if not os.path.exists(place) or open(place, "rb").read() != data:
                    print("differs:", os.path.relpath(place))
                    wrong = 1
                continue
            os.makedirs(os.path.dirname(place), exist_ok=True)
            with open(place, "wb") as out:
                out.write(data)
    return wrong


if __name__ == "__main__":
    sys.exit(main())
