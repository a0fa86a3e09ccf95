#!/usr/bin/env python3
"""A specimen page of a Type 1 font: each glyph as Type 1 draws it, and above it as Type 2 draws what `cribstork` made of it.

    specimen.py [--cribstork target/bin/cribstork] FONT > page.html
    specimen.py [--cribstork target/bin/cribstork] --font-matrix FONT > page.html
    specimen.py [--cribstork target/bin/cribstork] --matrix A B C D TX TY FONT > page.html
    specimen.py [--cribstork target/bin/cribstork] --strict FONT > page.html

The font is read and run here, and the finished bytes that `cribstork --hex` prints are run here on a Type 2 machine of
document 01, which counts in whole 1/65536. The two drawn lists are compared entry by entry. A line on standard error
sums it up; the exit status is 1 where something differs, and 2 where there is nothing to compare.
"""
import argparse
import html
import math
import os
import re
import subprocess
import sys
from fractions import Fraction

UNIT = 65536
RUN_LIMIT = 1048576
IDENTITY = [1.0, 0.0, 0.0, 1.0, 0.0, 0.0]

MEANINGS = {
    1: "matrix entry not finite", 2: "bank breaks its layout", 3: "more than 1,048,576 bytes run", 4: "subroutine calls over 10 deep",
    5: "number or escape cut", 6: "unknown operator", 7: "operands missing", 8: "no such subroutine",
    9: "flex not started, or not seven points", 10: "div by 0", 11: "pop, nothing left for it", 12: "seac",
    13: "number not −32768 to below 32768 once rounded", 14: "quotient, point, stem edge or folded value not finite",
    15: "257th operand, or PostScript stack over 256", 16: "257th stem in force or group, or stem store full",
    17: "command store full", 18: "output short", 19: "a width not finite", 20: "width scratch short",
    21: "the machine faults, or no point is drawn", 22: "25th operand in the strict reading",
}

MOVE, LINE, CURVE, FLEX = "move", "line", "curve", "flex"


# ---- the font file

class NoFont(Exception):
    pass


def decrypt(data, key):
    out = bytearray()
    for c in data:
        out.append(c ^ (key >> 8))
        key = ((c + key) * 52845 + 22719) & 0xFFFF
    return bytes(out)


def join_segments(data):
    """The text of a PFB file; any other file is its own text."""
    if data[:1] != b"\x80":
        return data
    out, at = b"", 0
    while at < len(data):
        if data[at] != 0x80 or at + 1 >= len(data):
            raise NoFont("no PFB segment at byte %d" % at)
        if data[at + 1] == 3:
            break
        size = int.from_bytes(data[at + 2:at + 6], "little")
        if at + 6 + size > len(data):
            raise NoFont("a PFB segment runs past the end of the file")
        out += data[at + 6:at + 6 + size]
        at += 6 + size
    return out


SPACE = b" \t\r\n\f\0"
DELIMITERS = SPACE + b"/[]{}()<>%"


class Text:
    """A place in the decrypted text."""

    def __init__(self, data, at):
        self.data, self.at = data, at

    def skip(self):
        while self.at < len(self.data) and self.data[self.at] in SPACE:
            self.at += 1
        return self.at < len(self.data)

    def word(self, stops=SPACE):
        """The word at this place; a lone delimiter is one too."""
        start = self.at
        self.at += 1
        while self.at < len(self.data) and self.data[self.at] not in stops:
            self.at += 1
        return self.data[start:self.at]

    def whole(self):
        self.skip()
        m = re.compile(rb"\d+").match(self.data, self.at)
        if not m:
            raise NoFont("a number is missing at byte %d of the decrypted text" % self.at)
        self.at = m.end()
        return int(m.group())

    def binary(self):
        """A length, a word, one space, the bytes."""
        n = self.whole()
        self.skip()
        self.word()
        start = self.at + 1
        self.at = start + n
        if self.at > len(self.data):
            raise NoFont("a length runs past the end")
        return self.data[start:self.at]


class Font:
    """Name, matrix, lenIV (None: not encrypted), subroutines by number, glyphs as (name, charstring) in the file's order."""

    def __init__(self, data):
        text = join_segments(data)
        eexec = text.find(b"eexec")
        if eexec < 0:
            raise NoFont("no eexec")
        clear = text[:eexec]
        at = eexec + 5
        while at < len(text) and text[at] in SPACE:
            at += 1
        cipher = text[at:]
        if re.match(rb"[0-9A-Fa-f]{4}", cipher):
            digits = re.sub(rb"[^0-9A-Fa-f]", b"", cipher)
            cipher = bytes.fromhex(digits[:len(digits) // 2 * 2].decode())
        private = decrypt(cipher, 55665)[4:]
        m = re.search(rb"/FontName\s*/([^\s/\[\]{}()<>%]+)", clear)
        self.name = m.group(1).decode("latin-1") if m else "(no name)"
        m = re.search(rb"/FontMatrix\s*[\[{]([^\]}]*)[\]}]", clear)
        self.matrix = m.group(1).decode("latin-1").split() if m else None
        m = re.search(rb"/lenIV\s+(-?)(\d+)", private)
        self.len_iv = 4 if not m else None if m.group(1) else int(m.group(2))
        self.subrs = self.read_subrs(private)
        self.glyphs = self.read_glyphs(private)

    @staticmethod
    def read_subrs(private):
        at = private.find(b"/Subrs")
        if at < 0:
            return []
        t = Text(private, at + 6)
        subrs = [b""] * t.whole()
        while t.skip() and private[t.at] != ord("/"):
            if t.word() == b"dup":
                number = t.whole()
                if number >= len(subrs):
                    raise NoFont("a subroutine number beyond the array: %d" % number)
                subrs[number] = t.binary()
        return subrs

    @staticmethod
    def read_glyphs(private):
        at = private.find(b"/CharStrings")
        if at < 0:
            raise NoFont("no CharStrings")
        t = Text(private, at + 12)
        glyphs = {}  # A name that comes again replaces its charstring.
        while t.skip():
            if private[t.at] == ord("/"):
                name = t.word(DELIMITERS)[1:].decode("latin-1")
                glyphs[name] = t.binary()
            elif t.word() == b"end":
                break
        return list(glyphs.items())


# ---- the Type 1 run

class Refused(Exception):
    def __init__(self, number):
        super().__init__(number)
        self.number = number


def is_finite(v):
    return isinstance(v, Fraction) or math.isfinite(v)


class Type1Run:
    """Document 01's Type 1 run. Numbers are doubles, as in the product, or with `number=Fraction` exact. In the strict reading 24
    operands fit."""

    def __init__(self, font, number=float, strict=False):
        self.subrs, self.len_iv, self.number = font.subrs, font.len_iv, number
        zero = number(0)
        self.stack, self.ps_stack, self.strict = [], [], strict
        self.x = self.y = self.sbx = self.sby = self.width = zero
        self.open = False
        self.flex = None
        self.stems, self.changed = [], False
        self.groups = []  # (stems, entries listed before)
        self.listed = []  # (kind, points)
        self.heights = []  # of the flexes, in order
        self.ran = 0
        self.divided = False
        self.number_given = 0

    def glyph(self, charstring):
        """Runs a charstring; `number_given` is the refusal's number, or 0."""
        try:
            self.charge(charstring)
            self.run(self.plain(charstring), 0)
        except Refused as r:
            self.number_given = r.number
        return self

    def plain(self, data):
        return data if self.len_iv is None else decrypt(data, 4330)[self.len_iv:]

    def charge(self, data):
        self.ran += len(data)
        if self.ran > RUN_LIMIT:
            raise Refused(3)

    def push(self, v):
        if self.strict and len(self.stack) == 24:
            raise Refused(22)
        if len(self.stack) == 256:
            raise Refused(15)
        self.stack.append(v)

    def pop(self):
        if not self.stack:
            raise Refused(7)
        return self.stack.pop()

    def args(self, n):
        if len(self.stack) < n:
            raise Refused(7)
        out = self.stack[len(self.stack) - n:]
        self.stack.clear()
        return out

    def run(self, data, depth):
        """True where an endchar stopped the glyph."""
        if depth > 10:
            raise Refused(4)
        at = 0
        while at < len(data):
            b = data[at]
            at += 1
            more = 4 if b == 255 else 1 if b >= 247 or b == 12 else 0
            rest = data[at:at + more]
            if len(rest) < more:
                raise Refused(5)
            at += more
            if b == 255:
                self.push(self.number(int.from_bytes(rest, "big", signed=True)))
            elif b >= 251:
                self.push(self.number(-(b - 251) * 256 - rest[0] - 108))
            elif b >= 247:
                self.push(self.number((b - 247) * 256 + rest[0] + 108))
            elif b >= 32:
                self.push(self.number(b - 139))
            elif b == 12:
                self.escape(rest[0])
            elif b == 10:
                if self.call(depth):
                    return True
            elif b == 11:
                return False
            elif b == 14:
                self.stack.clear()
                return True
            else:
                self.operator(b)
        return False

    def call(self, depth):
        n = self.pop()
        if n < 0 or int(n) >= len(self.subrs):
            raise Refused(8)
        body = self.subrs[int(n)]
        self.charge(body)
        return self.run(self.plain(body), depth + 1)

    def operator(self, b):
        if b == 1:
            y, dy = self.args(2)
            self.stem(True, self.sby + y, dy)
        elif b == 3:
            x, dx = self.args(2)
            self.stem(False, self.sbx + x, dx)
        elif b == 4:
            self.move(0, *self.args(1))
        elif b == 5:
            self.line(*self.args(2))
        elif b == 6:
            self.line(*self.args(1), 0)
        elif b == 7:
            self.line(0, *self.args(1))
        elif b == 8:
            self.curve(*self.args(6))
        elif b == 9:
            self.stack.clear()
            self.open = False
        elif b == 13:
            sbx, wx = self.args(2)
            self.side_bearing(sbx, self.number(0), wx)
        elif b == 21:
            self.move(*self.args(2))
        elif b == 22:
            self.move(*self.args(1), 0)
        elif b == 30:
            dy1, dx2, dy2, dx3 = self.args(4)
            self.curve(0, dy1, dx2, dy2, dx3, 0)
        elif b == 31:
            dx1, dx2, dy2, dy3 = self.args(4)
            self.curve(dx1, 0, dx2, dy2, 0, dy3)
        else:
            raise Refused(6)

    def escape(self, b):
        if b == 0:
            self.stack.clear()
        elif b in (1, 2):
            horizontal = b == 2
            bearing = self.sby if horizontal else self.sbx
            a = self.args(6)
            for pos, width in (a[0:2], a[2:4], a[4:6]):
                self.stem(horizontal, bearing + pos, width)
        elif b == 6:
            raise Refused(12)
        elif b == 7:
            sbx, sby, wx, _ = self.args(4)
            self.side_bearing(sbx, sby, wx)
        elif b == 12:
            self.divide()
        elif b == 16:
            self.call_other()
        elif b == 17:
            if not self.ps_stack:
                raise Refused(11)
            self.push(self.ps_stack.pop())
        elif b == 33:
            x, y = self.args(2)
            if (x, y) != (self.x, self.y):
                self.x, self.y = x, y
                if self.open and self.flex is None:
                    self.list(MOVE, (x, y))
        else:
            raise Refused(6)

    def divide(self):
        b, a = self.pop(), self.pop()
        if b == 0:
            raise Refused(10)
        q = a / b
        if not is_finite(q):
            raise Refused(14)
        self.divided = True
        self.push(q)

    def call_other(self):
        number, n = self.pop(), self.pop()
        if n < 0 or int(n) > len(self.stack):
            raise Refused(7)
        start = len(self.stack) - int(n)
        args = self.stack[start:]
        del self.stack[start:]
        number = int(number)
        if number == 0:
            points, self.flex = self.flex, None
            if points is None or len(points) != 7:
                raise Refused(9)
            self.list(FLEX, *points[1:])
            self.heights.append(args[0] if args else self.number(50))
            self.x, self.y = points[6]
            self.leave([self.y, self.x])
        elif number == 1:
            self.flex = []
        elif number == 2:
            if self.flex is None:
                raise Refused(9)
            self.flex.append((self.x, self.y))
        else:
            if number == 3:
                self.stems, self.changed = [], True
            self.leave(args[::-1])

    def leave(self, values):
        self.ps_stack += values
        if len(self.ps_stack) > 256:
            raise Refused(15)

    def side_bearing(self, sbx, sby, wx):
        self.sbx, self.sby, self.width = sbx, sby, wx
        self.x, self.y = sbx, sby

    def stem(self, horizontal, pos, width):
        if not is_finite(pos):
            raise Refused(14)
        if (horizontal, pos, width) in self.stems:
            return
        if len(self.stems) == 256:
            raise Refused(16)
        self.stems.append((horizontal, pos, width))
        self.changed = True

    def by(self, p, dx, dy):
        q = (p[0] + dx, p[1] + dy)
        if not (is_finite(q[0]) and is_finite(q[1])):
            raise Refused(14)
        return q

    def move(self, dx, dy):
        self.x, self.y = self.by((self.x, self.y), dx, dy)
        if self.flex is None:
            self.list(MOVE, (self.x, self.y))
            self.open = True

    def open_subpath(self):
        if not self.open:
            self.list(MOVE, (self.x, self.y))
            self.open = True

    def line(self, dx, dy):
        self.open_subpath()
        self.x, self.y = self.by((self.x, self.y), dx, dy)
        self.list(LINE, (self.x, self.y))

    def curve(self, a, b, c, d, e, f):
        self.open_subpath()
        p = self.by((self.x, self.y), a, b)
        q = self.by(p, c, d)
        self.x, self.y = self.by(q, e, f)
        self.list(CURVE, p, q, (self.x, self.y))

    def list(self, kind, *points):
        if self.changed:
            self.changed = False
            if not self.groups or self.groups[-1][0] != self.stems:
                if len(self.groups) == 256:
                    raise Refused(16)
                self.groups.append((list(self.stems), len(self.listed)))
        self.listed.append((kind, list(points)))


# ---- folding

def half_away(v):
    """A finite double rounded to a whole one, half away from zero."""
    a = abs(v)
    n = math.floor(a)
    return math.copysign(float(n + 1 if a - n >= 0.5 else n), v)


def round10(v):
    """In the product's order: times 1e10, rounded, over 1e10. Exact numbers stay."""
    if isinstance(v, Fraction):
        return v
    scaled = v * 1e10
    return (half_away(scaled) if math.isfinite(scaled) else scaled) / 1e10


def quantize(v):
    r = half_away(v)
    return r if abs(v - r) < 1e-9 else half_away(v * 65536.0) / 65536.0


class Fold:
    """A matrix put on points, stems and the width."""

    def __init__(self, entries, number=float):
        self.identity = entries == IDENTITY
        self.a, self.b, self.c, self.d, self.tx, self.ty = (number(v) for v in entries)

    def point(self, p):
        if self.identity:
            return p
        x, y = p
        return (round10(self.a * x + self.c * y + self.tx), round10(self.b * x + self.d * y + self.ty))

    def entries(self, listed):
        return [(kind, [self.point(p) for p in points]) for kind, points in listed]

    def width(self, w):
        return round10(self.a * w + self.c * 0)

    def stem(self, s):
        """The folded stem, or None where it is dropped."""
        if self.identity:
            return s
        horizontal, pos, width = s
        scale, shift, across = (self.d, self.ty, self.b) if horizontal else (self.a, self.tx, self.c)
        if across != 0 or not scale > 0:
            return None
        if width == -21:
            return (horizontal, scale * (pos - 21) + shift + 21, width)
        return (horizontal, scale * pos + shift, width if width == -20 else scale * width)

    def groups(self, groups):
        return [([t for t in map(self.stem, stems) if t is not None], before) for stems, before in groups]


def distinct_stems(groups):
    """The stems that are declared: horizontal first, then by edge, then by width; none where there are 97 or more."""
    stems = []
    for group, _ in groups:
        for s in group:
            if s not in stems:
                stems.append(s)
    stems.sort(key=lambda s: (not s[0], s[1], s[2]))
    return stems if len(stems) < 97 else []


def masks_of(groups):
    """The masks that are due: the bits, and the entries before."""
    stems = distinct_stems(groups)
    if not stems or len(groups) < 2:
        return []
    return [([s in group for s in stems], before) for group, before in groups]


# ---- the Type 2 machine

class Fault(Exception):
    pass


class Type2Machine:
    """Document 01's Type 2 machine. Every number is a whole count of 1/65536."""

    def __init__(self):
        self.at = (0, 0)
        self.stem_count, self.width, self.begun = 0, None, False
        self.ops, self.drawn, self.masks = [], [], []
        self.stems, self.heights = [], []  # (horizontal, edge, width); heights of flexes
        self.unread = 0
        self.fault = None

    def glyph(self, data):
        """Runs finished bytes; `fault` is what is wrong with them, or None."""
        try:
            self.run(data)
        except Fault as f:
            self.fault = str(f)
        return self

    def run(self, data):
        at = 0
        while at < len(data):
            b = data[at]
            at += 1
            if b == 28 or b >= 32:
                more = 4 if b == 255 else 2 if b == 28 else 1 if b >= 247 else 0
                rest = data[at:at + more]
                if len(rest) < more:
                    raise Fault("a number is cut")
                at += more
                self.push(self.value(b, rest))
            elif b == 14:
                self.settle(0, False)
                self.unread = len(data) - at
                return
            elif b == 19:
                at = self.mask(data, at)
            elif b == 12:
                if data[at:at + 1] != b"\x23":
                    raise Fault("unknown operator 12")
                at += 1
                self.settle(13, False)
                self.heights.append(self.ops[12])
                self.draw(FLEX, self.ops[:12])
            else:
                self.operator(b)
        raise Fault("no endchar")

    @staticmethod
    def value(b, rest):
        if b == 255:
            return int.from_bytes(rest, "big", signed=True)
        if b == 28:
            return int.from_bytes(rest, "big", signed=True) * UNIT
        if b >= 251:
            return (-(b - 251) * 256 - rest[0] - 108) * UNIT
        if b >= 247:
            return ((b - 247) * 256 + rest[0] + 108) * UNIT
        return (b - 139) * UNIT

    def push(self, v):
        if len(self.ops) == 48:
            raise Fault("a 49th operand")
        self.ops.append(v)

    def settle(self, n, many):
        """Takes exactly n operands, or a multiple that is not 0; the first operator may have the width below them."""
        have = len(self.ops)
        over = have % n if many else have - n
        if have < n or over > 1 or (over == 1 and self.begun):
            raise Fault("%d operands" % have)
        if over == 1:
            self.width = self.ops.pop(0)
        self.begun = True

    def operator(self, b):
        if b in (1, 3, 18, 23):
            self.settle(2, True)
            self.declare(b in (1, 18))
        elif b == 21:
            self.settle(2, False)
            self.draw(MOVE, self.ops)
        elif b == 22:
            self.settle(1, False)
            self.draw(MOVE, self.ops + [0])
        elif b == 4:
            self.settle(1, False)
            self.draw(MOVE, [0] + self.ops)
        elif b == 5:
            self.settle(2, True)
            self.draw_all(LINE, 2)
        elif b == 8:
            self.settle(6, True)
            self.draw_all(CURVE, 6)
        else:
            raise Fault("unknown operator %d" % b)

    def declare(self, horizontal):
        edge = 0
        for delta, width in zip(self.ops[0::2], self.ops[1::2]):
            self.stems.append((horizontal, edge + delta, width))
            edge += delta + width
        self.stem_count += len(self.ops) // 2
        self.ops = []
        if self.stem_count > 96:
            raise Fault("a 97th stem")

    def mask(self, data, at):
        self.settle(0, False)
        size = (self.stem_count + 7) // 8
        taken = data[at:at + size]
        bits = [bool(byte & (128 >> i)) for byte in taken for i in range(8)]
        if len(taken) < size or any(bits[self.stem_count:]):
            raise Fault("a mask is cut, or has spare bits")
        self.masks.append((bits[:self.stem_count], len(self.drawn)))
        return at + size

    def draw_all(self, kind, n):
        ops = self.ops
        for i in range(0, len(ops), n):
            self.draw(kind, ops[i:i + n])

    def draw(self, kind, deltas):
        points = []
        for dx, dy in zip(deltas[0::2], deltas[1::2]):
            self.at = (self.at[0] + dx, self.at[1] + dy)
            if abs(self.at[0]) > 2 ** 60 or abs(self.at[1]) > 2 ** 60:
                raise Fault("a coordinate beyond 2^60")
            points.append(self.at)
        self.drawn.append((kind, points))
        self.ops = []


# ---- comparing

def apart(v, n):
    """The distance of a number and a count of 1/65536, in 1/65536."""
    return abs(Fraction(v) * UNIT - n)


def compare(listed, drawn):
    """Entries that differ in kind or are there on one side only, and the largest distance of two coordinates in 1/65536."""
    wrong = [i for i in range(max(len(listed), len(drawn)))
             if i >= len(listed) or i >= len(drawn) or listed[i][0] != drawn[i][0]]
    largest = Fraction(0)
    for (kind, points), (other, reached) in zip(listed, drawn):
        if kind == other:
            for p, q in zip(points, reached):
                for v, n in zip(p, q):
                    largest = max(largest, apart(v, n))
    return wrong, largest


class Outline:
    """What a glyph's Type 1 run draws under a matrix."""

    def __init__(self, font, name, charstring, matrix, strict=False):
        self.name = name
        self.machine = None
        fold = Fold(matrix)
        self.run = Type1Run(font, strict=strict).glyph(charstring)
        self.listed = fold.entries(self.run.listed)
        self.groups = fold.groups(self.run.groups)
        self.width = fold.width(self.run.width)

    def keep_finite(self):
        """Of a refused glyph only what can be shown is kept."""
        if not all(is_finite(v) for _, points in self.listed for p in points for v in p):
            self.listed = []
        if not is_finite(self.width):
            self.width = 0.0


class Glyph(Outline):
    """A glyph's two runs, and what differs between them."""

    def __init__(self, font, name, charstring, row, widths, matrix, strict=False):
        super().__init__(font, name, charstring, matrix, strict)
        self.row = row
        self.differs = []
        self.wrong, self.deviation, self.exact = [], None, None
        if row.number or self.run.number_given:
            self.compare_numbers()
            self.keep_finite()
        else:
            self.machine = Type2Machine().glyph(row.code)
            self.compare_runs(widths, matrix == IDENTITY)
        if self.machine and self.run.divided:
            exact = Type1Run(font, Fraction).glyph(charstring)
            entries = Fold(matrix, Fraction).entries(exact.listed)
            wrong, distance = compare(entries, self.machine.drawn)
            self.exact = None if wrong else distance

    def compare_numbers(self):
        own, given = self.run.number_given, self.row.number
        # 13 and 17 to 20 are given after the run, and 14 and 16 may be; the run alone cannot tell.
        if own and own != given:
            self.differs.append("refused with %d here" % own)
        if not own and given not in (1, 2, 13, 14, 16, 17, 18):
            self.differs.append("not refused here")

    def compare_runs(self, widths, identity):
        m = self.machine
        if m.fault:
            self.differs.append("fault: " + m.fault)
        if m.unread:
            self.differs.append("%d bytes after the endchar" % m.unread)
        self.wrong, self.deviation = compare(self.listed, m.drawn)
        if self.wrong:
            self.differs.append("%d entries differ in kind, the first is entry %d" % (len(self.wrong), self.wrong[0]))
        if self.deviation > 1 or (self.deviation and identity and not self.run.divided):
            self.differs.append("coordinates off by %s" % units(self.deviation))
        stems = distinct_stems(self.groups)
        if m.stem_count != len(stems):
            self.differs.append("%d stems for %d" % (m.stem_count, len(stems)))
        elif any(s[0] != t[0] or apart(s[1], t[1]) > 1 or apart(s[2], t[2]) > 1 for s, t in zip(stems, m.stems)):
            self.differs.append("stem edges")
        if any(apart(v, n) > 1 for v, n in zip(self.run.heights, m.heights)):
            self.differs.append("flex height")
        if m.masks != masks_of(self.groups):
            self.differs.append("masks")
        if m.width != widths.put(self.width):
            self.differs.append("width")
        if self.row.ran != self.run.ran:
            self.differs.append("bytes run: %d here" % self.run.ran)


# ---- what `cribstork` prints

class Row:
    def __init__(self, name, number, ran):
        self.name, self.number, self.ran = name, number, ran
        self.code = b""


class Widths:
    """The font's default and nominal width. Five places are printed, which is enough for multiples of 1/65536."""

    def __init__(self, default, nominal):
        self.default, self.nominal = (round(Fraction(v) * UNIT) for v in (default, nominal))

    def put(self, width):
        """The number that Finishing puts first, in 1/65536, or None."""
        w = quantize(width)
        if w == self.default / UNIT:
            return None
        return int(quantize(w - self.nominal / UNIT) * UNIT)


ROW = re.compile(r"(\S*) +(\d+) +(\d+|-) +(-?[\d.]+|-) +(\d+|-)(?:  .*)?$")
HEX = re.compile(r" {4}((?:[0-9a-f]{2})+)$")
PAIR = re.compile(r"default width: (-?[\d.]+); nominal width: (-?[\d.]+)$")


def printed(name):
    """A name as the program prints it: a byte that would break a line or a column is a question mark."""
    return re.sub(r"[\0-\x1f\x7f]", "?", name)


def read_table(text):
    """The rows of the table, and the widths below it."""
    rows, widths, inside = [], None, False
    for line in text.split("\n"):
        m = PAIR.match(line)
        if m:
            widths = Widths(*m.groups())
        if line.startswith("glyph ") and line.split() == ["glyph", "number", "bytes", "width", "run"]:
            inside = True
        elif re.match(r"glyphs: \d+; converted: ", line):
            inside = False
        elif inside and rows and HEX.match(line):
            rows[-1].code = bytes.fromhex(HEX.match(line).group(1))
        elif inside and ROW.match(line):
            name, number, _, _, ran = ROW.match(line).groups()
            rows.append(Row(name, int(number), 0 if ran == "-" else int(ran)))
    return rows, widths


# ---- the page

def units(v):
    """A count of 1/65536."""
    return str(v.numerator) if v.denominator == 1 else "%.4g" % float(v)


def decimal(v):
    s = "%.4f" % float(v)
    s = s.rstrip("0").rstrip(".")
    return "0" if s == "-0" else s


def pair(p):
    return decimal(p[0]) + " " + decimal(p[1])


def drawn_piece(entry):
    kind, points = entry
    if kind in (MOVE, LINE):
        return "ML"[kind == LINE] + pair(points[0])
    return "C" + " ".join(map(pair, points))


def filled_path(entries):
    """One path, each subpath closed."""
    out = ""
    for entry in entries:
        if entry[0] == MOVE and out:
            out += "Z"
        out += drawn_piece(entry)
    return out + "Z" if out else ""


def line_paths(entries, masks):
    """The outline as a line, one path for the entries under each mask: the mask's place and the path."""
    starts = {before: i for i, (_, before) in enumerate(masks)}
    pieces, begin, at, out, under = [], None, None, "", 0
    for i, entry in enumerate(entries):
        kind, points = entry
        if kind == MOVE and begin is not None and at != begin:
            out += "L" + pair(begin)
        if i in starts:
            pieces.append((under, out))
            under, out = starts[i], "" if kind == MOVE else "M" + pair(at)
        out += drawn_piece(entry)
        at = points[-1]
        if kind == MOVE:
            begin = at
    if begin is not None and at != begin:
        out += "L" + pair(begin)
    pieces.append((under, out))
    return [(u, p) for u, p in pieces if p]


def points_path(entries):
    """A dot where each entry ends."""
    return "".join("M%sh0" % pair(points[-1]) for _, points in entries)


def band(box, horizontal, pos, width):
    """A stem across the picture. An edge hint (width −20 or −21) is a thin band at its edge."""
    x, y, side = box
    if width in (-20, -21):
        pos, width = (pos - 21, 2) if width == -21 else (pos, 2)
    low, high = decimal(min(pos, pos + width)), decimal(max(pos, pos + width))
    left, right = decimal(x), decimal(x + side)
    bottom, top = decimal(y), decimal(y + side)
    if horizontal:
        return "M%s %sH%sV%sH%sZ" % (left, low, right, high, left)
    return "M%s %sV%sH%sV%sZ" % (low, bottom, top, high, bottom)


class Frame:
    """One scale for the font: a square that holds most of its glyphs. A glyph beyond it gets a larger square of its own."""

    def __init__(self, glyphs):
        ys = [[p[1] for _, points in g.listed for p in points] for g in glyphs]
        lows, highs = sorted(min(v) for v in ys if v), sorted(max(v) for v in ys if v)
        self.low = lows[len(lows) // 20] if lows else 0
        self.high = highs[len(highs) - 1 - len(highs) // 20] if highs else 1000
        self.side = max(self.high - self.low, 1) * 1.16

    def box(self, g):
        points = [p for _, ps in g.listed for p in ps]
        xs = [p[0] for p in points] + [0, g.width]
        ys = [p[1] for p in points] + [self.low, self.high]
        side = max(self.side, (max(xs) - min(xs)) * 1.1, (max(ys) - min(ys)) * 1.1)
        return ((min(xs) + max(xs) - side) / 2, (min(ys) + max(ys) - side) / 2, side)


def picture(g, frame):
    x, y, side = box = frame.box(g)
    out = ['<svg viewBox="%s %s %s %s" role="img" aria-label="%s"><g transform="scale(1 -1)">'
           % (decimal(x), decimal(-y - side), decimal(side), decimal(side), html.escape(g.name))]
    out.append('<path class="em" d="M%s 0h%sM0 %sv%sM%s %sv%s"/>'
               % (decimal(x), decimal(side), decimal(y), decimal(side), decimal(g.width), decimal(y), decimal(side)))
    if g.machine:
        for horizontal, name in ((True, "h"), (False, "v")):
            d = "".join(band(box, h, Fraction(p, UNIT), Fraction(w, UNIT)) for h, p, w in g.machine.stems if h == horizontal)
            if d:
                out.append('<path class="%s" d="%s"/>' % (name, d))
    if g.listed:
        out.append('<path class="t1" d="%s"/>' % filled_path(g.listed))
    if g.machine and g.machine.drawn:
        drawn = [(kind, [(Fraction(u, UNIT), Fraction(v, UNIT)) for u, v in points]) for kind, points in g.machine.drawn]
        for under, d in line_paths(drawn, g.machine.masks):
            out.append('<path class="t2%s" d="%s"/>' % (" m%d" % (under % 6) if g.machine.masks else "", d))
        out.append('<path class="dots" d="%s"/>' % points_path(drawn))
    out.append("</g></svg>")
    return "".join(out)


def mask_list(g):
    if not g.machine or not g.machine.masks:
        return ""
    items = "".join('<li class="m%d"><i></i>from entry %d <code>%s</code></li>'
                    % (i % 6, before, "".join("01"[b] for b in bits)) for i, (bits, before) in enumerate(g.machine.masks))
    return '<ol class="masks">%s</ol>' % items


def card(g, frame):
    kind = "bad" if g.differs else "refused" if g.row.number else ""
    out = ['<figure class="%s">' % kind if kind else "<figure>", picture(g, frame)]
    out.append('<figcaption><b title="%s">%s</b>' % (html.escape(g.name), html.escape(g.name)))
    if g.row.number:
        out.append("<span>refused with %d: %s</span>" % (g.row.number, MEANINGS.get(g.row.number, "unknown number")))
    else:
        out.append("<span>%d bytes · width %s</span>" % (len(g.row.code), decimal(g.width)))
        if g.deviation is not None:
            text = "deviation %s" % units(g.deviation)
            if g.exact is not None:
                text += ' · <span title="distance from the outline in exact fractions">exact %s</span>' % units(g.exact)
            out.append('<span class="dev%s">%s</span>' % (" some" if g.deviation else "", text))
    out += ['<span class="differs">%s</span>' % html.escape(d) for d in g.differs]
    out.append("</figcaption>" + mask_list(g) + "</figure>")
    return "".join(out)


HEAD_STYLE = """
:root{--ink:#23303d;--dim:#74808c;--line:#e3e0da;--red:#b3261e}
*{box-sizing:border-box}
body{margin:0;padding:24px 28px;background:#f7f5f1;color:var(--ink);font:13px/1.4 system-ui,sans-serif}
h1{margin:0;font-size:22px;font-weight:600}
p{margin:4px 0;max-width:80em}
table{border-collapse:collapse;margin:12px 0}
td{padding:2px 18px 2px 0;vertical-align:top}
td:first-child{color:var(--dim)}
label{margin-right:16px;cursor:pointer;user-select:none}
.key{display:inline-block;width:12px;height:12px;margin-right:5px;vertical-align:-2px}
main{display:grid;grid-template-columns:repeat(auto-fill,minmax(136px,1fr));gap:10px;margin-top:14px}
"""

# The glyphs' figures, which banks.py has too.
FIGURE_STYLE = """\
figure{margin:0;background:#fff;border:1px solid var(--line);border-radius:5px;overflow:hidden;content-visibility:auto;contain-intrinsic-size:136px 205px}
svg{display:block;width:100%;aspect-ratio:1}
figcaption{padding:5px 8px 7px;border-top:1px solid var(--line);font-size:11px}
figcaption b{display:block;font-size:12px;overflow:hidden;text-overflow:ellipsis;white-space:nowrap}
figcaption>span{display:block;color:var(--dim)}
figcaption>.some{color:var(--ink)}
figcaption>.differs,.red{color:var(--red);font-weight:600}
.refused{background:#faf0e6}
.refused .t1{fill:#e6ded4;stroke:#cfc4b6}
.bad{border:2px solid var(--red)}
path{vector-effect:non-scaling-stroke}
.em{fill:none;stroke:#dcd8d0;stroke-width:1px}
.t1{fill:#f2cf94;stroke:#f2cf94;stroke-width:2.5px;stroke-linejoin:round}
"""

LAYER_STYLE = """\
.t2{fill:none;stroke:#1d3f66;stroke-width:1.1px;stroke-linejoin:round}
.dots{fill:none;stroke:#1d3f66;stroke-width:4px;stroke-linecap:round}
.h{fill:#c8443a;fill-opacity:.22}
.v{fill:#2f7fb8;fill-opacity:.22}
.masks{margin:0;padding:0 8px 8px;list-style:none;font-size:10px;color:var(--dim)}
.masks i{display:inline-block;width:8px;height:8px;margin-right:4px;background:var(--m)}
.masks code{overflow-wrap:anywhere;color:var(--ink)}
.m0{--m:#1d3f66}.m1{--m:#c8443a}.m2{--m:#3d8b4f}.m3{--m:#8a4fb0}.m4{--m:#c27a10}.m5{--m:#0f8b8d}
#see-t1:not(:checked)~main .t1,#see-t2:not(:checked)~main .t2,#see-dots:not(:checked)~main .dots,
#see-hints:not(:checked)~main .h,#see-hints:not(:checked)~main .v,#see-masks:not(:checked)~main .masks{display:none}
#see-masks:checked~main .t2[class*=m]{stroke:var(--m);stroke-width:1.8px}
"""

SWITCHES = [
    ("see-t1", "Type 1", "#f2cf94", True), ("see-t2", "Type 2", "#1d3f66", True), ("see-dots", "points", "#1d3f66", False),
    ("see-hints", "hints", "#d98f89", False), ("see-masks", "masks", "#3d8b4f", False),
]


class Sums:
    def __init__(self, glyphs):
        self.glyphs = len(glyphs)
        done = [g for g in glyphs if g.machine]
        self.compared = len(done)
        self.refused = {}
        for g in glyphs:
            if g.row.number:
                self.refused[g.row.number] = self.refused.get(g.row.number, 0) + 1
        self.entries = sum(len(g.listed) for g in done)
        self.points = sum(len(points) for g in done for _, points in g.listed)
        self.divided = sum(g.run.divided for g in done)
        self.wrong = sum(len(g.wrong) for g in done)
        self.largest = max([g.deviation for g in done], default=Fraction(0))
        self.exact = max([g.exact for g in done if g.exact is not None], default=None)
        self.masked = sum(bool(g.machine.masks) for g in done)
        self.flexes = sum(kind == FLEX for g in done for kind, _ in g.listed)
        self.differing = sum(bool(g.differs) for g in glyphs)

    def line(self):
        return ("glyphs: %d; compared: %d; refused: %d; entries: %d; flexes: %d; points: %d; with a div: %d; with masks: %d; "
                "largest deviation in 1/65536: %s; entries that differ in kind: %d; glyphs that differ: %d"
                % (self.glyphs, self.compared, sum(self.refused.values()), self.entries, self.flexes, self.points, self.divided,
                   self.masked, units(self.largest), self.wrong, self.differing))


def red(n):
    return '<span class="red">%d</span>' % n if n else "0"


def page(font, path, matrix, widths, glyphs):
    s = Sums(glyphs)
    frame = Frame(glyphs)
    refused = "; ".join("%d with %d (%s)" % (n, number, MEANINGS.get(number, "unknown")) for number, n in sorted(s.refused.items()))
    largest = units(s.largest)
    if s.exact is not None:
        largest += "; from the outline in exact fractions, where a div ran: %s" % units(s.exact)
    facts = [
        ("file", html.escape(os.path.basename(path))),
        ("matrix applied", " ".join(decimal(v) for v in matrix)),
        ("glyphs", "%d; %d converted and compared" % (s.glyphs, s.compared)),
        ("refused", refused or "none"),
        ("compared", "entries: %d, of them flexes: %d; points: %d; glyphs with a div: %d, with masks: %d"
         % (s.entries, s.flexes, s.points, s.divided, s.masked)),
        ("largest deviation", largest + " (in 1/65536; at most 1 is allowed)"),
        ("entries that differ in kind", red(s.wrong)),
        ("glyphs that differ in anything", red(s.differing)),
        ("default and nominal width", "%s and %s" % (decimal(Fraction(widths.default, UNIT)), decimal(Fraction(widths.nominal, UNIT)))),
    ]
    out = ['<!DOCTYPE html><html lang="en"><head><meta charset="utf-8"><meta name="viewport" content="width=device-width">']
    out.append("<title>%s</title><style>%s</style></head><body>" % (html.escape(font.name), HEAD_STYLE + FIGURE_STYLE + LAYER_STYLE))
    out.append("<h1>%s</h1>" % html.escape(font.name))
    out.append("<p>Beneath, filled: the Type 1 glyph. Above, a line: the Type 2 glyph, from its finished bytes.</p><table>")
    out += ["<tr><td>%s</td><td>%s</td></tr>" % f for f in facts]
    out.append("</table>")
    for name, text, colour, on in SWITCHES:
        out.append('<input type="checkbox" id="%s"%s><label for="%s"><span class="key" style="background:%s"></span>%s</label>'
                   % (name, " checked" if on else "", name, colour, text))
    out.append("<main>")
    out += [card(g, frame) for g in glyphs]
    out.append("</main></body></html>")
    return "\n".join(out) + "\n", s


# ---- the command

def asked_matrix(options, font):
    if options.matrix:
        return [float(v) for v in options.matrix]
    if options.font_matrix and font.matrix and len(font.matrix) == 6:
        return [1000.0 * float(v) for v in font.matrix]
    return IDENTITY


def asked_options(options):
    matrix = ["--matrix"] + options.matrix if options.matrix else ["--font-matrix"] if options.font_matrix else []
    return matrix + ["--strict"] * options.strict


def stop(text):
    sys.stderr.write("specimen: %s\n" % text)
    sys.exit(2)


def main():
    p = argparse.ArgumentParser(description="A specimen page of a Type 1 font and of its Type 2 glyphs.")
    p.add_argument("--cribstork", default="target/bin/cribstork", metavar="PROGRAM", help="the program (default: %(default)s)")
    p.add_argument("--font-matrix", action="store_true", help="apply the font's matrix, in thousandths")
    p.add_argument("--matrix", nargs=6, metavar=("A", "B", "C", "D", "TX", "TY"), help="apply this matrix")
    p.add_argument("--strict", action="store_true", help="the strict reading: 24 operands fit")
    p.add_argument("font", metavar="FONT")
    options = p.parse_args()
    try:
        with open(options.font, "rb") as f:
            font = Font(f.read())
        ran = subprocess.run([options.cribstork, options.font, "--hex"] + asked_options(options),
                             stdout=subprocess.PIPE, stderr=subprocess.PIPE)
    except (OSError, NoFont) as e:
        stop(e)
    rows, widths = read_table(ran.stdout.decode("latin-1"))
    if widths is None:
        stop("cribstork printed no table: " + (ran.stderr or ran.stdout).decode("latin-1").strip()[:200])
    if [r.name for r in rows] != [printed(name) for name, _ in font.glyphs]:
        stop("cribstork printed other glyphs than the font has: %d for %d" % (len(rows), len(font.glyphs)))
    matrix = asked_matrix(options, font)
    glyphs = [Glyph(font, name, code, row, widths, matrix, options.strict) for (name, code), row in zip(font.glyphs, rows)]
    out, sums = page(font, options.font, matrix, widths, glyphs)
    sys.stdout.buffer.write(out.encode("utf-8"))
    sys.stderr.write("%s: %s\n" % (os.path.basename(options.font), sums.line()))
    sys.exit(1 if sums.differing else 0)


if __name__ == "__main__":
    main()
