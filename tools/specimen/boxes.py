#!/usr/bin/env python3
"""Compares the boxes and verdicts that `cribstork --window` prints with those of specimen.py's Type 2 machine on the finished bytes.

    boxes.py [--cribstork target/bin/cribstork] [--seed N] [--windows N] FONT..

Each font is read with windows that lie about its glyphs: through corners and edges of boxes, 1/65536 beside them, and anywhere.
The exit status is 1 where something differs, 2 where there is nothing to compare.
"""
import argparse
import random
import re
import subprocess
import sys

sys.dont_write_bytecode = True
import specimen

COLUMN = re.compile(r"(\S*) +0 +\d+ +-?[\d.]+ +\d+  (within|crossing|outside|no point) +(-|(?:-?[\d.]+ ?){4})$")
COUNTS = re.compile(r"window: (.*); within: (\d+); crossing: (\d+); outside: (\d+); no point: (\d+)$")
WORDS = ("within", "crossing", "outside", "no point")


def five_places(n):
    """A number of 1/65536 as the program prints it."""
    whole, part = divmod(abs(n), 65536)
    shown = "%d.%05d" % (whole, (part * 100000 + 32768) // 65536)
    return ("-" if n < 0 else "") + shown.rstrip("0").rstrip(".")


def exactly(n):
    """A number of 1/65536 in all its places."""
    whole, part = divmod(abs(n), 65536)
    return ("-" if n < 0 else "") + "%d.%016d" % (whole, part * 10 ** 16 // 65536)


def box_of(code):
    """Least x, least y, greatest x, greatest y of all points that are drawn; None where the machine faults or draws none."""
    machine = specimen.Type2Machine().glyph(code)
    points = [p for _, reached in machine.drawn for p in reached]
    if machine.fault or not points:
        return None
    xs, ys = zip(*points)
    return min(xs), min(ys), max(xs), max(ys)


def verdict(box, window):
    if box is None:
        return "no point"
    least = [max(box[i], window[i]) for i in (0, 1)]
    greatest = [min(box[i], window[i]) for i in (2, 3)]
    if least[0] > greatest[0] or least[1] > greatest[1]:
        return "outside"
    return "within" if (*least, *greatest) == box else "crossing"


def ask(options, font, window):
    """What the program prints of a font: each glyph's name, verdict, box and bytes, and the last line's counts."""
    numbers = [exactly(n) for n in window]
    ran = subprocess.run([options.cribstork, "--hex", "--window", *numbers, font], stdout=subprocess.PIPE, stderr=subprocess.DEVNULL)
    rows, counts = [], None
    for line in ran.stdout.decode("latin-1").split("\n"):
        m = COLUMN.match(line)
        if m:
            rows.append([*m.groups(), b""])
        elif rows and specimen.HEX.match(line):
            rows[-1][3] = bytes.fromhex(specimen.HEX.match(line).group(1))
        counts = COUNTS.match(line) or counts
    return rows, counts.groups() if counts else None


def windows(boxes, n):
    """Windows that touch boxes, lie 1/65536 beside them, or lie anywhere near; some have no point."""
    out = [(0, 0, 0, 0)]
    while boxes and len(out) < n:
        a, b = random.choice(boxes), random.choice(boxes)
        kind = random.randrange(5)
        if kind == 0:
            w = [v + random.choice((-1, 0, 0, 0, 1)) for v in a]
        elif kind == 1:
            w = [random.choice((a, b))[i] + random.choice((-1, 0, 1)) for i in range(4)]
        elif kind == 2:
            w = [a[random.choice((0, 2))], a[random.choice((1, 3))], b[random.choice((0, 2))], b[random.choice((1, 3))]]
        elif kind == 3:  # beside the box, at one of its sides
            w, side = list(a), random.randrange(4)
            w[(side + 2) % 4] = a[side] + random.choice((-1, 0, 1))
            w[side] = a[side] + random.randrange(2 ** 20) * (-1 if side < 2 else 1)
        else:
            w = [random.randrange(-2 ** 27, 2 ** 27) for _ in range(4)]
        out.append(tuple(w))
    return out


def main():
    p = argparse.ArgumentParser(description="Compares boxes and verdicts with specimen.py's Type 2 machine.")
    p.add_argument("--cribstork", default="target/bin/cribstork", metavar="PROGRAM", help="the program (default: %(default)s)")
    p.add_argument("--seed", type=int, default=1, help="default: %(default)s")
    p.add_argument("--windows", type=int, default=12, metavar="N", help="windows for each font (default: %(default)s)")
    p.add_argument("font", nargs="+", metavar="FONT")
    options = p.parse_args()
    random.seed(options.seed)
    fonts = compared = different = 0
    seen = dict.fromkeys(WORDS, 0)
    for font in options.font:
        rows, _ = ask(options, font, (0, 0, 0, 0))
        known = {code: box_of(code) for _, _, _, code in rows}
        fonts += bool(rows)
        for window in windows([b for b in known.values() if b], options.windows):
            rows, counts = ask(options, font, window)
            words = [verdict(known[code], window) for _, _, _, code in rows]
            for (name, word, box, code), wanted in zip(rows, words):
                compared += 1
                seen[wanted] += 1
                shown = " ".join(map(five_places, known[code])) if known[code] else "-"
                if (word, box) != (wanted, shown):
                    different += 1
                    print("%s %s: %s %s, and the machine says %s %s" % (font, name, word, box, wanted, shown))
            if counts != (" ".join(map(five_places, window)), *(str(words.count(w)) for w in WORDS)):
                different += 1
                print("%s: the last line has %s" % (font, counts))
    print("fonts %d, compared %d (%s), different %d" % (fonts, compared, ", ".join("%s %d" % (w, seen[w]) for w in WORDS), different))
    sys.exit(2 if not compared else 1 if different else 0)


if __name__ == "__main__":
    main()
