#!/usr/bin/env python3
"""Compares how three readers read Type 1 font files: ours (cribstork), fontTools and FreeType.

    readers.py --binary PATH FONT..                                 the files as they are
    readers.py --binary PATH --damaged N [--seed S] [--first K] FONT..   and N damaged copies of them (damage.py)

    --save FILE      keeps what was found of each file, for --again
    --again FILE     classifies what was kept, without reading anything
    --keep FOLDER    keeps the copies that are not explained
    --markdown FILE  writes the classes as a table

Of each file it compares: whether it is readable; the glyphs' names; how many subroutines; and each glyph. FreeType and fontTools
give a glyph's decrypted charstring and the subroutines. These are run here (tools/specimen has document 01's Type 1 run), our
finished bytes are run on its Type 2 machine, and both are to draw the same, with the same stems, masks, width and bytes run,
or to be refused with the same number. Of the files as they are all glyphs are also compared with FreeType's unscaled
outlines, of a damaged copy a few.

Each reader has a time limit for each file. fontTools and FreeType run in a process of their own, which is started again after
a crash. A disagreement is in a class, each with its reason, or it is unexplained. The status is 1 where one is unexplained,
where our program crashed, hung or said nothing, or where it lost a glyph that another reader has and did not say so.
"""
import argparse
import collections
import ctypes
import hashlib
import multiprocessing
import os
import pickle
import random
import re
import resource
import subprocess
import sys
import tempfile
import time
from types import SimpleNamespace

HERE = os.path.dirname(os.path.abspath(__file__))
sys.path.insert(0, HERE)
sys.path.insert(0, os.path.join(HERE, "..", "specimen"))
import damage  # noqa: E402
import specimen  # noqa: E402
from classes import classify, CLASSES, SMALLEST  # noqa: E402

SECONDS = 20
MEMORY = 2 << 30
PER_CALL = 200
SAMPLE = 6


# ---- the other two readers, each in a process of its own

def limit_memory():
    resource.setrlimit(resource.RLIMIT_AS, (MEMORY, MEMORY))


def read_fonttools(path, _):
    """Names, charstrings and subroutines, decrypted, as fontTools has them."""
    from fontTools import t1Lib
    # Bytes above 127 in names, strings and comments are read as Latin-1.
    font = t1Lib.T1Font(path, encoding="latin-1")
    font.parse()
    private = font["Private"]
    glyphs = [(name.encode("latin-1"), bytes(code.bytecode)) for name, code in font["CharStrings"].items()]
    return {"glyphs": glyphs, "subrs": [bytes(s.bytecode) for s in private["Subrs"]], "len_iv": private.get("lenIV", 4), "matrix": font.font.get("FontMatrix")}


def quick_decrypt(cipher, key):
    """fontTools' decrypt, quicker."""
    return damage.decrypt(cipher, key), None


NUM_CHARSTRINGS, CHARSTRING_KEY, CHARSTRING, NUM_SUBRS, SUBR, LEN_IV, FONT_MATRIX = 6, 7, 8, 11, 12, 33, 1
ROOM = 1 << 21


class FreeTypeReader:
    """What FreeType read, by FT_Get_PS_Font_Value, and outlines."""

    def __init__(self):
        import freetype
        import freetype.raw
        self.freetype = freetype
        self.value = freetype.raw._lib.FT_Get_PS_Font_Value
        self.value.restype = ctypes.c_long
        self.value.argtypes = [ctypes.c_void_p, ctypes.c_int, ctypes.c_uint, ctypes.c_void_p, ctypes.c_long]
        self.room = ctypes.create_string_buffer(ROOM)

    def bytes(self, face, key, i):
        n = self.value(face._FT_Face, key, i, self.room, ROOM - 8)
        return ctypes.string_at(self.room, n - 1) if n > 0 else None

    def number(self, face, key, i=0):
        n = self.value(face._FT_Face, key, i, self.room, ROOM - 8)
        return int.from_bytes(ctypes.string_at(self.room, n), "little", signed=True) if n > 0 else None

    def outline(self, face, i):
        try:
            face.load_glyph(i, self.freetype.FT_LOAD_NO_SCALE)
        except self.freetype.FT_Exception as e:
            return str(e)
        o = face.glyph.outline
        return list(o.points), [t & 3 for t in o.tags], list(o.contours)

    def __call__(self, path, asked):
        face = self.freetype.Face(path)
        form = face.get_format().decode()
        if form != "Type 1":
            raise ValueError("read as " + form)
        glyphs = [(self.bytes(face, CHARSTRING_KEY, i), self.bytes(face, CHARSTRING, i)) for i in range(self.number(face, NUM_CHARSTRINGS))]
        count = self.number(face, NUM_SUBRS)
        last = max([i for i in range(count) if self.bytes(face, SUBR, i) is not None] + [-1])
        subrs = [self.bytes(face, SUBR, i) for i in range(last + 1)]
        all_of_them = range(len(glyphs))
        chosen = all_of_them if asked is None else random.Random(os.path.basename(path)).sample(all_of_them, min(asked, len(glyphs)))
        return {"glyphs": glyphs, "subrs": subrs, "declared": count, "len_iv": self.number(face, LEN_IV),
                "matrix": [self.number(face, FONT_MATRIX, i) for i in range(4)], "outlines": {i: self.outline(face, i) for i in chosen}}


def serve(name, pipe):
    """Answers until the process that asks is gone."""
    asking = os.getppid()
    limit_memory()
    if name == "fontTools":
        from fontTools.misc import eexec
        eexec.decrypt = quick_decrypt
        read = read_fonttools
    else:
        read = FreeTypeReader()
    while True:
        while not pipe.poll(5):
            if os.getppid() != asking:
                return
        path, asked = pipe.recv()
        try:
            answer = dict(read(path, asked), state="read")
        except Exception as e:
            answer = {"state": "refused", "error": f"{type(e).__name__}: {e}"[:200]}
        pipe.send(answer)


class Worker:
    """A reader in a process of its own, with a time limit for each file."""

    def __init__(self, name):
        self.name, self.process = name, None

    def start(self):
        self.pipe, other = multiprocessing.Pipe()
        self.process = multiprocessing.Process(target=serve, args=(self.name, other), daemon=True)
        self.process.start()
        other.close()

    def stop(self):
        if self.process:
            self.process.kill()
            self.process.join()
            self.process = None

    def read(self, path, asked):
        if not self.process:
            self.start()
        try:
            self.pipe.send((path, asked))
            if self.pipe.poll(SECONDS):
                return self.pipe.recv()
            answer = {"state": "hang", "error": f"no answer after {SECONDS} s"}
        except (EOFError, BrokenPipeError, ConnectionResetError):
            self.process.join()
            answer = {"state": "crash", "error": f"ended with {self.process.exitcode}"}
        self.stop()
        return answer


# ---- our program

ROW = re.compile(rb"(.*?) +(\d+) +(\d+|-) +(-?[\d.e+-]+|-) +(\d+|-)(?:  .*)?$", re.S)
HEX = re.compile(rb" {4}((?:[0-9a-f]{2})*)$")
HEAD = re.compile(rb"FontMatrix: (.*?)(?:; lenIV: (-?\d+)|; not encrypted|; lenIV: not encrypted)?; subroutines: (\d+).*; bytes of the bank: (\d+)", re.S)
KNOWN = re.compile(rb"  refused with |largest stores needed: |no glyph of that name|font\tglyphs\t|$")


class Ours:
    """What our program printed of a font."""

    def __init__(self):
        self.state, self.message = "read", ""
        self.rows, self.notes = [], []
        self.matrix, self.len_iv, self.subrs, self.glyphs, self.widths = "", None, 0, None, None


def parse_ours(stdout, stderr, paths):
    """The answer of each path: Ours, or none where nothing was said of it."""
    known = {p.encode(): p for p in paths}
    fonts, here, inside = {}, None, False
    lines = stdout.split(b"\n")
    at = 0
    while at < len(lines):
        line = lines[at]
        at += 1
        if inside:
            found = re.match(rb"glyphs: (\d+); converted: (\d+); refused: (\d+)", line)
            if found:
                inside, here.glyphs = False, int(found.group(1))
                continue
            found = ROW.match(line)
            if found:
                name, number, size, width, ran = found.groups()
                row = specimen.Row(name, int(number), 0 if ran == b"-" else int(ran))
                if at < len(lines) and number == b"0" and HEX.match(lines[at]):
                    row.code = bytes.fromhex(HEX.match(lines[at]).group(1).decode())
                    at += 1
                here.rows.append(row)
            continue
        if line in known:
            here = fonts[known[line]] = Ours()
            continue
        trouble = trouble_of(line, known)
        if trouble:
            fonts[trouble[0]] = refused(trouble[1])
            continue
        if here is None:
            continue
        found = HEAD.match(line)
        widths = re.match(rb"default width: (\S+); nominal width: (\S+)", line)
        if found:
            here.matrix = found.group(1).decode("latin-1").strip()
            here.len_iv = int(found.group(2)) if found.group(2) else None
            here.subrs = int(found.group(3))
            if b"not encrypted" not in line and here.len_iv is None:
                here.len_iv = 4
        elif line.startswith(b"glyph ") and line.split() == [b"glyph", b"number", b"bytes", b"width", b"run"]:
            inside = True
        elif widths:
            here.widths = tuple(w.decode() for w in widths.groups())
        elif not KNOWN.match(line) and not any(line.startswith(p + b"\t") for p in known):
            here.notes.append(line.decode("latin-1"))
    for line in stderr.split(b"\n"):
        trouble = trouble_of(line, known)
        if trouble:
            fonts[trouble[0]] = refused(trouble[1])
    return fonts


def trouble_of(line, known):
    """A line PATH: what is wrong."""
    at = line.find(b": ")
    while at >= 0:
        if line[:at] in known:
            return known[line[:at]], line[at + 2:].decode("latin-1")
        at = line.find(b": ", at + 2)
    return None


def refused(message):
    o = Ours()
    o.state, o.message = "refused", message
    return o


def call_ours(binary, paths, seconds):
    """Standard output and error, or a word that says how it ended. Two paths at least give one form of output."""
    words = [binary, "--table", "--hex", *paths] + (["/dev/null"] if len(paths) == 1 else [])
    try:
        run = subprocess.run(words, capture_output=True, timeout=seconds)
    except subprocess.TimeoutExpired:
        return "hang", b"", b""
    if run.returncode < 0 or run.returncode > 100:
        return f"crash ({run.returncode})", run.stdout, run.stderr
    return "", run.stdout, run.stderr


def read_ours(binary, paths):
    """Our answer of each path."""
    ended, out, err = call_ours(binary, paths, SECONDS + 2 * len(paths))
    fonts = parse_ours(out, err, paths) if not ended else {}
    if not ended and all(p in fonts for p in paths):
        return fonts
    fonts = {}
    for path in paths:
        ended, out, err = call_ours(binary, [path], SECONDS)
        got = parse_ours(out, err, [path]).get(path) if not ended else None
        if got is None:
            got = refused(ended or "nothing was said")
            got.state = ended.split()[0] if ended else "silent"
        fonts[path] = got
    return fonts


# ---- comparing

class Run(specimen.Type1Run):
    """The Type 1 run of decrypted bytes, with the bodies that it used. `charged` counts the charstrings that it ran, to each of
    which lenIV bytes are added. A body that is not there has none, and runs as an empty one."""

    def __init__(self, subrs):
        super().__init__(SimpleNamespace(subrs=[s or b"" for s in subrs], len_iv=None))
        self.given, self.used, self.charged = subrs, {}, 1

    def call(self, depth):
        n = self.stack[-1] if self.stack else None
        if n is not None and 0 <= n < len(self.subrs):
            self.used[int(n)] = self.given[int(n)]
            self.charged += self.given[int(n)] is not None
        return super().call(depth)


class Contents:
    """Compares charstrings with our rows, and remembers what it found."""

    def __init__(self):
        self.runs, self.verdicts, self.machines = {}, {}, {}

    def run(self, code, subrs):
        """The run of a charstring; one that used the same bodies before is taken again."""
        known = self.runs.setdefault(code, [])
        for run in known:
            if run.count == len(subrs) or not run.refused_8:
                if all(i < len(subrs) and subrs[i] == body for i, body in run.used.items()):
                    return run
        run = Run(subrs).glyph(code)
        run.count, run.refused_8 = len(subrs), run.number_given == 8
        known.append(run)
        return run

    def machine(self, code):
        if code not in self.machines:
            self.machines[code] = specimen.Type2Machine().glyph(code)
        return self.machines[code]

    def differs(self, row, widths, code, subrs, lead):
        """In what our row differs from the run of these bytes: a list of words."""
        run = self.run(code, subrs)
        key = (id(run), row.number, row.code, row.ran, widths, lead)
        if key not in self.verdicts:
            g = object.__new__(specimen.Glyph)
            g.name, g.row, g.differs = row.name, row, []
            g.wrong, g.deviation, g.exact, g.machine = [], None, None, None
            g.run = SimpleNamespace(number_given=run.number_given, divided=run.divided, heights=run.heights, ran=run.ran + lead * run.charged)
            g.listed, g.groups, g.width = run.listed, run.groups, specimen.round10(run.width)
            if row.number or run.number_given:
                g.compare_numbers()
            else:
                g.machine = self.machine(row.code)
                g.compare_runs(specimen.Widths(*widths), True)
            self.verdicts[key] = g.differs
        return self.verdicts[key]


def contours(drawn):
    """Closed contours as FreeType has them: points with 1 for on the curve and 2 for a control point, without the last point
    where it is the first. A contour of one point is none."""
    out, here = [], None
    for kind, points in drawn:
        if kind == specimen.MOVE:
            here = [(1, points[0])]
            out.append(here)
            continue
        if here is None:
            here = [(1, (0, 0))]
            out.append(here)
        if kind == specimen.LINE:
            here.append((1, points[0]))
        else:
            for i in range(0, len(points), 3):
                here += [(2, points[i]), (2, points[i + 1]), (1, points[i + 2])]
    return out


def closed(points, near):
    """Without the last point where it lies on the first."""
    points = list(points)
    if len(points) > 1 and points[-1][0] == 1 and near(points[-1][1], points[0][1]):
        points.pop()
    return points


def same_outline(drawn, theirs, matrix):
    """Our drawn entries, in 1/65536, and FreeType's outline in whole units lie within a unit of one another."""
    points, tags, ends = theirs
    xx, xy, yx, yy = (v / 65536 for v in matrix)

    def put(p):
        x, y = p[0] / 65536, p[1] / 65536
        return (xx * x + xy * y, yx * x + yy * y)

    def near(p, q):
        return abs(p[0] - q[0]) <= 1.01 and abs(p[1] - q[1]) <= 1.01

    mine = [closed([(t, put(p)) for t, p in c], near) for c in contours(drawn)]
    other, first = [], 0
    for end in ends:
        other.append(closed([(1 if t & 1 else 2, p) for t, p in zip(tags[first:end + 1], points[first:end + 1])], near))
        first = end + 1
    mine, other = [c for c in mine if len(c) > 1], [c for c in other if len(c) > 1]
    return len(mine) == len(other) and all(
        len(a) == len(b) and all(s == t and near(p, q) for (s, p), (t, q) in zip(a, b)) for a, b in zip(mine, other))


def shown(name):
    """A glyph's name as our table shows it."""
    return bytes(ord("?") if b < 32 or b == 127 else b for b in name)


def by_name(pairs):
    out = {}
    for name, value in pairs:
        out.setdefault(name, []).append(value)
    return out


def against(ours, theirs, contents):
    """What differs between ours and another reader's reading."""
    mine = by_name((row.name, row) for row in ours.rows)
    theirs = dict(theirs, glyphs=[(shown(name), code) for name, code in theirs["glyphs"]])
    other = by_name(theirs["glyphs"])
    lead = ours.len_iv if ours.len_iv is not None else 0
    # A body that is declared and not there: none. FreeType shows it as an empty one.
    subrs = [(s or None) if "declared" in theirs else s for s in theirs["subrs"]]
    subrs += [None] * (ours.subrs - len(subrs))
    found = {
        "only ours": sorted(set(mine) - set(other)), "only theirs": sorted(set(other) - set(mine)),
        "twice ours": sorted(n for n, v in mine.items() if len(v) > 1), "twice theirs": sorted(n for n, v in other.items() if len(v) > 1),
        "subroutines": (ours.subrs, theirs.get("declared", len(theirs["subrs"]))), "lenIV": (ours.len_iv, theirs["len_iv"] if theirs["len_iv"] >= 0 else None),
        "contents": [], "first counts": [], "compared": 0, "outlines": [], "outlines compared": 0, "not drawn": [],
    }
    for name, codes in other.items():
        if name not in mine:
            continue
        row = mine[name][-1]
        found["compared"] += 1
        differs = contents.differs(row, ours.widths, codes[-1], subrs, lead)
        if differs and len(codes) > 1 and any(not contents.differs(row, ours.widths, c, subrs, lead) for c in codes[:-1]):
            found["first counts"].append(name)
        elif differs:
            found["contents"].append((name, differs, contents.run(codes[-1], subrs).number_given, row.number))
    for i, outline in theirs.get("outlines", {}).items():
        name, code = theirs["glyphs"][i]
        row = mine[name][-1] if name in mine else None
        if row is None or row.number or len(other[name]) > 1:
            continue
        found["outlines compared"] += 1
        if isinstance(outline, str):
            found["not drawn"].append((name, outline))
        elif not same_outline(contents.machine(row.code).drawn, outline, theirs["matrix"]):
            found["outlines"].append((name, bool(contents.differs(row, ours.widths, code, subrs, lead))))
    return found


OTHERS = ("fontTools", "FreeType")
AS_IT_IS = "as it is"


def where(path, source):
    """Where a copy differs from its font first: before eexec (clear), up to the end of CharStrings (private), or behind it (after)."""
    with open(path, "rb") as file:
        data = file.read()
    if data[:1] == b"\x80":
        parts, at = b"", 0
        while data[at:at + 1] == b"\x80" and data[at + 1:at + 2] in (b"\1", b"\2"):
            n = int.from_bytes(data[at + 2:at + 6], "little")
            parts += data[at + 6:at + 6 + n]
            at += 6 + n
        data = parts
    if not data.startswith(source.clear):
        return "clear"
    cipher = data[len(source.clear):]
    if re.match(rb"[0-9a-fA-F]{4}", cipher):
        digits = re.match(rb"[0-9a-fA-F\s]*", cipher).group()
        digits = b"".join(digits.split())
        cipher = bytes.fromhex(digits[:len(digits) // 2 * 2].decode())
    tokens = source.private_tokens
    last = source.glyphs[-1][1]
    end = next(b for a, b in tokens if a >= last)
    plain = damage.decrypt(cipher[:4 + end], damage.EEXEC_KEY)
    return "after" if plain == source.lead + source.text[:end] else "private"


class Comparison:
    def __init__(self, binary, maker=None):
        self.binary, self.maker = binary, maker
        self.workers = {name: Worker(name) for name in OTHERS}
        self.contents, self.sources = Contents(), {}

    def files(self, cases):
        """A record of each case: (path, kind, font, what), the font's path for a copy and its name for a font as it is."""
        for font in {c[2] for c in cases if c[1] != AS_IT_IS} - set(self.sources):
            self.sources[font] = read_ours(self.binary, [font])[font]
        ours = read_ours(self.binary, [c[0] for c in cases])
        return [self.file(ours[c[0]], *c) for c in cases]

    def from_source(self, ours, source):
        """In what our reading of a copy differs from that of its font."""
        mine, other = ({row.name: row for row in o.rows} for o in (ours, source))

        def same(a, b):
            if a.number or b.number or ours.widths == source.widths:
                return (a.number, a.code) == (b.number, b.code)
            m, n = self.contents.machine(a.code), self.contents.machine(b.code)
            return (m.drawn, m.stems, m.masks) == (n.drawn, n.stems, n.masks)

        return {"missing": sorted(set(other) - set(mine)), "added": sorted(set(mine) - set(other)),
                "changed": sorted(n for n in mine if n in other and not same(mine[n], other[n])), "subroutines": (ours.subrs, source.subrs)}

    def file(self, ours, path, kind, font, what):
        record = {"name": os.path.basename(path), "path": path, "kind": kind, "font": font, "what": what, "size": os.path.getsize(path),
                  "ours": {"state": ours.state, "message": ours.message, "notes": ours.notes, "glyphs": len(ours.rows), "said": ours.glyphs,
                           "subrs": ours.subrs, "len_iv": ours.len_iv, "matrix": ours.matrix,
                           # A charstring of lenIV bytes has none that are run.
                           "empty": sum(row.number == 0 and row.ran == (ours.len_iv or 0) for row in ours.rows)}}
        record["font"] = os.path.basename(font)
        found = re.search(r"at byte (\d+)", ours.message)
        if found:
            with open(path, "rb") as file:
                file.seek(max(0, int(found.group(1)) - 1))
                record["ours"]["there"] = file.read(12)
        if kind != AS_IT_IS:
            record["where"] = where(path, self.maker.source(font))
            source = self.maker.source(font)
            record["clear"], behind = len(source.clear), re.search(rb"2 index\s*/CharStrings", source.text)
            record["behind Subrs"] = behind.start() if behind and source.bodies else None
            if ours.state == "read":
                record["ours"]["from source"] = self.from_source(ours, self.sources[font])
        for name, worker in self.workers.items():
            theirs = worker.read(path, None if kind == AS_IT_IS else SAMPLE)
            record[name] = {k: theirs.get(k) for k in ("state", "error", "len_iv", "matrix", "declared")}
            if theirs["state"] == "read":
                record[name]["glyphs"] = len(theirs["glyphs"])
                record[name]["subrs"] = len(theirs["subrs"])
                if ours.state == "read":
                    record[name]["differs"] = against(ours, theirs, self.contents)
        return record

    def close(self):
        for worker in self.workers.values():
            worker.stop()


# ---- the report

def report(records, out):
    counts, smallest, unexplained, faults = collections.Counter(), {}, [], []
    agree = collections.Counter()
    for r in records:
        named, wrong = classify(r)
        for text in wrong:
            faults.append((r, text))
        unexplained += [(r, other) for name, other in named if name is None]
        for name in {name for name, _ in named if name is not None}:
            counts[name] += 1
            if name not in smallest or r["size"] < smallest[name]["size"]:
                smallest[name] = r
        for other in OTHERS:
            if not any(o.startswith(other) for _, o in named):
                agree[other] += 1
    states = {name: collections.Counter(r[name]["state"] for r in records) for name in ("ours",) + OTHERS}
    print(f"files: {len(records)}, glyphs in our tables: {sum(r['ours']['glyphs'] for r in records)}", file=out)
    for name, count in states.items():
        print(f"  {name}: " + ", ".join(f"{s} {n}" for s, n in sorted(count.items())), file=out)
    for other in OTHERS:
        both = [r[other]["differs"] for r in records if "differs" in r[other]]
        print(f"  with {other}: {agree[other]} files without a disagreement; both read {len(both)}, glyphs compared {sum(d['compared'] for d in both)}, "
              f"outlines compared {sum(d['outlines compared'] for d in both)}", file=out)
    for name in CLASSES:
        if counts[name]:
            r = smallest[name]
            print(f"{counts[name]:6}  {name}\n        {r['name']} ({r['size']} bytes): {r['font']}, {r['what']}", file=out)
    print(f"unexplained: {len(unexplained)}", file=out)
    for r, other in unexplained[:100]:
        print(f"  {r['name']} ({r['font']}: {r['what']})\n    {other}", file=out)
    print(f"faults of ours: {len(faults)}", file=out)
    for r, text in faults[:100]:
        print(f"  {r['name']} ({r['font']}: {r['what']})\n    {text}", file=out)
    return counts, smallest, unexplained, faults


def markdown(counts, path):
    with open(path, "w") as out:
        out.write("| class | files | smallest input | why |\n|---|---|---|---|\n")
        for name, why in CLASSES.items():
            if counts[name]:
                out.write(f"| {name} | {counts[name]} | {SMALLEST[name]} | {why} |\n")


def main():
    p = argparse.ArgumentParser(description=__doc__, formatter_class=argparse.RawDescriptionHelpFormatter)
    p.add_argument("--binary")
    p.add_argument("--damaged", type=int, default=0)
    p.add_argument("--seed", default="1")
    p.add_argument("--first", type=int, default=0)
    p.add_argument("--only-damaged", action="store_true", help="not the fonts as they are")
    p.add_argument("--save")
    p.add_argument("--again", nargs="*")
    p.add_argument("--keep")
    p.add_argument("--markdown")
    p.add_argument("fonts", nargs="*")
    o = p.parse_args()
    records = []
    maker = damage.Damage(o.fonts, o.seed) if o.damaged else None
    if o.again:
        for path in o.again:
            with open(path, "rb") as file:
                records += pickle.load(file)
    else:
        began = time.time()
        c = Comparison(o.binary, maker)
        if not o.only_damaged:
            for at in range(0, len(o.fonts), PER_CALL):
                records += c.files([(path, AS_IT_IS, path, AS_IT_IS) for path in o.fonts[at:at + PER_CALL]])
        numbers = range(o.first, o.first + o.damaged)
        for at in range(0, len(numbers), PER_CALL):
            with tempfile.TemporaryDirectory() as folder:
                cases = []
                for n in numbers[at:at + PER_CALL]:
                    name, kind, font, what, data = maker.case(n)
                    path = os.path.join(folder, name)
                    with open(path, "wb") as file:
                        file.write(data)
                    cases.append((path, kind, font, what))
                records += c.files(cases)
            print(f"{at + len(cases)} copies, {time.time() - began:.0f} s", file=sys.stderr)
        c.close()
        if o.save:
            with open(o.save, "wb") as file:
                pickle.dump(records, file)
    counts, smallest, unexplained, faults = report(records, sys.stdout)
    if o.markdown:
        markdown(counts, o.markdown)
    if o.keep and maker:
        os.makedirs(o.keep, exist_ok=True)
        for r in {r["name"]: r for r, _ in unexplained + faults}.values():
            if r["kind"] != AS_IT_IS:
                with open(os.path.join(o.keep, r["name"]), "wb") as file:
                    file.write(maker.case(int(r["name"].split("-")[0]))[4])
    return 1 if unexplained or faults else 0


if __name__ == "__main__":
    sys.exit(main())
