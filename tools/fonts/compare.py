#!/usr/bin/env python3
"""Compares what the program `cribstork` prints of fonts with what stet's Rust gives, glyph for glyph.

    tools/fonts/build.sh
    python3 tools/fonts/compare.py FONT.. [--matrix A B C D TX TY]

It reads the fonts by itself (PFB or plain, eexec in bytes or in hexadecimal digits). Of each glyph it compares the finished
bytes, their length and the width, of each font both widths, and of a refusal that both refuse. Last are the times: the
Rust's for converting, choosing the widths and finishing, and the whole program's for `cribstork`, its table and bytes included.
"""
import os
import re
import struct
import subprocess
import sys

HOME = os.path.join(os.path.dirname(os.path.abspath(__file__)), "..", "..", "target")


def decrypted(data, key, skip):
    out = bytearray()
    for c in data:
        out.append(c ^ (key >> 8))
        key = ((c + key) * 52845 + 22719) & 0xFFFF
    return bytes(out[skip:])


def joined(data):
    if data[:1] != b"\x80":
        return data
    out, at = b"", 0
    while data[at + 1] in (1, 2):
        n = struct.unpack("<I", data[at + 2:at + 6])[0]
        out += data[at + 6:at + 6 + n]
        at += 6 + n
    return out


def entries(text, pattern, at):
    while True:
        found = re.compile(pattern).match(text, at)
        if not found:
            return
        at = found.end() + int(found.group(2))
        yield found.group(1), text[found.end():at]


def font(path):
    data = joined(open(path, "rb").read())
    private = data[data.index(b"eexec") + 5:].lstrip(b" \t\r\n")
    if re.match(rb"[0-9a-fA-F]{4}", private):
        digits = re.sub(rb"[^0-9a-fA-F]", b"", private)
        private = bytes.fromhex(digits[:len(digits) // 2 * 2].decode())
    text = decrypted(private, 55665, 4)
    len_iv = re.search(rb"/lenIV\s+(\d+)", text)
    subrs = re.search(rb"/Subrs\s+(\d+)", text)
    bodies = {int(n): body for n, body in entries(text, rb"\s*(?:array)?\s*(?:\S+\s+){0,3}?dup\s+(\d+)\s+(\d+)\s+\S+ ", subrs.end())} if subrs else {}
    glyphs = list(entries(text, rb"[^/]*?/(\S+)\s+(\d+)\s+\S+ ", re.search(rb"/CharStrings\s+\d+", text).end()))
    return int(len_iv.group(1)) if len_iv else 4, [bodies.get(i, b"") for i in range(int(subrs.group(1)) if subrs else 0)], glyphs


def packed(paths):
    out = bytearray()

    def string(s):
        out.extend(struct.pack(">I", len(s)) + s)

    for path in paths:
        len_iv, subrs, glyphs = font(path)
        string(path.encode())
        out.extend(struct.pack(">II", len_iv, len(subrs)))
        for body in subrs:
            string(body)
        out.extend(struct.pack(">I", len(glyphs)))
        for name, code in glyphs:
            string(name)
            string(code)
    return bytes(out)


def ours(paths, matrix):
    words = ["--table", "--hex"] + (["--matrix"] + matrix if matrix else []) + paths + ["/dev/null", "/dev/null"]
    began = os.times()
    lines = subprocess.run([os.path.join(HOME, "bin", "cribstork"), *words], capture_output=True).stdout.decode("latin1").split("\n")
    ended = os.times()
    took = ended.children_user - began.children_user + ended.children_system - began.children_system
    fonts, here = {}, None
    for at, line in enumerate(lines):
        if line in paths:
            here = fonts.setdefault(line, {})
        found = re.match(r"(\S+) +(\d+) +(\S+) +(\S+) +(\S+)(?:  .*)?$", line)
        if found and here is not None and "\t" not in line:
            name, number, length, width = found.group(1, 2, 3, 4)
            here[name] = (float(width), int(length), lines[at + 1].strip()) if number == "0" else number
        found = re.match(r"default width: (\S+); nominal width: (\S+)", line)
        if found:
            here["/"] = (float(found.group(1)), float(found.group(2)))
    return fonts, took


def near(a, b):
    return abs(a - b) <= 0.000006


def compare(paths, matrix):
    run = subprocess.run([os.path.join(HOME, "fonts", "fonts"), *matrix], input=packed(paths), capture_output=True)
    theirs = run.stdout.decode("latin1")
    mine, took = ours(paths, matrix)
    glyphs = refused = different = 0
    here = {}
    for line in theirs.split("\n")[:-1]:
        if line.startswith("font "):
            path, default, nominal = line[5:].rsplit(" ", 2)
            here = mine.get(path, {})
            widths = here.get("/", (float("nan"),) * 2)
            same = near(widths[0], float(default)) and near(widths[1], float(nominal))
        else:
            name, width, answer = line.split(" ", 2)
            got = here.get(name)
            glyphs += 1
            refused += width == "refused"
            if width == "refused":
                same = isinstance(got, str)
            else:
                same = isinstance(got, tuple) and got[1:] == (len(answer) // 2, answer) and near(got[0], float(width))
        if not same:
            different += 1
            print("differs:", path, line[:60])
    return glyphs, refused, different, int(run.stderr) / 1e9, took


def main():
    words, matrix = sys.argv[1:], []
    if "--matrix" in words:
        at = words.index("--matrix")
        matrix, words = words[at + 1:at + 7], words[:at] + words[at + 7:]
    sums = [0, 0, 0, 0, 0]
    for at in range(0, len(words), 20):
        sums = [a + b for a, b in zip(sums, compare(words[at:at + 20], matrix))]
    print(f"fonts: {len(words)}, glyphs: {sums[0]}, refused by both: {sums[1]}, different: {sums[2]}; "
          f"the Rust: {sums[3]:.3f} s, cribstork: {sums[4]:.3f} s of processor time")
    return sums[2] != 0


if __name__ == "__main__":
    try:
        sys.exit(main())
    except FileNotFoundError as missing:
        print(f"tools/fonts/compare.py: there is no {missing.filename}; tools/fonts/build.sh and 'tools/build.sh program' make the programs", file=sys.stderr)
        sys.exit(2)
