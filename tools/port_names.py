#!/usr/bin/env python3
"""Spells the repository's own definitions and lemmas as the library spells its own: words in snake case, a dash only between two names.

usage: tools/port_names.py [ROOT]      once, right after the kit's port.py and before any edit by hand

port_names.tsv, beside this script, has a row for each name: the old one and the new one, or a file, the old one and the new one, which
turns in that file alone. Names turn in specs/ and proofs/, and in the clauses, ghost items and comments of src/; code, strings and the
parts of a path behind `Rattle.CRATE.` that are modules stay. In a comment a name with a dash turns only between backquotes.
"""
import os
import re
import sys

HERE = os.path.dirname(os.path.realpath(__file__))
WORD = re.compile(r"[^\s(){}\[\].;,@\"`«»:]+")
SPAN = re.compile(r"`[^`\n]*`")
STRING = re.compile(r'b?"(?:\\.|[^"\\])*"', re.S)


def read_table():
    everywhere, alone = {}, {}
    with open(os.path.join(HERE, "port_names.tsv"), encoding="utf-8") as f:
        for line in f:
            row = line.rstrip("\n").split("\t")
            if len(row) == 2:
                everywhere[row[0]] = row[1]
            else:
                alone.setdefault(row[0], {})[row[1]] = row[2]
    return everywhere, alone


def turn_words(text, table):
    def one(m):
        word = m[0]
        if word in table:
            return table[word]
        # A projection of a tuple, or a name with primes, is no other name.
        return word

    return WORD.sub(one, text)


def turn_comment(text, table):
    """Names between backquotes, and outside them those in camel case that are no words of the field."""
    camel = {k: v for k, v in table.items() if re.search(r"[a-z0-9][A-Z]", k) and k != "lenIV"}
    parts, at = [], 0
    for m in SPAN.finditer(text):
        parts.append(turn_words(text[at:m.start()], camel))
        parts.append(turn_words(m[0], table))
        at = m.end()
    parts.append(turn_words(text[at:], camel))
    return "".join(parts)


def turn_antt(text, table):
    out = []
    for line in text.split("\n"):
        m = re.search(r"(?:^|\s)--(?:\s|$)", line)
        at = m.start() if m else len(line)
        out.append(turn_words(line[:at], table) + turn_comment(line[at:], table))
    return "\n".join(out)


def turn_code(text, table):
    """The text of a source file: all but strings; no code of Rust has a name that turns."""
    dashed = {k: v for k, v in table.items()}
    out, at = [], 0
    for m in STRING.finditer(text):
        out.append(turn_lines(text[at:m.start()], dashed))
        out.append(m[0])
        at = m.end()
    out.append(turn_lines(text[at:], dashed))
    return "".join(out)


def turn_lines(text, table):
    out = []
    for line in text.split("\n"):
        at = line.find("//")
        at = len(line) if at < 0 else at
        out.append(turn_words(line[:at], table) + turn_comment(line[at:], table))
    return "\n".join(out)


def main(argv):
    root = argv[0] if argv else os.path.join(HERE, "..")
    everywhere, alone = read_table()
    turned = 0
    for folder, dirs, files in os.walk(os.path.join(root, "crates")):
        dirs[:] = sorted(d for d in dirs if d != "out")
        for name in sorted(files):
            if not name.endswith((".rt", ".antt")):
                continue
            path = os.path.join(folder, name)
            place = os.path.relpath(path, root)
            table = dict(everywhere, **alone.get(place, {}))
            with open(path, encoding="utf-8") as f:
                old = f.read()
            new = turn_antt(old, table) if name.endswith(".antt") else turn_code(old, table)
            if new != old:
                turned += 1
                with open(path, "w", encoding="utf-8") as f:
                    f.write(new)
    print(f"{turned} files have names that turned")


if __name__ == "__main__":
    main(sys.argv[1:])
