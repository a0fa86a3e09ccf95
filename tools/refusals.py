#!/usr/bin/env python3
"""Whether the refusal numbers and their words agree where they stand: docs/REFUSALS.md has a row for each number;
include/cribstork.h and bindings/rust have the same words; the program and the specimen page have the same words.
Exit status 1, with what differs, if they do not."""
import importlib.util
import os
import re
import sys

TOP = os.path.join(os.path.dirname(os.path.abspath(__file__)), "..")


def text(path):
    with open(os.path.join(TOP, path), encoding="utf-8") as f:
        return f.read()


def document():
    """The numbers of the tables."""
    return [int(n) for n in re.findall(r"^\| (\d+) \| .* \| .* \| .* \|$", text("docs/REFUSALS.md"), re.M)]


def header():
    return {int(n): words for n, words in re.findall(r"^ \* {6,}(\d+)  (.*)$", text("include/cribstork.h"), re.M)}


def wrapper():
    source = text("bindings/rust/src/lib.rs")
    table = source[source.index("const REFUSALS"):]
    table = table[:table.index("];")]
    return dict(enumerate(re.findall(r'\(\s*\w+,\s*"([^"]*)"', table), 1))


def program():
    source = text("crates/refusal/src/lib.rt")
    numbers = dict(re.findall(r"Refusal::(\w+) => (\d+),", source))
    return {int(numbers[name]): words for name, words in re.findall(r'Refusal::(\w+) => "([^"]*)"', source)}


def page():
    spec = importlib.util.spec_from_file_location("specimen", os.path.join(TOP, "tools/specimen/specimen.py"))
    module = importlib.util.module_from_spec(spec)
    spec.loader.exec_module(module)
    return {n: words.replace("\u2212", "-").replace("1,048,576", "1048576") for n, words in module.MEANINGS.items()}


def main():
    numbers = sorted(header())
    wrong = []
    if numbers != list(range(1, len(numbers) + 1)):
        wrong.append("include/cribstork.h has not each number once: %s" % numbers)
    if sorted(set(document())) != numbers:
        wrong.append("docs/REFUSALS.md has %s" % sorted(set(document())))
    for here, there, a, b in (("include/cribstork.h", "bindings/rust", header(), wrapper()), ("the program", "the specimen page", program(), page())):
        for n in sorted(set(a) | set(b) | set(numbers)):
            if a.get(n) is None or a.get(n) != b.get(n):
                wrong.append("%d: %s has %r, %s %r" % (n, here, a.get(n), there, b.get(n)))
    for line in wrong:
        print(line)
    print("%d refusal numbers, %d differences" % (len(numbers), len(wrong)))
    return 1 if wrong else 0


if __name__ == "__main__":
    sys.exit(main())
