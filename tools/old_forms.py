#!/usr/bin/env python3
"""Counts, in the src/ folders, what docs/DESIGN-PASS.md counts: places that are written in forms from before the language had
Option, Result, enums, generics, iterators, closures and the heap.

    python3 tools/old_forms.py              # a line for each point and kind of place, with the crates
    python3 tools/old_forms.py --list KIND  # each place of a kind: file, line, text
    python3 tools/old_forms.py --at COMMIT  # the same of a commit
"""
import collections
import io
import os
import re
import subprocess
import sys
import tarfile

TOP = os.path.join(os.path.dirname(os.path.abspath(__file__)), "..")
INT = r"(?:u8|u16|u32|u64|usize|i32|i64)"
FN = re.compile(r"^([ \t]*)(?:pub(?:\(crate\))? )?(?:extern \"C\" )?fn (\w+)(?:<[^>(]*>)?\(([^{]*?)\)\s*(?:->\s*([^\n{]+?))?\s*(?=\n|\{)", re.M)
FLAGS = r"number|ok|found|what|flow|done|enough|cut|finite|fault|has_\w+|says_\w+"
NONE = r"(?:[;,] (?:0|none|the largest number|as many as there are|the end|the place asked|the text's end) (?:where|if|beyond)|, 0 where|or NONE|; 0 |0: an operator|0 goes on|0 a fault|number \(0)"


def sources(commit):
    """The files of src/, as pairs of name and text."""
    if commit is None:
        for folder, _, names in sorted(os.walk(os.path.join(TOP, "crates"))):
            if folder.endswith("/src") or "/src/" in folder and "/out/" not in folder:
                for name in sorted(names):
                    if name.endswith(".rt"):
                        path = os.path.join(folder, name)
                        with open(path, encoding="utf-8") as f:
                            yield os.path.relpath(path, TOP), f.read()
        return
    packed = subprocess.run(["git", "-C", TOP, "archive", commit, "crates"], check=True, stdout=subprocess.PIPE).stdout
    with tarfile.open(fileobj=io.BytesIO(packed)) as tar:
        for member in sorted(tar.getmembers(), key=lambda m: m.name):
            if "/src/" in member.name and member.name.endswith(".rt"):
                yield member.name, tar.extractfile(member).read().decode()


def functions(text):
    """The functions of a file: where it starts, name, parameters, result, body, and the comment above."""
    for m in FN.finditer(text):
        at = m.end()
        indent = m.group(1)
        end = text.find("\n" + indent + "}", at)
        body = text[at:end if end >= 0 else len(text)]
        # the contract stands before the first line that is a brace alone
        cut = body.find("\n" + indent + "{\n")
        if cut >= 0:
            body = body[cut:]
        above = text[:m.start()].rstrip("\n").split("\n")
        comment = []
        for line in reversed(above):
            if re.match(r"\s*//", line):
                comment.insert(0, line.strip())
            elif re.match(r"\s*#\[", line):
                continue
            else:
                break
        yield m.start(), m.group(2), m.group(3), m.group(4) or "", body, " ".join(comment)


def lines(pattern):
    def found(text):
        for m in re.finditer(pattern, text, re.M):
            yield m.start()
    return found


def code_constants(text):
    """Constants that number kinds: three or more whole numbers in a row of constants of one type."""
    run, last = [], None
    for m in re.finditer(r"^(?:pub(?:\(crate\))? )?const [A-Z0-9_]+: (" + INT + r") = (?:\d{1,3}|ESCAPED(?: \+ \d+)?);\n", text, re.M):
        between = "" if last is None else text[last.end():m.start()]
        if last is not None and last.group(1) == m.group(1) and not re.search(r"^(?!//|\s*$)", between, re.M):
            run.append(m.start())
        else:
            if len(run) >= 2:
                yield from run
            run = [m.start()]
        last = m
    if len(run) >= 2:
        yield from run


def by_function(test):
    def found(text):
        for at, name, params, result, body, comment in functions(text):
            if test(name, params, result, body, comment):
                yield at
    return found


def parameters(params):
    return [p for p in re.split(r",(?![^<\[(]*[>\])])", params) if ":" in p]


KINDS = [
    # point, kind, what it is, how it is found
    ("1", "own_option", "own enums with a variant that holds nothing, of the shape of Option or Result",
     lambda text: (m.start() for m in re.finditer(r"^(?:pub(?:\(crate\))? )?enum \w+ \{\n(?:.*\n)*?\}", text, re.M)
                   if re.search(r"\n\s+(End|Nothing|None|Refused|Missing),", m.group()) and re.search(r"\n\s+\w+\(", m.group()))),
    ("1", "flag_field", "fields that say whether the fields beside them hold: number, ok, found, what, flow, done, enough, cut, finite, fault, has_, says_",
     lines(r"^\s+(?:pub(?:\(crate\))? )?(?:" + FLAGS + r"): (?:u8|u32|u64|usize|bool),")),
    ("1", "code_constant", "constants that number kinds", code_constants),
    ("1", "number_for_none", "functions whose comment says which number stands for none",
     by_function(lambda n, p, r, b, c: re.fullmatch(INT, r.strip()) is not None and re.search(NONE, c) is not None)),
    ("2", "digit_twins", "functions whose names differ in a digit alone",
     lambda text: [at for at, name, *_ in functions(text) if re.search(r"\d$", name)
                   and sum(re.sub(r"\d+$", "", o[1]) == re.sub(r"\d+$", "", name) and o[1] != name for o in functions(text))]),
    ("2", "store_twins", "functions that make an array of one size and nothing else",
     by_function(lambda n, p, r, b, c: p.strip() == "" and r.strip().startswith("[") and b.count("\n") <= 8)),
    ("3", "index_loop", "while and loop", lines(r"^\s*(?:'\w+: )?(?:while|loop)\b")),
    ("4", "and_by_hand", "`if a { b } else { false }`, on one line or several",
     lines(r"if [^{}\n]+ \{\s*[^{};]+\s*\} else \{\s*(?:false|true)\s*\}|if [^{}\n]+ \{\s*(?:false|true)\s*\} else \{\s*[^{};]+\s*\}")),
    ("4", "false_chain", "functions that leave with `return false` twice or more, outside a loop",
     by_function(lambda n, p, r, b, c: r.strip() == "bool" and len(re.findall(r"return (?:false|true);", b)) >= 2 and "while" not in b and "for " not in b)),
    ("4", "field_copy", "functions that build a struct of their argument's fields, one by one",
     by_function(lambda n, p, r, b, c: len(re.findall(r"^\s+(\w+): \w+\.\1,", b, re.M)) >= 3)),
    ("5", "many_parameters", "functions with eight parameters or more", by_function(lambda n, p, r, b, c: len(parameters(p)) >= 8)),
    ("5", "rt_and_page", "functions that take the runtime and a page side by side", lines(r"rt: &HostRuntime,\s+page: &mut \[u8\]")),
    ("6", "packed_list", "parameters and arrays of words that hold places and lengths: u64 lists of spans, marks and tables",
     lines(r"\b(?:list|codes|glyphs|table|marks|numbers|refusals): &(?:mut )?\[u64\]")),
    ("6", "length_beside", "lengths that travel beside their buffer", lines(r"^\s+(?:pub(?:\(crate\))? )?(?:len|length|count): usize,|\bcount: usize\b")),
    ("7", "step_by_kind", "functions that choose the step by a number of its kind",
     by_function(lambda n, p, r, b, c: len(re.findall(r"\b(?:kind|what|code|b|op) == ", b)) >= 3 or re.search(r"match (?:kind|op|what)\b", b) is not None)),
]


def main():
    words = sys.argv[1:]
    commit = words[words.index("--at") + 1] if "--at" in words else None
    wanted = words[words.index("--list") + 1] if "--list" in words else None
    files = list(sources(commit))
    for point, kind, what, find in KINDS:
        if wanted is not None and kind != wanted:
            continue
        count = collections.Counter()
        for path, text in files:
            for at in find(text):
                count[path.split("/")[1]] += 1
                if wanted is not None:
                    line = text.count("\n", 0, at)
                    shown = text.split("\n")[line:line + 2]
                    print("%s:%d: %s" % (path, line + 1, " ".join(s.strip() for s in shown)))
        crates = ", ".join("%s %d" % (c, n) for c, n in sorted(count.items()))
        print("%s  %-16s %4d  %s%s" % (point, kind, sum(count.values()), what, ": " + crates if crates else ""))


main()
