#!/usr/bin/env python3
"""The most stack that the code of each of the six functions can take, for every input.

    python3 bench/stack_bound.py PROGRAM        a program that the archive is linked into

It reads what objdump prints: how far each function lowers the stack pointer, and what it has below it when it calls
another one. Functions that call themselves, directly or through others, are limited by the depth that is proved of
them: a charstring and 10 levels of subroutines, 48 partitions of a list and one call more that sees that none is left.
A jump through a table may go to whatever nothing else leads to. Any other cycle, a call through a register, or an
instruction on the stack pointer that is not known here is an error.
"""
import re
import subprocess
import sys

ENTRIES = ["cribstork_convert", "cribstork_finish", "cribstork_convert_finished", "cribstork_box", "cribstork_choose_widths", "cribstork_decrypt"]
# How often a function is active at once at the most, by a part of its name.
ACTIVE = [("quicksort", 49), ("call_body", 11), ("run", 11)]
WORD = 8


def functions(program):
    """name -> [(address, instruction, operands)]"""
    text = subprocess.run(["objdump", "-d", "--no-show-raw-insn", program], check=True, capture_output=True, text=True).stdout
    found, name = {}, None
    for line in text.splitlines():
        head = re.match(r"[0-9a-f]+ <(.*)>:$", line)
        if head:
            name = head.group(1)
            found[name] = []
            continue
        body = re.match(r"\s*([0-9a-f]+):\s+(\S+)\s*(.*)$", line)
        if body and name:
            found[name].append((int(body.group(1), 16), body.group(2), body.group(3).split("#")[0].strip()))
    return found


class Frame:
    """How far a function lowers the stack pointer, what it calls and from where, and bytes that it uses below it."""

    def __init__(self, name, code):
        self.lowest, self.calls, self.red = 0, set(), 0
        at = {address: i for i, (address, _, _) in enumerate(code)}
        seen, todo, tables = {}, [(0, 0, None)], set()
        while todo or tables:
            if not todo:
                if len(tables) > 1:
                    raise SystemExit(f"{name}: jumps through tables at two depths")
                rest = [i for i in range(len(code)) if i not in seen and not code[i][1].startswith(("nop", "cs", "data16", "xchg", "int3"))]
                if not rest:
                    break
                todo = [(rest[0], *next(iter(tables)))]
            i, depth, base = todo.pop()
            while i < len(code) and seen.get(i) != depth:
                if i in seen:
                    raise SystemExit(f"{name}: two depths at {code[i][0]:x}")
                seen[i] = depth
                address, op, args = code[i]
                below = re.findall(r"-0x([0-9a-f]+)\(%rsp", args)
                if below and not op.startswith("lea"):
                    self.red = max([self.red] + [int(b, 16) for b in below])
                self.lowest = max(self.lowest, depth + max([0] + [int(b, 16) for b in below]))
                number = re.match(r"\$(-?0x[0-9a-f]+),%rsp$", args)
                target = re.match(r"([0-9a-f]+) <([^>+]*)(\+0x[0-9a-f]+)?>", args)
                if op.startswith("push"):
                    depth += WORD
                elif op.startswith("pop"):
                    depth -= WORD
                elif op.startswith("sub") and number:
                    depth += int(number.group(1), 16)
                elif op.startswith("add") and number:
                    depth -= int(number.group(1), 16)
                elif op.startswith("and") and number:
                    depth += -int(number.group(1), 16) - WORD
                elif op == "mov" and args == "%rsp,%rbp":
                    base = depth
                elif op == "mov" and args == "%rbp,%rsp" and base is not None:
                    depth = base
                elif op.startswith("lea") and re.match(r"-0x[0-9a-f]+\(%rbp\),%rsp$", args) and base is not None:
                    depth = base + int(args[3:].split("(")[0], 16)
                elif op.startswith("call"):
                    if not target:
                        raise SystemExit(f"{name}: a call through a register at {address:x}")
                    self.calls.add((target.group(2), depth + WORD))
                elif op.startswith(("ret", "ud2", "hlt")):
                    break
                elif op.startswith("j"):
                    if not target:
                        tables.add((depth, base))
                        break
                    to = int(target.group(1), 16)
                    if to in at:
                        todo.append((at[to], depth, base))
                    else:
                        self.calls.add((target.group(2), depth))
                    if op.startswith("jmp"):
                        break
                elif re.search(r",%e?r?sp$", args) and not op.startswith(("cmp", "test")):
                    raise SystemExit(f"{name}: the stack pointer at {address:x}: {op} {args}")
                self.lowest = max(self.lowest, depth)
                i += 1


def main():
    code = functions(sys.argv[1])
    frames, below = {}, {}

    def frame(name):
        if name not in frames:
            frames[name] = Frame(name, code[name])
        return frames[name]

    def active(name):
        return next((most for part, most in ACTIVE if re.search(rf"(^|[^a-z_]){part}($|[^a-z_])", name)), None)

    def bound(name, left):
        """Bytes below the stack pointer at the function's first instruction."""
        if "@plt" in name or name == "memset":
            return 0, [name]
        left = dict(left)
        if active(name):
            left[name] = left.get(name, active(name)) - 1
            if left[name] < 0:
                return None
        key = (name, tuple(sorted(left.items())))
        if key not in below:
            below[key] = "open"
            most, way = frame(name).lowest, [name]
            for callee, depth in sorted(frame(name).calls):
                inner = bound(callee, left)
                if inner and depth + inner[0] > most:
                    most, way = depth + inner[0], [name] + inner[1]
            below[key] = most, way
        if below[key] == "open":
            raise SystemExit(f"{name} calls itself, and no limit is known")
        return below[key]

    arguments = {"cribstork_convert": 64, "cribstork_convert_finished": 80}
    print("bound by the code, for every input (memset's own stack not counted)")
    for entry in ENTRIES:
        most, way = bound(entry, {})
        # Whole words, as on a painted stack; the return address, and the arguments that are passed on the stack.
        most = -(-most // WORD) * WORD
        print(f"{entry:28} {most + WORD + arguments.get(entry, 0):10}")
        if "--way" in sys.argv:
            for name in dict.fromkeys(way):
                print(f"    {frames[name].lowest if name in frames else 0:8} x{way.count(name):<3} {name}")
    print(f"most bytes used below the stack pointer (red zone): {max(f.red for f in frames.values())}")


sys.setrecursionlimit(10000)
main()
