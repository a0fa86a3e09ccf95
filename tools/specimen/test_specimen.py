#!/usr/bin/env python3
"""Document 01's examples on the two machines of specimen.py:  python3 tools/specimen/test_specimen.py"""
import sys
import unittest
from fractions import Fraction

sys.dont_write_bytecode = True
import specimen as s


class Bare:
    """A font with these subroutines, not encrypted."""

    def __init__(self, *subrs):
        self.subrs, self.len_iv = [bytes.fromhex(b) for b in subrs], None


def type1(code, *subrs, number=float, strict=False):
    return s.Type1Run(Bare(*subrs), number, strict).glyph(code if isinstance(code, bytes) else bytes.fromhex(code))


def type2(code):
    return s.Type2Machine().glyph(bytes.fromhex(code))


class Type1(unittest.TestCase):
    def refused(self, number, code, *subrs):
        self.assertEqual(type1(code, *subrs).number_given, number)

    def test_numbers_of_refusals(self):
        self.refused(3, b"\x09" * 1048577)
        self.refused(4, "8B 0A", "8B 0A")
        self.refused(5, "F7")
        self.refused(6, "02")
        self.refused(7, "05")
        self.refused(8, "8B 0A")
        self.refused(9, "8B 8B 0C 10")
        self.refused(10, "8C 8B 0C 0C")
        self.refused(11, "0C 11")
        self.refused(12, "0C 06")
        self.refused(14, bytes.fromhex("8C" + "8C FF 7F FF FF FF 0C 0C 0C 0C" * 40))
        self.refused(15, b"\x8b" * 257)
        self.refused(16, b"".join(b"\xff" + i.to_bytes(4, "big") + b"\x8c\x01" for i in range(257)))

    def test_strict_reading(self):
        left = "8C 8C 98 0C 10 "  # OtherSubr 13 leaves a value for pop
        for here, strictly, code in (
                (0, 0, "8B" * 24), (0, 22, "8B" * 25), (5, 5, "8B" * 24 + "F7"), (11, 11, "8B" * 24 + "0C 11"), (0, 22, left + "8B" * 24 + "0C 11"),
                (0, 0, left + "8B" * 23 + "0C 11"), (0, 0, "8B" * 22 + "A1 98 0C 10"), (0, 22, "8B" * 23 + "A2 98 0C 10"), (15, 22, "8B" * 257),
                (15, 15, ("8B" * 22 + "A1 98 0C 10") * 12), (0, 0, "8B" * 24 + "09" + "8B" * 24)):
            self.assertEqual((type1(code).number_given, type1(code, strict=True).number_given), (here, strictly), code)

    def test_limits_that_pass(self):
        self.refused(0, b"\x09" * 1048576)
        self.refused(0, b"\x8b" * 256)
        self.refused(0, "8B 0A", "8C 0A", "8D 0A", "8E 0A", "8F 0A", "90 0A", "91 0A", "92 0A", "93 0A", "94 0A", "0B")

    def test_glyph(self):
        r = type1("8B F8 88 0D 95 9F 15 90 8B 05 09 0E")
        self.assertEqual((r.listed, r.width, r.ran), ([("move", [(10, 20)]), ("line", [(15, 20)])], 500, 12))

    def test_flex_and_its_pops(self):
        subrs = ("8E 8B 0C 10 0C 11 0C 11 0C 21 0B", "8B 8C 0C 10 0B", "8B 8D 0C 10 0B")
        r = type1("8B 16 8C 0A" + "8C 8C 15 8D 0A" * 7 + "BD 92 92 8B 0A 0E", *subrs)
        self.assertEqual(r.number_given, 0)
        self.assertEqual(r.listed[1], ("flex", [(float(i), float(i)) for i in range(2, 8)]))
        self.assertEqual((r.heights, r.x, r.y, len(r.listed)), ([50.0], 7.0, 7.0, 2))

    def test_closepath_then_a_line_moves(self):
        r = type1("8C 16 8C 06 09 8C 06")
        self.assertEqual([kind for kind, _ in r.listed], ["move", "line", "move", "line"])

    def test_thirds(self):
        code = "8C 8E 0C 0C 16" * 3
        m = type2("FF 00 00 55 55 16 FF 00 00 55 56 16 FF 00 00 55 55 16 0E")
        for number in (float, Fraction):
            wrong, largest = s.compare(type1(code, number=number).listed, m.drawn)
            self.assertEqual((wrong, largest < Fraction(1, 2)), ([], True))


class Type2(unittest.TestCase):
    def test_glyph(self):
        m = type2("F8 88 95 9F 15 90 8B 05 0E")
        self.assertEqual((m.fault, m.width), (None, 500 * 65536))
        self.assertEqual(m.drawn, [("move", [(10 * 65536, 20 * 65536)]), ("line", [(15 * 65536, 20 * 65536)])])

    def test_numbers(self):
        for code, value in (("F6", 107), ("F700", 108), ("FAFF", 1131), ("1C046C", 1132), ("1CFB94", -1132), ("FF00008000", Fraction(1, 2))):
            self.assertEqual(type2(code + "16 0E").drawn, [("move", [(value * 65536, 0)])])

    def test_masks(self):
        m = type2("8B 8C 01 8B 8C 03 13 80 8C 16 13 40 8C 8B 05 0E")
        self.assertEqual((m.fault, m.masks), (None, [([True, False], 0), ([False, True], 1)]))

    def test_faults(self):
        for code in ("", "8B", "02 0E", "0C 22 0E", "8B 8B 0E", "8B 05 0E", "8B 01 0E", "8B 8C 01 13 20 0E", "8B 8C 01 13",
                     "8C 16 8C 8C 16 0E", "8B" * 49 + "05 0E", ("8B 8C" * 24 + "01") * 4 + "8B 8C 01 0E", "1C 00", "F7"):
            self.assertIsNotNone(type2(code).fault, code)
        self.assertIsNone(type2(("8B 8C" * 24 + "01") * 4 + "0E").fault)
        self.assertIsNone(type2("8B 0E").fault)


if __name__ == "__main__":
    unittest.main()
