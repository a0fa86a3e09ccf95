#!/usr/bin/env python3
"""Makes damaged copies of Type 1 fonts, the same ones for the same seed.

    damage.py OUT --number N [--seed S] [--first K] FONT..    writes the cases K to K + N - 1 into the folder OUT
    damage.py OUT --case K [--seed S] FONT..                  writes case K alone
    damage.py --kinds                                         prints the kinds of damage

Case K depends on the seed, on K and on the fonts (in the order of their names, without folders), and on nothing else.
Case K has kind K modulo the number of kinds. A copy is named K-KIND with the ending of its form, and OUT/index.tsv has a line
for each: number, kind, font, what was done.

The damage is done to the file's bytes, to the text before eexec, or to the decrypted private part, which is encrypted again.
A copy may have another form than its font: PFB, bytes without segments (t1), or hexadecimal digits (pfa).
Some kinds leave a lawful font: these test that it is read, and that what is missing is said.
"""
import os
import random
import re
import struct
import sys

EEXEC_KEY, CHARSTRING_KEY = 55665, 4330
SPACE = b" \t\r\n\f\0"
DELIMITERS = SPACE + b"/[]{}()<>%"


def decrypt(data, key):
    out = bytearray(len(data))
    for i, c in enumerate(data):
        out[i] = c ^ (key >> 8)
        key = ((c + key) * 52845 + 22719) & 0xFFFF
    return bytes(out)


def encrypt(data, key):
    out = bytearray(len(data))
    for i, p in enumerate(data):
        c = p ^ (key >> 8)
        out[i] = c
        key = ((c + key) * 52845 + 22719) & 0xFFFF
    return bytes(out)


def segment(kind, data):
    return bytes([128, kind]) + struct.pack("<I", len(data)) + data


def token_end(text, at):
    """The end of the token at a place that is no space; a comment and a string are one token."""
    first = text[at]
    if first == ord("%"):
        found = re.compile(rb"[\r\n]").search(text, at)
        return found.start() if found else len(text)
    if first == ord("("):
        depth, i = 0, at
        while i < len(text):
            c = text[i]
            if c == ord("\\"):
                i += 1
            elif c == ord("("):
                depth += 1
            elif c == ord(")"):
                depth -= 1
                if depth == 0:
                    return i + 1
            i += 1
        return len(text)
    if first in b"[]{})<>":
        return at + 1
    i = at + 1
    while i < len(text) and text[i] not in DELIMITERS:
        i += 1
    return i


class Source:
    """A font without damage: its parts, the tokens of its texts, and its entries.

    `text` is the decrypted private part, `lead` the four bytes before it. A token is (start, end). An entry of `bodies` or `glyphs` is
    (start, end, length's token, name's or number's token, first byte of the charstring)."""

    def __init__(self, path):
        self.name = os.path.basename(path)
        with open(path, "rb") as file:
            data = file.read()
        self.is_pfb = data[:1] == b"\x80"
        if self.is_pfb:
            parts, at = [], 0
            while data[at + 1] != 3:
                n = struct.unpack("<I", data[at + 2:at + 6])[0]
                parts.append(data[at + 6:at + 6 + n])
                at += 6 + n
            self.clear, cipher, self.trailer = parts
            plain = decrypt(cipher, EEXEC_KEY)
        else:
            at = data.index(b"currentfile eexec") + 18
            self.clear = data[:at]
            plain = decrypt(data[at:], EEXEC_KEY)
            end = plain.index(b"closefile") + 10
            self.trailer = data[at + end:]
            plain = plain[:end]
        self.lead, self.text = plain[:4], plain[4:]
        assert self.made("pfb" if self.is_pfb else "t1") == data, path
        # fontTools finds the end of a font without segments by 512 zeros.
        if self.trailer.count(b"0") < 512:
            self.trailer = (b"0" * 64 + b"\n") * 8 + b"cleartomark\n"
        self.clear_tokens = self.tokens(self.clear)
        self.read = re.search(rb"/(\S+?)\s*\{\s*string currentfile exch readstring pop\s*\}", self.text).group(1)
        self.private_tokens = self.tokens(self.text, self.read)
        self.find_entries()

    def made(self, form, clear=None, text=None, trailer=None):
        """The font's file in a form, with other parts where they are given."""
        clear = self.clear if clear is None else clear
        trailer = self.trailer if trailer is None else trailer
        cipher = encrypt(self.lead + (self.text if text is None else text), EEXEC_KEY)
        if form == "pfb":
            return segment(1, clear) + segment(2, cipher) + segment(1, trailer) + b"\x80\x03"
        if form == "t1":
            return clear + cipher + trailer
        digits = cipher.hex()
        return clear + "\n".join(digits[i:i + 64] for i in range(0, len(digits), 64)).encode() + b"\n" + trailer

    @staticmethod
    def tokens(text, read=None):
        """The tokens of a text; after a number and the word `read` that many bytes are no tokens."""
        out, at = [], 0
        while at < len(text):
            if text[at] in SPACE:
                at += 1
                continue
            end = token_end(text, at)
            out.append((at, end))
            if read and text[at:end] == read:
                before = text[slice(*out[-2])]
                end += 1 + int(before)
            at = end
        return out

    def find_entries(self):
        text, tokens = self.text, self.private_tokens
        self.bodies, self.glyphs = [], []
        words = [text[a:b] for a, b in tokens]
        subrs = words.index(b"/Subrs") if b"/Subrs" in words else None
        chars = words.index(b"/CharStrings")
        self.counts = [tokens[chars + 1]] + ([tokens[subrs + 1]] if subrs is not None else [])
        for i, word in enumerate(words):
            if word != self.read or i < 3:
                continue
            length, name = tokens[i - 1], tokens[i - 2]
            code = tokens[i][1] + 1
            # The entry ends with the word after its bytes.
            end = tokens[i + 1][1]
            if words[i - 3] == b"dup" and subrs is not None and subrs < i < chars:
                self.bodies.append((tokens[i - 3][0], end, length, name, code))
            elif i > chars and words[i - 2][:1] == b"/":
                self.glyphs.append((name[0], end, length, name, code))
        self.len_iv = 4
        if b"/lenIV" in words:
            self.len_iv = int(words[words.index(b"/lenIV") + 1])


def put(text, start, end, new):
    return text[:start] + new + text[end:]


def word_of(text, token):
    return text[token[0]:token[1]].decode("latin-1")


def own_form(source):
    return "pfb" if source.is_pfb else "t1"


def any_form(rng):
    return rng.choice(("pfb", "pfb", "pfb", "t1", "pfa"))


def other_digit(rng, digit):
    return bytes([rng.choice([d for d in b"0123456789" if d != digit])])


# ---- damage to the file's bytes

def raw(change):
    def kind(rng, source):
        form = rng.choice((own_form(source), own_form(source), own_form(source), "pfa"))
        data = source.made(form)
        out, what = change(rng, data)
        return form, out, what
    return kind


def byte(rng, data):
    at = rng.randrange(len(data))
    new = rng.choice([b for b in range(256) if b != data[at]])
    return put(data, at, at + 1, bytes([new])), f"byte {at} from {data[at]:02x} to {new:02x}"


def bit(rng, data):
    at, n = rng.randrange(len(data)), rng.randrange(8)
    return put(data, at, at + 1, bytes([data[at] ^ (1 << n)])), f"bit {n} of byte {at} flipped"


def zeros(rng, data):
    n = min(rng.choice((1, 2, 4, 16, 64, 256, 1024)), len(data) // 4)
    at = rng.randrange(len(data) - n)
    return put(data, at, at + n, bytes(n)), f"{n} bytes from {at} on made zero"


def removed(rng, data):
    n = rng.choice((1, 1, 2, 5, 32, 512))
    at = rng.randrange(len(data) - n)
    return put(data, at, at + n, b""), f"{n} bytes from {at} on removed"


def inserted(rng, data):
    n = rng.choice((1, 1, 2, 5, 32, 512))
    at = rng.randrange(len(data) + 1)
    return put(data, at, at, rng.randbytes(n)), f"{n} bytes inserted before byte {at}"


def cut(rng, data):
    at = rng.choice((rng.randrange(len(data)), rng.randrange(len(data)), rng.randrange(min(len(data), 6000)), len(data) - rng.randrange(1, 700)))
    return data[:at], f"cut before byte {at}"


def swapped(rng, data):
    n = min(rng.choice((1, 4, 64, 512)), len(data) // 4)
    a = rng.randrange(len(data) - 2 * n)
    b = rng.randrange(a + n, len(data) - n)
    return data[:a] + data[b:b + n] + data[a + n:b] + data[a:a + n] + data[b + n:], f"{n} bytes at {a} and at {b} swapped"


def repeated(rng, data):
    n = min(rng.choice((1, 16, 512, 4096)), len(data) // 4)
    at = rng.randrange(len(data) - n)
    return data[:at + n] + data[at:], f"{n} bytes from {at} on doubled"


def segment_places(data):
    places, at = [], 0
    while at + 6 <= len(data) and data[at + 1] != 3:
        places.append(at)
        at += 6 + struct.unpack("<I", data[at + 2:at + 6])[0]
    return places + [at]


def segment_length(rng, source):
    data = source.made("pfb")
    at = rng.choice(segment_places(data)[:-1])
    old = struct.unpack("<I", data[at + 2:at + 6])[0]
    new = rng.choice((0, 1, old - 1, old + 1, old + rng.randrange(1, 1000), max(0, old - rng.randrange(1, 1000)), len(data), 0x7FFFFFFF, 0xFFFFFFFF,
                      old ^ (1 << rng.randrange(32))))
    return "pfb", put(data, at + 2, at + 6, struct.pack("<I", new)), f"the length of the segment at {at} from {old} to {new}"


def segment_kind(rng, source):
    data = source.made("pfb")
    at = rng.choice(segment_places(data)) + rng.randrange(2)
    new = rng.choice([b for b in (0, 1, 2, 3, 4, 5, 128, 255) if b != data[at]])
    return "pfb", put(data, at, at + 1, bytes([new])), f"byte {at} of a segment's head from {data[at]:02x} to {new:02x}"


def hexadecimal(change):
    def kind(rng, source):
        data = source.made("pfa")
        end = len(data) - len(source.trailer)
        while True:
            at = rng.randrange(len(source.clear), end)
            if data[at] not in SPACE:
                break
        new, what = change(rng, data[at:at + 1])
        return "pfa", put(data, at, at + 1, new), f"digit {data[at:at + 1].decode()} at {at} {what}"
    return kind


def changed_digit(rng, old):
    new = bytes([rng.choice([d for d in b"0123456789abcdef" if d not in old])])
    return new, "to " + new.decode()


def wrong_digit(rng, old):
    new = rng.choice((b"g", b"G", b"-", b"O", b"l", b"\x80", b"%", b"(", b"x"))
    return new, f"to {new!r}"


def removed_digit(rng, old):
    return b"", "removed"


def case_of_digits(rng, source):
    data = source.made("pfa")
    at, end = len(source.clear), len(data) - len(source.trailer)
    space = rng.choice((b"\n", b"\r", b"\r\n", b" ", b"\t", b"\n\n", b""))
    middle = data[at:end].upper().replace(b"\n", space)
    # At least one space stands before the zeros.
    return "pfa", data[:at] + middle + b"\n" + data[end:], f"capitals, lines that end with {space!r}"


# ---- damage to the text before eexec

def in_clear(change):
    def kind(rng, source):
        clear, what = change(rng, source)
        form = any_form(rng)
        return form, source.made(form, clear=clear), "before eexec: " + what
    return kind


def clear_byte(rng, source):
    at = rng.randrange(len(source.clear))
    new = rng.choice((rng.randrange(256), rng.choice(b"()<>{}[]/% \n0az")))
    return put(source.clear, at, at + 1, bytes([new])), f"byte {at} from {source.clear[at]:02x} to {new:02x}"


def digits_of(text, tokens):
    return [i for a, b in tokens if re.fullmatch(rb"[-+]?[\d.]+", text[a:b]) for i in range(a, b) if text[i] in b"0123456789"]


def clear_digit(rng, source):
    at = rng.choice(digits_of(source.clear, source.clear_tokens))
    new = other_digit(rng, source.clear[at])
    return put(source.clear, at, at + 1, new), f"digit {chr(source.clear[at])} at {at} to {new.decode()}"


REPLACEMENTS = (b"0", b"1", b"-1", b"65536", b"4294967296", b"1e9", b"16#ff", b"/x", b"x", b"def", b"end", b"begin", b"dup", b"dict", b"array", b"put",
                b"[", b"]", b"{", b"}", b"(", b")", b"<", b">", b"<<", b">>", b"%", b"/", b"pop", b"eexec", b"/CharStrings", b"/Subrs", b"/lenIV", b"RD", b"mark",
                b"true", b"\x80", b"\xff")


def token_change(rng, text, tokens):
    """A token removed, doubled, or replaced by one from the list or from the text."""
    token = rng.choice(tokens)
    old = text[token[0]:token[1]]
    way = rng.randrange(3)
    if way == 0:
        return put(text, *token, b""), f"token {old[:20]!r} at {token[0]} removed"
    if way == 1:
        return put(text, token[1], token[1], b" " + old), f"token {old[:20]!r} at {token[0]} doubled"
    other = rng.choice(tokens)
    new = rng.choice((rng.choice(REPLACEMENTS), text[other[0]:other[1]]))
    # A space keeps it apart from what stands before it.
    return put(text, *token, b" " + new + b" " if new[:1] != b"/" else new), f"token {old[:20]!r} at {token[0]} replaced by {new[:20]!r}"


def clear_token(rng, source):
    return token_change(rng, source.clear, source.clear_tokens)


def before_name(rng, text, names):
    """A place before one of the names, where a new definition may stand; in the private part also right behind the array of Subrs."""
    places = [text.index(name) for name in names if name in text]
    behind = re.search(rb"2 index\s*/CharStrings", text)
    if behind:
        places.append(behind.start())
    return rng.choice(places)


CLEAR_LINES = (
    b"%% currentfile eexec\n", b"(currentfile eexec) pop\n", b"(a \\) currentfile eexec \\( b) pop\n", b"{currentfile eexec} pop\n", b"/eexec pop\n", b"/myeexec 1 def\n",
    b"%% /FontType 3 def\n", b"/Said (/FontType 3 def) def\n", b"/Never {/FontType 3 def} def\n", b"%% /FontMatrix [1 2] def\n", b"/Said (/FontMatrix [1 2] def) def\n",
    b"/Never {/FontMatrix [1 2] def} def\n", b"%% /CharStrings 3 dict dup begin\n", b"/Said (/CharStrings 3 dict dup begin) def\n",
    b"/Never {/CharStrings 3 dict dup begin} def\n", b"%% /WeightVector [1 0] def\n", b"/Said (/WeightVector [1 0] def) def\n", b"/Said <2f466f6e7454797065> def\n",
    b"/Said (nested (/Subrs 5 array) and (\\() ) def\n")


def clear_names(rng, source):
    line = rng.choice(CLEAR_LINES).replace(b"%%", b"%")
    at = before_name(rng, source.clear, (b"/FontName", b"/PaintType", b"/FontType", b"/FontMatrix", b"currentdict end", b"currentfile eexec"))
    return put(source.clear, at, at, line), f"{line!r} inserted at {at}"


def font_type(rng, source):
    new = rng.choice((b"3", b"0", b"2", b"42", b"11", b"-1", b"one", b"1.0", b"", b"01", b"10"))
    return re.sub(rb"(/FontType\s+)1(?=\s)", lambda m: m.group(1) + new, source.clear, 1), f"FontType {new.decode()}"


MATRICES = (b"[0.001 0 0 0.001 0]", b"[0.001 0 0 0.001 0 0 0]", b"[1e999 0 0 0.001 0 0]", b"[a b c d e f]", b"[]", b"[0.001 0 0 0.001 0 0", b"0.001",
            b"[0 0 0 0 0 0]", b"[0.001 0 0 1e-400 0 0]", b"[NaN 0 0 0.001 0 0]", b"(0.001 0 0 0.001 0 0)", b"{0.001 0 0.0002 0.001 0 0}", b"[0.0005 0 0 0.0005 0 0]",
            b"[1e-3 +0 -0 .001 0. 0]", b"[0.001 0 0 -0.001 0 0]", b"[0.001 0 0 0.001 100 50]", b"[1 1000 div 0 0 0.001 0 0]", b"[0.001 0 0 0.001 0 0]0 get", b"[ 0.001 0 0\n0.001 %x]\n0 0 ]")


def matrix(rng, source):
    new = rng.choice(MATRICES)
    return re.sub(rb"(/FontMatrix\s*)\[[^]]*\]", lambda m: m.group(1) + new, source.clear, 1), f"FontMatrix {new!r}"


MASTERS = (b"/WeightVector [0.25 0.75] def\n", b"/WeightVector [1 0 0 0] def\n/Blend 3 dict dup begin /Private 5 dict def end def\n",
           b"/BlendDesignPositions [[0] [1]] def\n", b"/BlendAxisTypes [/Weight] def\n", b"/NormalizeDesignVector {pop} def\n")


def multiple_master(rng, source):
    line = rng.choice(MASTERS)
    at = before_name(rng, source.clear, (b"/FontName", b"/PaintType", b"/FontType"))
    return put(source.clear, at, at, line), f"{line!r} inserted at {at}"


# ---- damage to the private part, encrypted again

def in_private(change):
    def kind(rng, source):
        text, what = change(rng, source)
        form = any_form(rng)
        return form, source.made(form, text=text), "private part: " + what
    return kind


def tokens_of_private(rng, source):
    """The tokens of the private part that are no entry's, or all of them: both are as likely."""
    first = source.bodies[0][0] if source.bodies else source.glyphs[0][0]
    last = source.glyphs[-1][1]
    outside = [t for t in source.private_tokens if t[0] < first or t[0] >= last]
    return rng.choice((outside, source.private_tokens))


def private_token(rng, source):
    tokens = tokens_of_private(rng, source)
    return token_change(rng, source.text, tokens)


def private_byte(rng, source):
    token = rng.choice(tokens_of_private(rng, source))
    at = rng.randrange(token[0], token[1] + 1)
    new = rng.choice((rng.randrange(256), rng.choice(b"()<>{}[]/% \n0az")))
    return put(source.text, at, at + 1, bytes([new])), f"byte {at} from {source.text[at]:02x} to {new:02x}"


def private_digit(rng, source):
    at = rng.choice(digits_of(source.text, tokens_of_private(rng, source)))
    new = other_digit(rng, source.text[at])
    return put(source.text, at, at + 1, new), f"digit {chr(source.text[at])} at {at} to {new.decode()}"


def changed_number(rng, source, token, name):
    old = int(source.text[slice(*token)])
    new = rng.choice((old + 1, max(0, old - 1), old + rng.randrange(1, 300), rng.randrange(max(1, old)), 0, -1, -old, old * 10, 65535, 65536, 99999, 2 ** 31, 2 ** 32 + old,
                      2 ** 64 + old))
    return put(source.text, *token, str(new).encode()), f"{name} at {token[0]} from {old} to {new}"


def length(rng, source):
    entry = rng.choice(rng.choice((source.glyphs, source.bodies or source.glyphs)))
    return changed_number(rng, source, entry[2], "the length")


def count(rng, source):
    return changed_number(rng, source, rng.choice(source.counts), "the count")


def body_number(rng, source):
    entries = source.bodies
    if not entries:
        return length(rng, source)
    return changed_number(rng, source, rng.choice(entries)[3], "the number of a subroutine")


def len_iv(rng, source):
    new = rng.choice((b"0", b"1", b"3", b"5", b"8", b"-1", b"-2", b"99999", b"65536", b"4294967300", b"18446744073709551620", b"four", b"4.0", b"(4)", b"04", b"+4"))
    at = before_name(rng, source.text, (b"/BlueValues", b"/password", b"/Subrs", b"/MinFeature"))
    return put(source.text, at, at, b"/lenIV " + new + b" def\n"), f"lenIV {new.decode()} inserted at {at}"


def recoded(rng, source):
    """Lawful: all charstrings with another lenIV, or not encrypted."""
    n = rng.choice((0, 1, 2, 5, -1))
    out, at = bytearray(), 0
    said = f"/lenIV {n} def\n".encode()
    place = before_name(rng, source.text, (b"/BlueValues", b"/password", b"/MinFeature"))
    for start, end, size, _, code in sorted(source.bodies + source.glyphs):
        if at <= place < size[0]:
            out += source.text[at:place] + said
            at = place
        old = int(source.text[slice(*size)])
        plain = decrypt(source.text[code:code + old], CHARSTRING_KEY)[source.len_iv:]
        new = plain if n < 0 else encrypt(bytes(n) + plain, CHARSTRING_KEY)
        out += source.text[at:size[0]] + str(len(new)).encode() + source.text[size[1]:code] + new
        at = code + old
    return bytes(out + source.text[at:]), f"all charstrings encrypted anew with lenIV {n}, said at {place}"


def removed_entry(name):
    def change(rng, source):
        entries = getattr(source, name) or source.glyphs
        k = rng.choice((1, 1, 1, 2, 5))
        chosen = sorted(rng.sample(entries, min(k, len(entries))), reverse=True)
        text = source.text
        for entry in chosen:
            text = put(text, entry[0], entry[1], b"")
        return text, f"{len(chosen)} of {name} removed: " + " ".join(word_of(source.text, e[3]) for e in chosen)
    return change


def doubled_entry(name):
    def change(rng, source):
        entries = getattr(source, name) or source.glyphs
        a, b = rng.choice(entries), rng.choice(entries)
        # The whole entry again, or one more of that name with other bytes.
        if rng.randrange(2):
            return put(source.text, a[1], a[1], b"\n" + source.text[a[0]:a[1]]), f"entry {word_of(source.text, a[3])} doubled"
        again = source.text[b[0]:b[1]]
        again = put(again, b[3][0] - b[0], b[3][1] - b[0], source.text[slice(*a[3])])
        return put(source.text, a[1], a[1], b"\n" + again), f"entry {word_of(source.text, a[3])} again, with the bytes of {word_of(source.text, b[3])}"
    return change


def renamed(rng, source):
    a, b = rng.sample(source.glyphs, 2)
    new = rng.choice((source.text[slice(*b[3])], b"/", b"/a b", b"/" + rng.randbytes(3), b"/" + b"n" * 200, b"/end", b"/FontName", b"/.notdef"))
    return put(source.text, *a[3], new), f"{word_of(source.text, a[3])} renamed to {new[:30]!r}"


def moved_entry(rng, source):
    """Lawful: an entry stands in another place."""
    a, b = sorted(rng.sample(source.glyphs, 2))
    text = source.text
    return text[:a[0]] + text[a[1]:b[1]] + b"\n" + text[a[0]:a[1]] + text[b[1]:], f"entry {word_of(text, a[3])} moved behind {word_of(text, b[3])}"


def charstring(change):
    def kind(rng, source):
        entry = rng.choice(rng.choice((source.glyphs, source.bodies or source.glyphs)))
        _, _, size, name, code = entry
        old = int(source.text[slice(*size)])
        plain = decrypt(source.text[code:code + old], CHARSTRING_KEY)
        lead, body = plain[:source.len_iv], plain[source.len_iv:]
        new, what = change(rng, body)
        coded = encrypt(lead + new, CHARSTRING_KEY)
        text = put(source.text, code, code + old, coded)
        return put(text, *size, str(len(coded)).encode()), f"{word_of(source.text, name)}: {what}"
    return kind


def charstring_byte(rng, body):
    at = rng.randrange(len(body))
    new = rng.choice((rng.randrange(256), rng.randrange(32)))
    return put(body, at, at + 1, bytes([new])), f"byte {at} of the charstring from {body[at]:02x} to {new:02x}"


def charstring_part(rng, body):
    at = rng.randrange(len(body) + 1)
    if rng.randrange(2) and at < len(body):
        n = rng.randrange(1, len(body) - at + 1)
        return put(body, at, at + n, b""), f"{n} bytes of the charstring from {at} on removed"
    n = rng.choice((1, 3, 20))
    return put(body, at, at, rng.randbytes(n)), f"{n} bytes inserted into the charstring before byte {at}"


def other_subr(rng, body):
    number = rng.choice((4, 12, 13, 14, 15, 16, 17, 18, 19, 27))
    call = bytes([139, 139 + number, 12, 16])
    return call + body, f"OtherSubr {number} called first"


def short(rng, source):
    """A charstring of fewer bytes than lenIV."""
    entry = rng.choice(rng.choice((source.glyphs, source.bodies or source.glyphs)))
    _, _, size, name, code = entry
    old, n = int(source.text[slice(*size)]), rng.randrange(source.len_iv + 1)
    text = put(source.text, code, code + old, source.text[code:code + n])
    return put(text, *size, str(n).encode()), f"{word_of(source.text, name)} has {n} bytes"


PRIVATE_LINES = (
    b"% /CharStrings 3 dict dup begin /zero 3 RD abc ND end\n", b"/Said (/CharStrings 3 dict dup begin) def\n", b"/Never {/CharStrings 3 dict dup begin} def\n",
    b"/Never {{/Subrs 2 array}} def\n", b"% /Subrs 2 array dup 0 3 RD abc NP\n", b"/Said (/Subrs 2 array dup 0 3 RD) def\n", b"/Never {/Subrs 2 array} def\n",
    b"% /lenIV 0 def\n", b"/Said (/lenIV 0 def) def\n", b"/Never {/lenIV 0 def} def\n", b"/Said (nested (/CharStrings 2 dict) \\) ) def\n", b"/Said <656e64> def\n",
    b"/Never {(} /Subrs 1 array {)} def\n", b"/Said [/CharStrings /Subrs] def\n", b"% end\n", b"/Said (a) % (b\n def\n")


def private_names(rng, source):
    line = rng.choice(PRIVATE_LINES)
    at = before_name(rng, source.text, (b"/BlueValues", b"/password", b"/Subrs", b"/MinFeature"))
    return put(source.text, at, at, line), f"{line!r} inserted at {at}"


def comment_between(rng, source):
    """Lawful: a comment between two entries."""
    a = rng.choice(rng.choice((source.glyphs, source.bodies or source.glyphs)))
    line = rng.choice((b" % end\n", b" % /x 9 RD\n", b" % dup 1 2 RD\n", b" % (\n", b" % {\n", b"\n\n\t\f "))
    return put(source.text, a[1], a[1], line), f"{line!r} after entry {word_of(source.text, a[3])}"


def private_cut(rng, source):
    at = rng.choice((rng.randrange(len(source.text)), rng.randrange(source.glyphs[0][0], source.glyphs[-1][1]), source.glyphs[rng.randrange(len(source.glyphs))][1],
                     source.glyphs[-1][1]))
    return source.text[:at], f"cut before byte {at} of {len(source.text)}"


def other_form(rng, source):
    """Lawful: the same font in another form."""
    form = rng.choice([f for f in ("pfb", "t1", "pfa") if f != own_form(source)])
    return form, source.made(form), "the same font in another form"


def segments_split(rng, source):
    """Lawful: the private part in several segments."""
    data = source.made("pfb")
    first, second = segment_places(data)[1:3]
    cipher = data[first + 6:second]
    places = sorted(rng.sample(range(1, len(cipher)), rng.choice((1, 2, 5))))
    parts = [cipher[a:b] for a, b in zip([0] + places, places + [len(cipher)])]
    return "pfb", data[:first] + b"".join(segment(2, p) for p in parts) + data[second:], f"the private part in {len(parts)} segments"


def segments_hex(rng, source):
    """Lawful: hexadecimal digits in a segment of text."""
    return "pfb", segment(1, source.made("pfa")) + b"\x80\x03", "hexadecimal digits in a segment of text"


def other_words(rng, source):
    """Lawful: the three words that read and store entries have other names."""
    text = source.text
    old = [source.read] + [re.search(rb"/(\S+?)\s*\{\s*noaccess " + w + rb"\s*\}", text).group(1) for w in (b"def", b"put")]
    new = rng.choice(([b"-|", b"|-", b"|"], [b"a", b"b", b"c"], [b"RD.", b"ND.", b"NP."]))
    names = dict(zip(old, new))
    out, at = bytearray(), 0
    for a, b in source.private_tokens:
        word = text[a:b]
        slash = word[:1] == b"/"
        if word[slash:] in names:
            # A word that follows its bytes at once stands apart from them.
            out += text[at:a] + (b"/" if slash else b"" if text[a - 1:a].isspace() else b" ") + names[word[slash:]]
            at = b
    return bytes(out + text[at:]), f"the words {b' '.join(old).decode()} renamed to {b' '.join(new).decode()}"


def stored_plainly(rng, source):
    """Lawful: entries stored by PostScript's own words, some or all of them."""
    text, every = source.text, rng.randrange(2)
    out, at = bytearray(), 0
    for entries, last in ((source.bodies, b"put"), (source.glyphs, b"def")):
        for _, end, size, _, code in entries:
            n = int(text[slice(*size)])
            if every or rng.randrange(4) == 0:
                out += text[at:code + n] + b" " + rng.choice((b"noaccess ", b"readonly ", b"")) + last
                at = end
    return bytes(out + text[at:]), ("all" if every else "some") + " entries stored by put and def"


def line_ends(rng, source):
    """Lawful: other ends of lines before eexec and between the tokens of the private part."""
    new = rng.choice((b"\r", b"\r\n", b"\n\n", b" \n\t"))
    text = source.text
    spaces = [i for (_, a), (b, _) in zip(source.private_tokens, source.private_tokens[1:]) if text[a:b].isspace() for i in range(a, b) if text[i] == 10]
    out, at = bytearray(), 0
    for i in spaces:
        out += text[at:i] + new
        at = i + 1
    clear = source.clear[:-1].replace(b"\n", new) + source.clear[-1:]
    form = any_form(rng)
    return form, source.made(form, clear=clear, text=bytes(out + text[at:])), f"lines that end with {new!r}"


def directly(rng, source):
    """Lawful to a reader: CharStrings named right behind the array of Subrs, or with dup before it."""
    new = rng.choice((b"/CharStrings", b"dup /CharStrings", b"dup\n/CharStrings", b"2 index\n\n/CharStrings", b"2 index/CharStrings"))
    return re.sub(rb"2 index\s*/CharStrings", lambda m: new, source.text, 1), f"{new!r} behind the array of Subrs"


KINDS = [
    ("byte", raw(byte)), ("bit", raw(bit)), ("zeros", raw(zeros)), ("removed", raw(removed)), ("inserted", raw(inserted)), ("cut", raw(cut)), ("swapped", raw(swapped)),
    ("repeated", raw(repeated)), ("segment-length", segment_length), ("segment-kind", segment_kind), ("segments-split", segments_split),
    ("hex-changed", hexadecimal(changed_digit)), ("hex-wrong", hexadecimal(wrong_digit)), ("hex-removed", hexadecimal(removed_digit)), ("hex-case", case_of_digits),
    ("clear-byte", in_clear(clear_byte)), ("clear-digit", in_clear(clear_digit)), ("clear-token", in_clear(clear_token)), ("clear-names", in_clear(clear_names)),
    ("font-type", in_clear(font_type)), ("matrix", in_clear(matrix)), ("multiple-master", in_clear(multiple_master)),
    ("private-byte", in_private(private_byte)), ("private-digit", in_private(private_digit)), ("private-token", in_private(private_token)),
    ("private-names", in_private(private_names)), ("private-cut", in_private(private_cut)), ("length", in_private(length)), ("count", in_private(count)),
    ("number", in_private(body_number)), ("lenIV", in_private(len_iv)), ("recoded", in_private(recoded)), ("short", in_private(short)),
    ("glyph-removed", in_private(removed_entry("glyphs"))), ("glyph-doubled", in_private(doubled_entry("glyphs"))), ("glyph-renamed", in_private(renamed)),
    ("glyph-moved", in_private(moved_entry)), ("body-removed", in_private(removed_entry("bodies"))), ("body-doubled", in_private(doubled_entry("bodies"))),
    ("comment", in_private(comment_between)), ("charstring-byte", in_private(charstring(charstring_byte))), ("charstring-part", in_private(charstring(charstring_part))),
    ("other-subr", in_private(charstring(other_subr))), ("form", other_form), ("segments-hex", segments_hex), ("words", in_private(other_words)),
    ("stored-plainly", in_private(stored_plainly)), ("line-ends", line_ends), ("directly", in_private(directly)),
]


class Damage:
    """The cases of a seed over some fonts."""

    def __init__(self, fonts, seed):
        self.fonts = sorted(fonts, key=lambda p: (os.path.basename(p), p))
        self.seed, self.sources = seed, {}

    def source(self, path):
        if path not in self.sources:
            self.sources[path] = Source(path)
        return self.sources[path]

    def case(self, number):
        """Name, kind, path of the font, what was done, and the copy's bytes."""
        rng = random.Random(f"{self.seed}/{number}")
        kind, change = KINDS[number % len(KINDS)]
        path = rng.choice(self.fonts)
        form, data, what = change(rng, self.source(path))
        return f"{number:06}-{kind}.{form}", kind, path, what, data


def option(words, name, default):
    if name not in words:
        return words, default
    at = words.index(name)
    return words[:at] + words[at + 2:], words[at + 1]


def main():
    words = sys.argv[1:]
    if "--kinds" in words:
        print("\n".join(name for name, _ in KINDS))
        return 0
    words, seed = option(words, "--seed", "1")
    words, number = option(words, "--number", "0")
    words, first = option(words, "--first", "0")
    words, only = option(words, "--case", None)
    numbers = range(int(first), int(first) + int(number)) if only is None else [int(only)]
    if len(words) < 2:
        sys.exit(__doc__)
    out = words[0]
    damage = Damage(words[1:], seed)
    os.makedirs(out, exist_ok=True)
    with open(os.path.join(out, "index.tsv"), "a" if only else "w") as index:
        for n in numbers:
            name, kind, font, what, data = damage.case(n)
            with open(os.path.join(out, name), "wb") as file:
                file.write(data)
            index.write(f"{n}\t{kind}\t{os.path.basename(font)}\t{what}\n")
    return 0


if __name__ == "__main__":
    sys.exit(main())
