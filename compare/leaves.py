#!/usr/bin/env python3
"""The lines of the test program `vectors` for the readers of bytes, and what these must answer.

  leaves.py FOLDER    appends the lines to FOLDER/stdin and the answers to FOLDER/stdout

compare/vectors runs it. A line is a letter, which says the reader, and a text. The answers are
computed here, independently of the port: UTF-8 is judged by Python's own decoder; numbers, indices,
words and identifiers by the functions below, written from document 01.
"""
import os
import sys

LIMIT = 1 << 64
BUFFER = 4096  # what the program spells a name into; a longer name is measured only


class Refused(Exception):
    pass


def natural(t, at):
    start = at
    while at < len(t) and 48 <= t[at] <= 57:
        at += 1
    if at == start or int(t[start:at]) >= LIMIT:
        raise Refused
    return int(t[start:at]), at


def checked(n):
    if n >= LIMIT:
        raise Refused
    return n


def index(t, at):
    if t[at:at + 1] == b"_":
        return 0, at + 1
    n, at = natural(t, at)
    if t[at:at + 1] != b"_":
        raise Refused
    return checked(n + 1), at + 1


def index_plus_one(t, at):
    i, at = index(t, at)
    return checked(i + 1), at


def param(t, at):
    if t[at:at + 1] == b"d":
        d, at = index_plus_one(t, at + 1)
        i, at = index(t, at)
        return d, i, at
    if t[at:at + 1] == b"z":
        return 0, 0, at + 1
    i, at = index_plus_one(t, at)
    return 0, i, at


def ill_formed(t):
    try:
        t.decode("utf-8")
        return "well-formed"
    except UnicodeDecodeError as e:
        return str(e.start)


def split(t):
    for p in (b"_$s", b"$s", b"_$S", b"$S"):
        if t.startswith(p):
            if len(t) == len(p):
                break
            dot = t.find(b".", len(p))
            return "%d %d" % (len(p), len(t) if dot < 0 else dot)
    return "no symbol"


def upper(b):
    return 65 <= b <= 90


def note_words(t, words):
    start = None
    for i in range(len(t) + 1):
        c = t[i] if i < len(t) else None
        if start is not None and (c is None or c == 95 or (not upper(t[i - 1]) and upper(c))):
            if i - start >= 2 and len(words) < 26:
                words.append(t[start:i])
            start = None
        if start is None and c is not None and c != 95 and not 48 <= c <= 57:
            start = i


def identifier(t, at, words):
    subs = punycoded = False
    if t[at:at + 1] == b"0":
        at += 1
        if t[at:at + 1] == b"0":
            at += 1
            punycoded = True
        else:
            subs = True
    name = b""
    while True:
        while subs and at < len(t) and (t[at:at + 1].isalpha() and t[at] < 128):
            c = t[at]
            at += 1
            if upper(c):
                subs = False
            i = c - (65 if upper(c) else 97)
            if i >= len(words):
                raise Refused
            name += words[i]
        if t[at:at + 1] == b"0":
            at += 1
            break
        n, at = natural(t, at)
        if n == 0:
            raise Refused
        if punycoded and t[at:at + 1] == b"_":
            at += 1
        if at + n > len(t):
            raise Refused
        part = t[at:at + n]
        if ill_formed(part) != "well-formed":
            raise Refused
        name += part
        if not punycoded:
            note_words(part, words)
        at += n
        if not subs:
            break
    if not name:
        raise Refused
    return name, at


def identifiers(t, show):
    """Identifiers one after another: what `show` makes of the place after each, the words then known and
    its name."""
    words, at, out = [], 0, b""
    while at < len(t):
        try:
            name, at = identifier(t, at, words)
        except Refused:
            return out + b"!9"
        out += show(at, len(words), name)
    return out


def place(at, count, name):
    return b"%d %d " % (at, count)


def spelled(at, count, name):
    return b"%d[%s]" % (len(name), name if len(name) <= BUFFER else b"")


def answer(c, t):
    try:
        if c == "n":
            return b"%d %d" % natural(t, 0)
        if c == "i":
            return b"%d %d" % index(t, 0)
        if c == "j":
            return b"%d %d" % index_plus_one(t, 0)
        if c == "g":
            return b"%d %d %d" % param(t, 0)
        if c == "u":
            return ill_formed(t).encode()
        if c == "s":
            return split(t).encode()
        if c in "wc":
            return identifiers(t, place)
        if c == "p":
            return identifiers(t, spelled)
    except Refused:
        return b"!9"
    return b"?"


TOP = str(LIMIT - 1).encode()
NUMBERS = [b"", b"0", b"7", b"00", b"007", b"12x", b"x1", b"_", TOP, TOP + b"_", str(LIMIT).encode(), str(LIMIT).encode() + b"_",
           str(LIMIT - 2).encode() + b"_", str(LIMIT - 3).encode() + b"_", b"18446744073709551609x", b"18446744073709551620", b"99999999999999999999",
           b"0" * 30 + b"5", b"1" * 19, b"1" * 20, b"9" * 19 + b"_", b"/5", b":5", b"5_", b"__", b"4_5_"]
PARAMS = [b"z", b"d_0_", b"d", b"d_", b"d0_", b"d__", b"d1_2_", b"d" + str(LIMIT - 2).encode() + b"__", b"d" + str(LIMIT - 3).encode() + b"__",
          b"d_" + TOP + b"_", b"d_" + str(LIMIT - 2).encode() + b"_", b"_", b"0_", b"23_", b"24_", b"", b"q"]


def utf8():
    # both ends of every row of RFC 3629's table, the neighbours just outside, and sequences cut short
    for first in (0x00, 0x7F, 0x80, 0xBF, 0xC0, 0xC1, 0xC2, 0xDF, 0xE0, 0xE1, 0xEC, 0xED, 0xEE, 0xEF, 0xF0, 0xF1, 0xF3, 0xF4, 0xF5, 0xFF):
        if first in (10,):
            continue
        for second in (None, 0x7F, 0x80, 0x8F, 0x90, 0x9F, 0xA0, 0xBF, 0xC0):
            for tail in (b"", b"\x80", b"\xBF\x80", b"\x80\xBFz", b"\xC0\x80"):
                yield bytes([first]) + (b"" if second is None else bytes([second]) + tail)
    for t in ("é", "€", "😀", "aé€😀z", "ΩmegaCafé"):
        b = t.encode()
        yield b
        for i in range(len(b)):
            yield b"ok" + b[:i]


SYMBOLS = [b"$s", b"$s4", b"_$s", b"_$sx", b"$S", b"$Sx", b"_$S", b"_$Sx", b"$sa.b", b"$sa.b.c", b"$s.", b"$s.a", b"$t", b"_$t", b"s", b"$", b"_$", b"",
           b"__$sx", b"$$sx", b"_s", b"x$sx", b"$s4mai.x", b"_$S4main3fooyyF.1.2"]

WORDS = [b"4main3FooV", b"4main", b"10HTTPServer0A", b"7FooItem0A0", b"7FooItem0B0", b"7FooItem0b3Bar", b"7FooItem0bA", b"7FooItem0aB3Baz", b"7FooItem0aB0", b"7FooItem0aBb",
         b"7FooItem0c0", b"3a_b0a0", b"5ab_cd0a0", b"5ab_cd0ab0", b"61_2ab30a0", b"2aB0a0", b"3aBc0a0", b"3ABc0a0", b"4ABcD0a0", b"1a0a0", b"2ab0a0", b"0", b"00", b"000", b"001a", b"001_a",
         b"00a", b"004abcd0a0", b"004_abcd0a0", b"0041abc2d", b"0", b"01a0", b"01aA", b"02ab0a0", b"02aba0", b"02abA0", b"02abB0", b"00", b"3ab", b"18446744073709551615a", b"18446744073709551616a",
         b"03ab", b"0a", b"0A", b"0A0", b"0_", b"0-", b"09", b"2ab0a1c0", b"2ab0A1c", b"2ab0A1c0", b"2ab0A10", b"2ab0a", b"2ab0aZ0"]


def words():
    yield from WORDS
    for n in (25, 26, 27, 28):
        base = b"".join(b"3A%c%c" % (97 + i // 26, 97 + i % 26) for i in range(n))
        for c in (b"a", b"y", b"z", b"Y", b"Z"):
            yield base + b"0" + c + b"0"
    joined = b"".join(b"A%c%c" % (97 + i // 26, 97 + i % 26) for i in range(27))
    yield b"%d" % len(joined) + joined + b"0zZ0"
    for t in ("é", "aé", "Éa", "ab€cd", "a😀"):
        b = t.encode()
        for n in range(1, len(b) + 2):
            yield b"%d" % n + b + b"0a0"
    yield b"2000" + b"aB" * 1000 + b"0az0"
    for n in (3, 4, 5, 20):
        yield b"900" + b"q" * 900 + b"0" + b"a" * n + b"A0"
    yield b"1024" + b"q" * 1024 + b"0aaaA0"
    yield b"1024" + b"q" * 1024 + b"0aaaA1x"


CASES = ([("n", t) for t in NUMBERS] + [("i", t) for t in NUMBERS] + [("j", t) for t in NUMBERS] + [("g", t) for t in NUMBERS + PARAMS]
         + [("u", t) for t in utf8()] + [("s", t) for t in SYMBOLS])
CASES += [(c, t) for c in "wcp" for t in words()]
CASES = [(c, t) for c, t in CASES if b"\n" not in t]

for name, lines in (("stdin", [c.encode() + t for c, t in CASES]), ("stdout", [answer(c, t) for c, t in CASES])):
    with open(os.path.join(sys.argv[1], name), "ab") as f:
        f.write(b"".join(line + b"\n" for line in lines))
