#!/usr/bin/env python3
"""Document 01's key, and two names that strain other readers, as cases of the program `vectors`.

  key.py FOLDER    appends the cases to FOLDER/stdin and their answers to FOLDER/stdout

compare/vectors runs it; compare/src/vectors.rs says what a case and an answer are. Each row is two
cases: the reading at a ceiling of 8,192, and the check at 65,536.

Texts, counts and refusals are document 01's. Where the key leaves the counts out, they are counted
here by hand from its budgets: an operator is a step and charges 1, and a copy charges its size.
"""
import os
import sys

MANY_Z = 4090
LEVELS = 250

READING = 8192
CHECK = 65536
WORKSPACE = 524288  # 64 × 8,192 numbers, and 8 × 65,536
ROOM = 65536


def nested():
    """`s5ArrayxvpAAVyxG` in itself: each level is the type of a variable of the next."""
    text = "x"
    for level in range(LEVELS):
        text = ("s5Array" if level == LEVELS - 1 else "sAA") + text + "vpAAVyxG"
    return text


# as the Rust has it at 1 to 4 levels; at 250 it does not end
NESTED = "Swift.Array : " * LEVELS + "A" + ".Array<A>" * LEVELS

# (kind, text, reading, check): the kind is `s`, a symbol, or `t`, a type; a reading is (steps,
# total, wraps, text) or (number, place); the check the same without text, None where it is the
# reading's
FOO = "main.foo() -> ()"
ROWS = [
    ("s", "$s4main3fooyyF", (5, 5, 1, FOO), None),
    ("s", "_$S4main3fooyyF.1", (5, 5, 1, FOO + ' with unmangled suffix ".1"'), None),
    ("s", "$s4main3foo3barySi_tF", (8, 10, 2, "main.foo(bar: Swift.Int) -> ()"), None),
    ("s", "$s4main3FooV1aACvp", (6, 8, 0, "main.Foo.a : main.Foo"), None),
    ("s", "$s4main7FooItemV0C0Sivp", (6, 8, 0, "main.FooItem.Item : Swift.Int"), None),
    ("s", "$s_", (1, 1, 0, ""), None),
    ("s", "$s", (5, 0), None),
    ("s", "$sZ", (10, 2), None),
    ("s", "$s4main", (11, 7), None),
    ("s", "$sr0_l", (1, 1, 0, "<A, B>"), None),
    ("t", "SiSg", (2, 9, 1, "Swift.Int?"), None),
    ("t", "S0i", (9, 0), None),
    ("t", "q23_", (1, 1, 0, "Z"), None),
    ("t", "q24_", (1, 1, 0, "AB"), None),
    ("t", "S4096i", (7, 0), (11, 6)),  # 8,193 charged: the reading's ceiling is 8,192
    ("t", "S4097i", (9, 0), None),
    ("t", "Si" + "m" * 257, (8, 258), None),
    ("t", "4mainA65534A", (7, 5), (11, 12)),
    ("t", "4mainA65535A", (7, 5), (7, 5)),
    ("t", "y" * 4096, (11, 4096), None),
    ("t", "y" * 4097, (6, 4096), None),
    ("t", "Si" + "m" * 256, (257, 259, 256, "Swift.Int" + ".Type" * 256), None),
    ("s", "$s" + nested(), (8 * LEVELS + 1, 10 * LEVELS, LEVELS, NESTED), None),
    ("s", "$s1a1axvp" + "Z" * MANY_Z, (4 + MANY_Z, 4 + MANY_Z, 0, "static " * MANY_Z + "a.a : A"), None),
]


def case(call, ceiling, room, text):
    return "%d\t%d\t-\t%d\t%d\t%s\n" % (call, ceiling, WORKSPACE, room, text.encode().hex())


def answer(a, written):
    if len(a) == 2:
        return "%d %d 0 0 0 0\t\n" % a
    return "0 0 %d %d %d %d\t%s\n" % (*a[:3], len(written), written.hex())


def parts():
    """Each case and its answer."""
    for kind, text, reading, check in ROWS:
        symbol_or_type = "st".index(kind)
        written = reading[3].encode() if len(reading) == 4 else b""
        yield case(symbol_or_type, READING, ROOM, text), answer(reading, written)
        yield case(2 + symbol_or_type, CHECK, 0, text), answer(check or reading, b"")


def main():
    cases, answers = zip(*parts())
    for name, lines in (("stdin", cases), ("stdout", answers)):
        with open(os.path.join(sys.argv[1], name), "a") as f:
            f.write("".join(lines))


main()
