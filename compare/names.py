#!/usr/bin/env python3
"""Writes stdin and stdout of crates/names and crates/shapes. None of our own code makes an answer.

Run from the repository's root: compare/names.py PROGRAM. PROGRAM reads lines and answers each with
`=`, a tab and the text that the Rust's `demangle` gives, or with `!` if it gives None (or the line
is not UTF-8): swift_demangle.rs of ag-engine with a main of a few lines, built by rustc. PROGRAM
decides whether a name is read, and gives its text. The numbers and places of refusals, and the
counts, are taken by hand from document 01. What the Rust cannot answer at a ceiling of 256, with
lines of 4,096 bytes and 16,384 bytes of text, is written here according to document 01.
"""
import subprocess
import sys

BUFFER = 65536  # how much the programs read at once
LINE = 4096


def filled(front, size):
    """The name with a suffix that gives it this length."""
    return front + b"." + b"x" * (size - len(front) - 1)


FOO = b"$s4main3fooyyF"

# (line, refusal of `names`, counts of `shapes`): no refusal means that the Rust reads it; no
# counts, that `shapes` refuses in the same way
CASES = [
    (FOO, None, (5, 5, 1)),
    (b"$sZ", (10, 2), None),
    (b"", (5, 0), None),
    (b"$s_", None, (1, 1, 0)),
    (b"_$S4main3fooyyF.1", None, (5, 5, 1)),
    (b"$s4main3foo3barySi_tF", None, (8, 10, 2)),
    (b"$s4main3FooV1aACvp", None, (6, 8, 0)),
    (b"$s4ma\xffn3fooyyF", (4, 5), None),
    (b"$s4main3fooyyF.\xc3", (4, 15), None),
    ("é".encode(), (5, 0), None),
    (b"$s", (5, 0), None),
    (b"$s4main", (11, 7), None),
    (FOO + b"\r", (9, 14), None),
    (b"$s4mainA257A", (7, 7), None),  # the ceiling is 256
    (b"$sr9999_l", (12, 0), (1, 1, 0)),  # 10,001 names with a comma and a space between them
    (filled(FOO, LINE - 1), None, (5, 5, 1)),
    (filled(FOO, LINE), None, (5, 5, 1)),
    (filled(FOO, LINE + 1), (3, 0), None),
    (filled(b"\xff", LINE + 1), (3, 0), None),
    (filled(FOO, BUFFER - 1), (3, 0), None),
    (FOO, None, (5, 5, 1)),
    (filled(FOO, BUFFER), (3, 0), None),
    (FOO, None, (5, 5, 1)),
    (filled(FOO, BUFFER + 1), (3, 0), None),
    (filled(FOO, 3 * BUFFER), (3, 0), None),
]

# lines of many lengths, some across the end of a buffer
MANY = [(b"$s4main%d%syyF" % (n, b"a" * n), None, (5, 5, 1)) for k in range(30) for n in range(1, 61)]

# the input of `names` ends with a short line without a newline, that of `shapes` with a newline
TAIL = [(b"$s4main3foo3barySi_tF", None, (8, 10, 2)), (b"$sZ", (10, 2), None)]
ENDS = {"names": b"", "shapes": b"\n"}


def refused(number, place):
    return b"!\t%d\t%d\n" % (number, place)


def main():
    cases = CASES + MANY + TAIL
    text = b"\n".join(line for line, _, _ in cases)
    rust = subprocess.run([sys.argv[1]], input=text, stdout=subprocess.PIPE, check=True).stdout.split(b"\n")
    names, shapes = [], []
    for (line, refusal, counts), answer in zip(cases, rust):
        if refusal is None:
            assert answer.startswith(b"=\t"), (line, answer)
            names.append(answer + b"\n")
        else:
            # the Rust has no limits on lines and texts, and a ceiling of 65,536
            assert answer == b"!" or refusal[0] in (3, 7, 12), (line, answer)
            names.append(refused(*refusal))
        shapes.append(refused(*refusal) if counts is None else b"=\t%d\t%d\t%d\n" % counts)
    for crate, answers in (("names", names), ("shapes", shapes)):
        with open(f"crates/{crate}/stdin", "wb") as f:
            f.write(text + ENDS[crate])
        with open(f"crates/{crate}/stdout", "wb") as f:
            f.write(b"".join(answers))


main()
