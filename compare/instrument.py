#!/usr/bin/env python3
"""Makes the instrumented copy of the Rust source: compare/instrument.py SOURCE MODULE COPY.

The copy is the source with the edits below, which add to its demangler a ceiling in place of its
bound on nodes, a number of turns after which it stops, the place at which the current turn began,
and the number of the refusal that a None would now be. MODULE (compare/src/instrumented.rs) becomes
a module of the copy; its `answer` sets the first two and returns the rest.

An edit is given by the number of a line of the source, and by columns if a part of a line is
replaced. The lines and columns are those of the source with the SHA-256 below, and no other source
is accepted. No line of the source is quoted here: the added text only names types, fields and
constants of it. COPY is never committed; build.sh writes it to target/compare.

Why the number noted last is the number of the refusal: the source gives None only if something that
it just asked for is missing. So each of the few functions through which it asks notes a number
first: the one through which every byte of the text is read, the two that pop a node, the one that
counts a wrap and the one that charges. Whatever is judged without asking again (the meaning of a
letter, a number that is too large, the kind of a node) is judged by what was asked last. Three
places have their own number, which is noted there: one step too many, one count too many after `r`,
and the product that the copies of a substitution charge.
"""
import hashlib
import sys

SOURCE_SHA256 = "99c5a604492d6e93efb5c74e9c8367cb78e693627f75dd2d00fe0b750e3961c2"

FAILED = 2  # exit status


def instead(line, first, last, text):
    """Our text in place of these columns of the line."""
    return line, first, last, text


def at(line, column, text):
    """Our text within the line, before the column."""
    return instead(line, column, column - 1, text)


def before(line, text):
    """Our text as lines before the line."""
    return at(line, 1, text + "\n")


def asks(number):
    """Notes the number with which a None from here on is refused."""
    return "self.asked.set(instrumented::%s);" % number


def edits(module):
    """Every edit, in the order of the source."""
    return [
        # The module, and what users of the copy call.
        before(25, '#[path = "%s"]\nmod instrumented;\npub use instrumented::{answer, Answer};' % module),
        # A node starts with the index of its case in the enumeration: its kind.
        before(83, "#[repr(u8)]"),
        # A signature is printed with no more names than the module allows: a text that is already
        # longer than its room needs no more of them, and there may be nearly 2^64.
        at(365, 54, ".take(instrumented::most_names())"),
        # The four additional fields, and their values in a new demangler: it runs like the source.
        before(594, "asked: std::cell::Cell<u64>,\nplace: usize,\nceiling: usize,\nstop: Option<usize>,"),
        before(616, "asked: std::cell::Cell::new(0),\nplace: 0,\nceiling: MOST_NODES,\nstop: None,"),
        # 9: the text is read.
        before(620, asks("SPELLING")),
        # 10: a node is popped, without a condition and with one.
        before(647, asks("STACK")),
        before(652, asks("STACK")),
        # 8: a wrap is counted.
        before(661, asks("NESTING")),
        # 7: nodes are charged; and the ceiling replaces the bound.
        before(667, asks("CHARGE")),
        instead(668, 24, 33, "self.ceiling"),
        # A turn of the machine begins: it is left out if the requested number of turns was made,
        # and its place is noted.
        before(691, "if self.stop == Some(self.steps) {\nbreak;\n}\nself.place = self.pos;"),
        # 6: one step too many.
        before(693, asks("STEPS")),
        # 7: the product that the copies of a substitution charge. The other product, of a repeated
        # standard type, cannot be too large: a repeat is at most 4,096.
        before(908, asks("CHARGE")),
        # 8: one count too many after `r`.
        before(1280, asks("NESTING")),
    ]


def instrumented(source, module):
    """The text of the copy: the edits are made from the last to the first, so that each finds its
    own line."""
    lines = source.decode().splitlines(keepends=True)
    for line, first, last, text in reversed(edits(module)):
        old = lines[line - 1]
        lines[line - 1] = old[:first - 1] + text + old[last:]
    return "".join(lines)


def fail(message):
    print(message, file=sys.stderr)
    sys.exit(FAILED)


def main():
    if len(sys.argv) != 4:
        fail("usage: compare/instrument.py SOURCE MODULE COPY (compare/instrument gives all three)")
    path, module, copy = sys.argv[1:]
    try:
        with open(path, "rb") as f:
            source = f.read()
    except OSError as e:
        fail("no Rust source to instrument: %s" % e)
    found = hashlib.sha256(source).hexdigest()
    if found != SOURCE_SHA256:
        fail("%s is not the source that the edits of compare/instrument.py are numbered for:\n"
             "  its SHA-256 is %s,\n  theirs is      %s.\n"
             "Set RUST_SOURCE to that source, or ORACLE=none to do without the instrumented copy." % (path, found, SOURCE_SHA256))
    with open(copy, "w") as f:
        f.write(instrumented(source, module))


main()
