"""What ./differences and ./real-differences share: rewritings of a text, the search for the
smallest set of classes that explains a difference, and the count of names that show a class.

A class is a tuple: its name, whether it can apply (a function of the name and both texts), and how
each text is rewritten (functions of the name and the text). A name is whatever its command makes of
a symbol; here only its `symbol` is used.
"""
import itertools
import re

NOTHING = "(none)"
MOST_CLASSES = 6  # no difference is attributed to more


# Rewritings

def same(name, text):
    return text


def both(rewrite):
    return lambda name, text: rewrite(text), lambda name, text: rewrite(text)


def drop(*words):
    def rewrite(name, text):
        for word in words:
            text = text.replace(word, "")
        return text
    return rewrite


def swap(old, new):
    return lambda name, text: text.replace(old, new)


def punycode(code):
    """Swift's punycode: letters for digits, `_` for the bar. None if it does not decode."""
    base, _, rest = code.rpartition("_")
    points, n, i, bias, first = [ord(c) for c in base], 128, 0, 72, True
    at = 0
    while at < len(rest):
        before, weight, k = i, 1, 36
        while True:
            if at >= len(rest):
                return None
            c = rest[at]
            at += 1
            digit = ord(c) - 97 if "a" <= c <= "z" else ord(c) - 65 + 26 if "A" <= c <= "J" else None
            if digit is None:
                return None
            i += digit * weight
            t = 1 if k <= bias else 26 if k >= bias + 26 else k - bias
            if digit < t:
                break
            weight *= 36 - t
            k += 36
        delta = (i - before) // (700 if first else 2)
        first = False
        delta += delta // (len(points) + 1)
        k = 0
        while delta > 455:
            delta //= 35
            k += 36
        bias = k + 36 * delta // (delta + 38)
        n += i // (len(points) + 1)
        i %= len(points) + 1
        if n > 0x10FFFF:
            return None
        points.insert(i, n)
        i += 1
    return "".join(map(chr, points))


def decoded(name, text):
    """The text with the `00` identifiers of the name decoded."""
    symbol = name.symbol
    for m in re.finditer(r"00(\d+)_?", symbol):
        code = symbol.encode()[len(symbol[:m.end()].encode()):][:int(m.group(1))].decode("utf-8", "replace")
        text = text.replace(code, punycode(code) or "")
    return text


# Classes without their names, where a word of Swift's text identifies them

def only_in_swift(word, *others):
    """Swift prints a word, maybe with others, that the other text does not have."""
    return lambda name, ours, swift: word in swift, same, drop(*others, word)


def other_in_swift(word, ours):
    """Swift prints one word in place of another."""
    return lambda name, _, swift: word in swift, same, swap(word, ours)


def smallest_set(classes, name, ours, swift):
    """The smallest set of classes whose rewritings make the texts equal; None if no set does."""
    meant = [c for c in classes if c[1](name, ours, swift)]
    for size in range(1, MOST_CLASSES + 1):
        for some in itertools.combinations(meant, size):
            a, b = ours, swift
            for _, _, rewrite_ours, rewrite_swift in some:
                a, b = rewrite_ours(name, a), rewrite_swift(name, b)
            if a == b:
                return [c[0] for c in some]
    return None


# Counts

class Row:
    def __init__(self):
        self.names, self.exported, self.alone, self.example = 0, 0, 0, None


class Tally:
    """How many names show each class, how many show only it, and the shortest example of those."""

    def __init__(self):
        self.rows = {}

    def add(self, classes, symbol, texts, exported=False):
        alone = len(classes) == 1
        for c in classes:
            row = self.rows.setdefault(c, Row())
            row.names += 1
            row.exported += exported
            row.alone += alone
            if alone and (row.example is None or (len(symbol), symbol) < (len(row.example[0]), row.example[0])):
                row.example = (symbol, *texts)

    def sorted(self):
        """Class and row, the most names first."""
        return sorted(self.rows.items(), key=lambda item: -item[1].names)


def cell(text):
    """A text as a cell of a table, cut if it is long."""
    text = text.replace("|", "\\|")
    return "`%s`" % (text if len(text) <= 160 else text[:159] + "…")


def cells(example):
    """The cells of the symbol and texts of an example; empty ones if there is no example."""
    return [cell(t) for t in example] if example else ["", "", ""]
