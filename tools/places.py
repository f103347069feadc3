#!/usr/bin/env python3
"""Lists the places of each point of docs/DESIGN-PASS.md in crates/*/src, or counts them.

    places.py              the number of places of each point and rule
    places.py POINT        the places of a point, as file:line and text

It goes by the text of the sources: a rule is a pattern and finds candidates. A place that a line
`// Kept:` names still counts as found; the page says which are kept.
"""
import glob
import os
import re
import sys
from collections import Counter, defaultdict

TOP = os.path.join(os.path.dirname(os.path.abspath(__file__)), "..")

FAILURES = r"(Refused|Nothing|Broken|Not|Nowhere|Past|Stopped|Refuse|Failed|Ended|End|None)"

TRAVEL = [
    ("text and cursor", ("text", "c")),
    ("text and cursor", ("text", "from")),
    ("workspace and state", ("ws", "st")),
    ("workspace and size", ("ws", "n")),
    ("output, place and room", ("out", "at", "room")),
    ("kind, size, count and fields", ("kind", "size", "count", "rest")),
    ("literal: text, from and to", ("text", "from", "to")),
]


def sources():
    for path in sorted(glob.glob(os.path.join(TOP, "crates/*/src/**/*.rt"), recursive=True)):
        yield os.path.relpath(path, TOP), open(path).read()


def line_of(text, at):
    return text.count("\n", 0, at) + 1


def blocks(text, head):
    """The items that begin with `head` at the start of a line: (start, header, body)."""
    for m in re.finditer(head, text, re.M):
        depth = 0
        opened = False
        for i in range(m.start(), len(text)):
            ch = text[i]
            if ch == "{":
                depth += 1
                opened = True
            elif ch == "}":
                depth -= 1
                if opened and depth == 0:
                    yield m, text[m.start():i + 1]
                    break
            elif ch == ";" and not opened:
                break


def functions(text):
    """Each function: (line, name, signature and clauses, body).

    A line of the signature ends with `{` where the body begins, or with `;` where there is none: a
    trait's method that is only declared has its own clauses and an empty body.
    """
    head = r"^( *)(?:pub(?:\(crate\))? )?(?:const )?(?:extern \"C\" )?fn (\w+)"
    for m in re.finditer(head, text, re.M):
        end = m.start()
        for row in text[m.start():].splitlines(keepends=True):
            end += len(row)
            clause = re.match(r"\s*(?:requires|ensures|decreases)\b", row)
            if row.rstrip().endswith("};" if clause else ("{", ";")):
                break
        signature = text[m.start():end]
        body = ""
        if not signature.rstrip().endswith(";"):
            closed = re.search(r"^%s\}$" % m.group(1), text[end:], re.M)
            body = text[end:end + closed.start()]
        yield line_of(text, m.start()), m.group(2), signature, body


def shape(body):
    token = r"b'(?:\\.|[^'])'|b?\"[^\"]*\"|[A-Za-z_]\w*|\d\w*|[^\sA-Za-z_0-9]"
    tokens = re.findall(token, re.sub(r"//.*", "", body))
    keep = {"if", "else", "match", "while", "loop", "for", "return", "let", "mut", "in"}
    return tuple(t if t in keep or not re.match(r"[A-Za-z_0-9]|b'|\"", t) else "x" for t in tokens)


def point1():
    for path, text in sources():
        for m, body in blocks(text, r"^(?:pub )?enum (\w+)"):
            variants = re.findall(r"^    (\w+)", body, re.M)
            if len(variants) >= 2 and any(re.fullmatch(FAILURES, v) for v in variants):
                yield "own Option or Result", path, line_of(text, m.start()), m.group(1)
        for m, body in blocks(text, r"^(?:pub )?struct (\w+)"):
            fields = re.findall(r"^    (?:pub )?(\w+): ([^\n]*),", body, re.M)
            if len(fields) >= 2 and any(t == "bool" for _, t in fields):
                yield "flag and value", path, line_of(text, m.start()), m.group(1)
        for i, line in enumerate(text.split("\n"), 1):
            code = re.sub(r"//.*", "", line)
            if re.match(r"\s*(ghost|requires|ensures)", code):
                continue
            for pattern in (
                r"kind (?:==|!=|<|<=|>|>=) \d+",
                r"\b\d+ (?:<|<=) kind\b",
                r"kind: \d+",
                r"Want::Kind\(\d+\)|Marker\(\d+\)",
                r"took\([^()]*, \d+\)",
                r"(?:grow|push_new|push_kept|one_child|wrapped_child)\(ws, n, \w+, (?:Want::\w+, )?\d+",
                r"field\(ws, [^()]*, \d\)",
                r"put_text\([^()]*, \d+\)",
                r"Record\([^()]*, \d+\)|LazyWitness\(\d+\)|Named\(\d+\)",
            ):
                for _ in re.finditer(pattern, code):
                    yield "number for a kind, field or text", path, i, code.strip()
        for line, name, head, body in functions(text):
            if len(re.findall(r"^\s*\d+(?:\.\.=\d+)? => ", body, re.M)) >= 3:
                yield "a match on numbers", path, line, name


def point2():
    by_shape = defaultdict(list)
    by_name = defaultdict(list)
    for path, text in sources():
        if "/vectors/" in path:
            continue
        for line, name, head, body in functions(text):
            s = shape(body)
            if len(s) >= 12:
                by_shape[s].append((path, line, name))
            if body:
                by_name[name].append((path, line, name))
    for s, where in by_shape.items():
        for path, line, name in where[1:]:
            yield "the same shape as another function", path, line, f"{name} as {where[0][2]} ({where[0][0]})"
    for name, where in by_name.items():
        crates = {p.split("/")[1] for p, _, _ in where}
        if len(crates) > 1 and name not in ("new", "main", "fmt", "from", "eq"):
            for path, line, n in where[1:]:
                yield "the name of a function of another crate", path, line, n


def point3():
    for path, text in sources():
        for i, line in enumerate(text.split("\n"), 1):
            if re.match(r"\s*(?:'\w+: )?while ", line):
                yield "while", path, i, line.strip()
            elif re.match(r"\s*(?:'\w+: )?loop \{", line):
                yield "loop", path, i, line.strip()


def point4():
    for path, text in sources():
        for line, name, head, body in functions(text):
            code = re.sub(r"//.*", "", body).strip()
            arms = re.fullmatch(r"match [\w.]+ \{\n((?:\s+[\w:]+(?:\([^()]*\))? => [\w:+ .]+(?:\([\w, ]*\))?,\n)+)\s*\}", code)
            if arms and code.count("=>") >= 3 and re.search(r"=> (?:\d|true|false|[A-Z])", code):
                yield "a match from variants to values", path, line, name
            elif re.fullmatch(r"if \w+ \{\n\s+return 1;\n\s+\}\n\s+0", code):
                yield "a number made of a bool by hand", path, line, name
            elif re.fullmatch(r"\(?\w+(?: [%/&] \w+)?\)? as \w+", code):
                yield "a conversion", path, line, name
            elif re.search(r"-> bool", head) and re.search(r"\b(?:4[0-9]|5[0-9]|6[0-9]|9[0-9]|1[0-2][0-9])\b", code) and name.startswith("is_"):
                yield "a test of the library", path, line, name
            elif name in ("eq", "same", "starts_with", "between", "cmp"):
                yield "equality, order or a search by hand", path, line, name


def clause_facts(head):
    for clause in re.findall(r"^\s*requires(?: \w+)? \{ (.*) \};?$", head, re.M):
        for fact in re.split(r" × ", clause):
            yield fact.strip("() ")


def point5():
    facts = defaultdict(list)
    for path, text in sources():
        if "/vectors/" in path:
            continue
        for line, name, head, body in functions(text):
            params = re.findall(r"(\w+): ", head.split(")")[0] + ")")
            for what, group in TRAVEL:
                if all(p in params for p in group):
                    yield "parameters: " + what, path, line, name
                    break
            for fact in set(clause_facts(head)):
                facts[re.sub(r"\.(now|old)\b", "", fact)].append((path, line, name))
    for fact, where in facts.items():
        if len(where) >= 3:
            for path, line, name in where:
                yield "a fact of three contracts or more", path, line, f"{name}: {fact}"


def point6():
    for path, text in sources():
        for m, body in blocks(text, r"^(?:pub )?struct (\w+)"):
            arrays = re.findall(r"^    (?:pub )?(\w+): \[", body, re.M)
            if arrays:
                yield "arrays with a length beside", path, line_of(text, m.start()), m.group(1) + ": " + ", ".join(arrays)
        sizes = defaultdict(list)
        for m in re.finditer(r"^const (\w+): \[(\w+); (\w+)\]", text, re.M):
            sizes[m.group(3)].append((line_of(text, m.start()), m.group(1)))
        for size, where in sizes.items():
            if len(where) >= 2:
                for line, name in where:
                    yield "parallel constant arrays", path, line, name
        for line, name, head, body in functions(text):
            if len(re.findall(r"^\s*\d+ => ", body, re.M)) >= 8:
                yield "a table as a match on numbers", path, line, name


def point7():
    for path, text in sources():
        for line, name, head, body in functions(text):
            for m in re.finditer(r"match (\w+) \{\n((?:.*\n)*?)\s+\}\n?", body):
                arms = re.findall(r"^\s*\w+::\w+(?:\([^)]*\))? => \{?\s*(?:return )?([\w:.]+)\(", m.group(2), re.M)
                total = len(re.findall(r"=>", m.group(2)))
                if total >= 3 and len(arms) == total and len(set(arms)) == total:
                    yield "a match that chooses a function", path, line, name


def point8():
    for path in sorted(glob.glob(os.path.join(TOP, "crates/*/proofs/**/*.antt"), recursive=True)):
        text = open(path).read()
        short = os.path.relpath(path, TOP)
        if path.endswith("/Proof.antt"):
            yield "walks by hand (Proof.antt)", short, 1, f"{text.count(chr(10))} lines"
        for m in re.finditer(r"^[^\n]* = search rules$", text, re.M):
            yield "answers `search rules`", short, line_of(text, m.start()), m.group(0)


POINTS = {"1": point1, "2": point2, "3": point3, "4": point4, "5": point5, "6": point6, "7": point7, "8": point8}


def main():
    if len(sys.argv) > 1:
        for rule, path, line, what in POINTS[sys.argv[1]]():
            print(f"{path}:{line}: {rule}: {what}")
        return
    for point, find in POINTS.items():
        rules = Counter(rule for rule, _, _, _ in find())
        print(f"{point}: {sum(rules.values())}")
        for rule, count in sorted(rules.items()):
            print(f"   {count:5}  {rule}")


main()
