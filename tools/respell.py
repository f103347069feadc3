#!/usr/bin/env python3
"""Brings this repository's own names to snake case: next-if becomes next_if, size' stays.

usage: python3 tools/respell.py [--list] [FOLDER]

FOLDER is the top of the repository (default: the folder above this script). A name counts as the
repository's own if one of its .antt files declares it: a definition, a lemma, a field, a
constructor, a binder. Names of the kit's library, names that the prover makes (goals, steps) and
the names of goals that a Proof.antt answers stay. The script rewrites crates/*/{src,specs,proofs},
must-fail/*.edit (their comments too), and what stands in backticks in README.md and docs/ (a quoted
text too, if it looks like such a name). --list prints the table and writes nothing. It reports a
name of the kit's that is declared here too, which stays, and a name whose new spelling is declared
already or is a parameter of a function, which is renamed: look at each.
"""
import glob
import os
import re
import sys

# A word of antt: what stands between blanks, brackets, dots, commas and quotes.
WORD = re.compile(r"[^\s(){}.;,@\"«»\[\]\\`|]+")
# Comments, strings and words, in this order.
TOKEN = re.compile(r"(--|//)[^\n]*|\"(?:[^\"\\]|\\.)*\"|" + WORD.pattern)
DASHED = re.compile(r"^[^\W\d_](?:[^\W_]|[_'′₀-₉])*(?:-[^\s-]+)+$")


def read(path):
    with open(path, encoding="utf-8", newline="") as f:
        return f.read()


def files(top, *ends):
    for path in sorted(glob.glob(f"{top}/crates/**/*", recursive=True)):
        if "/out/" not in path and os.path.isfile(path) and path.endswith(ends):
            yield path


# A declaration at the beginning of a line, or a field or binder: a name and a colon.
DECLARED = re.compile(r"(?m)^[ |]*(?:(?:pub|abbrev|unfoldable|pattern|data|record|module) )*([^\s(){}.;,\"«»\[\]\\]+)(?= (?::|\())")
BOUND = re.compile(r"[({]((?:[^\s(){}.;,\"«»\[\]\\:]+ )+):")
LET = re.compile(r"\blet ([^\s(){}.;,\"«»\[\]\\]+) (?::|=)")
DO = re.compile(r"(?m)^ +([^\s(){}.;,\"«»\[\]\\]+) ←")
LAMBDA = re.compile(r"λ ([^.→↦]*?)\.")
SECTION = re.compile(r"(?m)^ *(?:pub )?(?:data|record) ([^\s(){}.;,\"«»\[\]\\]+)")
GOAL = re.compile(r"(?m)^([^\s(){}.;,\"«»\[\]\\]+) : tie\.(?:Need|invariant|decreases)")


def declared(text, proof):
    code = re.sub(r"--[^\n]*", "", text)
    found = set(DECLARED.findall(code)) | set(LET.findall(code)) | set(DO.findall(code)) | set(SECTION.findall(code))
    for group in BOUND.findall(code):
        found.update(group.split())
    for group in LAMBDA.findall(code):
        found.update(WORD.findall(group))
    if proof:
        found -= set(GOAL.findall(code))
        found -= {w for w in found if w.startswith(("invariant-loop", "decreases-"))}
    return found


# A function's parameters hide names of the same spelling in its clauses.
PARAMETERS = re.compile(r"\bfn \w+[^(]*\(([^{]*?)\)(?= ->| *\n| *\{)", re.S)
IMPORTED = re.compile(r"use ([^\s{;]+)\.\{([^}]*)\}")


def table(top):
    crates = {os.path.basename(c) for c in glob.glob(f"{top}/crates/*")}
    own, used, imported = set(), set(), set()
    for path in files(top, ".antt", ".rt"):
        text = read(path)
        for module, names in IMPORTED.findall(text):
            parts = module.split(".")
            if parts[0] != "Rattle" or len(parts) < 2 or parts[1] not in crates:
                imported.update(n.split(" as ")[0].strip() for n in names.split(","))
        if path.endswith(".antt"):
            found = declared(text, path.endswith("/Proof.antt"))
            own |= {w for w in found if DASHED.match(w)}
            used |= {w for w in found if not DASHED.match(w)}
        else:
            for group in PARAMETERS.findall(text):
                used.update(re.findall(r"(\w+) *:", group))
    out, clash = {}, []
    for name in sorted(own):
        new = name.replace("-", "_")
        if name in imported:
            clash.append((name, "a name of the kit too: it stays"))
            continue
        if new in used:
            clash.append((name, "the new name is in use"))
        out[name] = new
    return out, clash, used | set(out.values())


def turned_prose(text, names, known):
    """Turns what stands in backticks: names of the table, and those that have the new spelling already."""

    def word(m):
        it = m.group(0)
        new = it.replace("-", "_")
        return new if it in names or DASHED.match(it) and new in known else it

    return re.sub(r"`[^`\n]+`", lambda m: WORD.sub(word, m.group(0)), text)


def turned(text, names, known):
    def one(m):
        it = m.group(0)
        if m.group(1):
            return turned_prose(it, names, known)
        return it if it.startswith('"') else names.get(it, it)

    return TOKEN.sub(one, text)


def main(argv):
    top = ([a for a in argv if not a.startswith("--")] + [os.path.dirname(os.path.dirname(os.path.abspath(__file__)))])[0]
    names, clash, declared_now = table(top)
    for name, why in clash:
        print(f"clash: {name}: {why}")
    if "--list" in argv:
        for name, new in names.items():
            print(f"{name}\t{new}")
        return
    count = 0
    pages = [f"{top}/README.md", *glob.glob(f"{top}/docs/*.md")]
    for path in [*files(top, ".antt", ".rt", ".edit"), *pages]:
        text = read(path)
        new = (turned_prose if path.endswith(".md") else turned)(text, names, declared_now)
        if path.endswith(".edit"):
            new = WORD.sub(lambda w: names.get(w.group(0), w.group(0)), text)
        if new != text:
            count += 1
            with open(path, "w", encoding="utf-8", newline="") as f:
                f.write(new)
    print(f"{len(names)} names, {count} files")


main(sys.argv[1:])
