"""Confirms the names of compare/declarations and writes them as rows and as tables.

    declared.py ROOT SWIFT PROGRAMS [--check]

ROOT is the repository, SWIFT the folder that compare/swift/fetch sets up, PROGRAMS the folder of
`filter` (the Rust, unchanged) and `occurring` (its operators in names). compare/declared calls it.

A comment `// = text` in a source is the text that the Rust prints for one compiled name of the
declaration after it; a line `//   ` continues the text. The name is searched among all names that
Swift's own compiler gives for that source, and Swift's own text of it must contain what is
declared. `// ~ text` is the same for a name that comes with the declaration and is not its own: that
of its module, or one that its code uses. `// Section: title` names the table of docs/NAMES.md to
which the rows after it belong. A type or an extension over several lines ends its first line with a
brace, and a separate line closes it.
"""
import difflib
import os
import re
import subprocess
import sys
import textwrap
from collections import namedtuple

FOLDER = "compare/declarations"
ROWS = FOLDER + "/rows"
PAGE = "docs/NAMES.md"

SECTION, OWN, OTHER, MORE = "// Section: ", "// = ", "// ~ ", "//   "
DECLARED = re.compile(r"\b(?:func|var|struct|class(?! func)|enum|protocol|extension|associatedtype) (\w+)|\b(init|deinit)\b")
FUNCTION = re.compile(r"(@\w+(\(.*?\)+)? |\w+ )*(func|init|deinit)\b")
TABLE = re.compile(r"(<!-- table: (.*?) -->\n).*?(<!-- end -->)", re.S)
COVERAGE = re.compile(r"(<!-- coverage -->\n).*?(<!-- end -->)", re.S)

Expected = namedtuple("Expected", "place section declaration declared text")
Row = namedtuple("Row", "section declaration name text swift")


class Problem(Exception):
    """The problems with sources, names or page, one per line."""


# The sources


def headline(code):
    """A declaration without its body. A body in the same line is kept if it says something: for a
    function, if it calls something or takes a member; for others, if it is not empty."""
    front, _, body = code.partition(" {")
    if FUNCTION.match(code) and not re.search(r"\w\(|\.", body):
        return front
    if code.endswith((" {", " {}")):
        return code[: code.rindex(" {")]
    return code


def unfinished(code):
    """Whether a declaration continues in the next line: a parenthesis or two braces are open."""
    return code.count("(") > code.count(")") or code.count("{") > code.count("}") + 1


def declared_in(code):
    """What a declaration declares: an identifier, `init` or `deinit`."""
    match = DECLARED.search(code)
    return match and (match[1] or match[2])


class Source:
    """What the comments of a source ask for, gathered line by line."""

    def __init__(self, path, lines):
        self.asked = []
        self.section, self.around, self.texts, self.begun = None, [], [], ""
        for number, line in enumerate(lines, 1):
            self.place = f"{path}:{number}"
            self.line(line.strip())
        if self.texts or self.begun or self.around:
            raise Problem(f"{path}: it ends within a declaration")

    def line(self, code):
        if code.startswith(SECTION):
            self.section = code[len(SECTION) :]
        elif code.startswith((OWN, OTHER)):
            self.texts.append([self.place, code.startswith(OWN), code[len(OWN) :]])
        elif self.texts and code.startswith(MORE):
            self.texts[-1][2] += " " + code[len(MORE) :]
        elif code and not code.startswith("//"):
            self.code(code)
        elif self.texts:
            raise Problem(f"{self.place}: no declaration after the comment of {self.texts[-1][0]}")

    def code(self, code):
        """A line of code: a declaration, the start of one, its next line, or a closing brace."""
        code = (self.begun + " " + code).replace("( ", "(").strip()
        self.begun = code if unfinished(code) else ""
        if self.begun:
            return
        self.ask(code, " { ".join(self.around + [headline(code)]) + " }" * len(self.around))
        if code == "}":
            self.around.pop()
        elif code.endswith("{"):
            self.around.append(headline(code))

    def ask(self, code, declaration):
        """Takes the texts that were before a declaration."""
        if self.texts and self.section is None:
            raise Problem(f"{self.place}: a row in no section")
        for place, own, text in self.texts:
            declared = declared_in(code) if own else ""
            if declared is None:
                raise Problem(f"{place}: nothing is declared after it")
            self.asked.append(Expected(place, self.section, declaration, declared, text))
        self.texts = []


# Names and texts


def lines_of(command, names=(), **options):
    """What a program writes, line by line, with the names as its input."""
    given = "".join(name + "\n" for name in names).encode()
    run = subprocess.run(command, input=given, stdout=subprocess.PIPE, **options)
    if run.returncode != 0:
        shown = " ".join([os.path.basename(command[0]), *command[1:]])
        raise Problem(f"{shown} ended with exit status {run.returncode}")
    return run.stdout.decode().splitlines()


class Programs:
    """The programs that are asked about names."""

    def __init__(self, swift, folder):
        self.swift, self.folder = swift, folder

    def compiled(self, source, folder):
        """The names that Swift's own compiler gives for a source."""
        return lines_of([f"{self.swift}/bin/names-of", source], cwd=folder)

    def texts(self, names):
        """The names that the Rust reads, with their texts."""
        answers = lines_of([f"{self.folder}/filter"], names)
        return {n: a[2:] for n, a in zip(names, answers) if a.startswith("=\t")}

    def swifts(self, names):
        """The texts of the names by Swift's own demangler."""
        return dict(zip(names, lines_of([f"{self.swift}/bin/swift-demangle", "-compact"], names)))

    def occurring(self, names):
        """How often each operator of the Rust occurs in the names."""
        lines = lines_of([f"{self.folder}/occurring"], names)
        return {operator: int(often) for operator, often in (line.split("\t") for line in lines)}


def words_of(text):
    """The identifiers of a text, and `init` and `deinit`."""
    return re.split(r"\W+|__allocating_|__deallocating_", text)


def found(asked, texts, swifts):
    """The rows that have one compiled name, with that name; the problems with the others."""
    named, problems = [], []
    for row in asked:
        names = [name for name, text in texts.items() if text == row.text]
        if len(names) == 1:
            named.append((row, names[0]))
            if row.declared and row.declared not in words_of(swifts[names[0]]):
                problems.append(f"{row.place}: {names[0]} is no name of {row.declared}")
            continue
        count = len(names) or "no"
        problems.append(f"{row.place}: {count} compiled names have the text {row.text}")
        problems += [f"    {name}  {texts[name]}" for name in names or nearest(row.text, texts)]
    return named, problems


def nearest(text, texts):
    """The three names whose texts are most similar to the one that is asked for."""
    by_text = {own: name for name, own in texts.items()}
    return [by_text[own] for own in difflib.get_close_matches(text, by_text, 3, 0)]


def twice(named):
    """The problem if two comments ask for one name."""
    first, problems = {}, []
    for row, name in named:
        if name in first:
            problems.append(f"{row.place}: {name} has a row already, by {first[name]}")
        first.setdefault(name, row.place)
    return problems


def confirmed(root, programs):
    """Every comment with its name; all compiled names; the texts of those that the Rust reads, from
    the Rust and from Swift."""
    folder = os.path.join(root, FOLDER)
    named, problems, names, texts, swifts = [], [], set(), {}, {}
    for source in sorted(f for f in os.listdir(folder) if f.endswith(".swift")):
        asked = Source(f"{FOLDER}/{source}", kept(os.path.join(folder, source)).splitlines()).asked
        own = programs.compiled(source, folder)
        own_texts = programs.texts(own)
        own_swifts = programs.swifts(list(own_texts))
        own_named, own_problems = found(asked, own_texts, own_swifts)
        named += own_named
        problems += own_problems
        names.update(own)
        texts.update(own_texts)
        swifts.update(own_swifts)
    problems += twice(named)
    if problems:
        raise Problem("\n".join(problems))
    return named, names, texts, swifts


# Rows and page


def rows_of(named, swifts, order):
    """The rows, in the order of the page's sections."""
    rows = []
    for row, name in named:
        differs = swifts[name] if swifts[name] != row.text else ""
        rows.append(Row(row.section, row.declaration, name, row.text, differs))
    place = {section: at for at, section in enumerate(order)}
    return sorted(rows, key=lambda row: place.get(row.section, len(order)))


def sections(page):
    """The sections of the page, in its order."""
    return [match[2] for match in TABLE.finditer(page)]


def cell(text):
    return "`" + text.replace("|", "\\|") + "`" if text else ""


def table(rows):
    """The rows of a section; Swift's own text is a column if it differs in one of them."""
    heads = ["declaration", "mangled name", "text", "Swift's own text, where it differs"]
    columns = 4 if any(row.swift for row in rows) else 3
    lines, above = [heads, ["---"] * 4], None
    for row in rows:
        declaration = row.declaration if row.declaration != above else ""
        lines.append([cell(c) for c in (declaration, row.name, row.text, row.swift)])
        above = row.declaration
    return "".join("| " + " | ".join(line[:columns]) + " |\n" for line in lines)


def filled(page, rows, coverage):
    """The page with the tables of these rows, and with their coverage."""
    by_section = {}
    for row in rows:
        by_section.setdefault(row.section, []).append(row)
    there = sections(page)
    problems = [f"{PAGE}: no table for the section {s}" for s in by_section if s not in there]
    problems += [f"{PAGE}: no row is in the section {s}" for s in there if s not in by_section]
    problems += [] if COVERAGE.search(page) else [f"{PAGE}: no place for what the rows cover"]
    if problems:
        raise Problem("\n".join(problems))
    page = TABLE.sub(lambda m: m[1] + table(by_section[m[2]]) + m[3], page)
    return COVERAGE.sub(lambda m: m[1] + coverage + "\n" + m[2], page)


def covered(rows, names, texts, used):
    """How much the rows cover, as a paragraph of the page."""
    unused = [f"`{operator}`" for operator, often in used.items() if often == 0]
    text = (
        f"The sources have {len(names)} compiled names, of which {len(texts)} are read. In the "
        f"{len(rows)} rows {len(used) - len(unused)} of the {len(used)} operators occur; these "
        f"{len(unused)} do not: {', '.join(unused)}."
    )
    return textwrap.fill(text, 100, break_long_words=False, break_on_hyphens=False)


def report(rows, texts, swifts, used, programs):
    """Prints what Swift reads differently, and where the operators that are in no row occur."""
    others = sum(1 for name, text in texts.items() if swifts[name] != text)
    print(f"{others} of the names that are read have another text by Swift's own demangler,")
    print(f"{sum(1 for row in rows if row.swift)} of them in rows")
    libraries = kept(f"{programs.swift}/names").splitlines()
    for what, names in (("compiled names", texts), ("names of Swift's own libraries", libraries)):
        there = programs.occurring(names)
        left = [operator for operator, often in used.items() if often == 0 and there[operator]]
        print(f"operators in no row that occur in {what}: {' '.join(left) or 'none'}")


# What is kept


def kept(path):
    if not os.path.exists(path):
        return ""
    with open(path, encoding="utf-8", newline="") as file:
        return file.read()


def settle(root, path, text, check):
    """Writes a file; or, if it is only checked, reports where it differs."""
    own = kept(os.path.join(root, path))
    if own == text:
        return True
    if check:
        print(f"{path} is not what compare/declared writes:", file=sys.stderr)
        for line in list(difflib.unified_diff(own.splitlines(), text.splitlines(), n=0))[2:12]:
            print("    " + line.rstrip("\n"), file=sys.stderr)
        return False
    with open(os.path.join(root, path), "w", encoding="utf-8", newline="") as file:
        file.write(text)
    print(f"{path} is written")
    return True


def main(root, swift, folder, check):
    programs = Programs(swift, folder)
    named, names, texts, swifts = confirmed(root, programs)
    page = kept(os.path.join(root, PAGE))
    rows = rows_of(named, swifts, sections(page))
    used = programs.occurring([row.name for row in rows])
    coverage = covered(rows, names, texts, used)
    page = filled(page, rows, coverage)
    print(kept(f"{swift}/version") + coverage)
    report(rows, texts, swifts, used, programs)
    lines = "".join("\t".join(row) + "\n" for row in rows)
    return all([settle(root, ROWS, lines, check), settle(root, PAGE, page, check)])


if __name__ == "__main__":
    try:
        sys.exit(0 if main(*sys.argv[1:4], check=sys.argv[4:] == ["--check"]) else 1)
    except Problem as problem:
        sys.exit(str(problem))
