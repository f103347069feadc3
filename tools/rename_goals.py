#!/usr/bin/env python3
"""Renames, in the Proof.antt files of a crate, goals and steps of an older Rattle to today's.

usage: python3 tools/rename_goals.py NAMES CRATE

NAMES is the names.json that `rt check --generated DIR --old-names` wrote for the crate, and CRATE its
folder. It turns Proof.antt and the files Proof/*.antt. A goal goes by its place among the arguments of
`tie.spec`, a step by the record that a path leads to. Where today's goals are others, it goes by
their names, leaves new ones to `search rules`, and drops the answer of a goal that is no longer
asked. All of this is printed, and so is what it cannot place, which stays.
"""
import glob
import json
import os
import re
import sys

W = r"[^\s(){}.;,\"«»\[\]\\]+"


def norm(name):
    return re.sub("-+", "-", name.replace("_", "-"))


class Names:
    """The names of one function: places with their steps, goals and loops."""

    AT_START = ("args", "requires", "ranges", "lifetimes", "well_formed", "type_inv", "utf8", "ghost", "blocks")

    def __init__(self, of):
        self.index = {}
        self.places = []
        self.callees = []
        self.arms = of["arms"]
        for (name, parent, step, callee, fields), new in zip(of["places"], of["places_by_name"]):
            self.index[norm(name)] = len(self.places)
            self.places.append((name, norm(parent) if parent else None, step, fields, new))
            self.callees.append(callee)
        self.needs = of["needs"]
        self.asked_at = [self.promoted(norm(a[0]), True) for a in of["asked_at"]]
        self.loops = [it[0] for it in of["loops"]]
        self.params = of["params"]
        self.args = {}
        for old, new in of["args"]:
            a, b = old.replace(" ", "").split("."), new.replace(" ", "").split(".")
            self.args[tuple(a[1:])] = b[1:]

    def inner(self, place):
        """Whether a place is an arm's inner record: one of the same arm follows it."""
        arm = self.arms[self.index[place]]
        if not arm:
            return False
        return any(p[1] == place and self.arms[at] and self.arms[at][0] == arm[0] for at, p in enumerate(self.places))

    def level(self, place):
        arm = self.arms[self.index[place]]
        return arm[1] if arm else 0

    def parent(self, place):
        """The place before, as it was."""
        return self.places[self.index[place]][1]

    def before(self, place):
        """The place that today's record has as its field before."""
        up = self.parent(place)
        if self.level(place) and not self.inner(place):
            while up and self.level(up) in (1, 2) and self.arms[self.index[up]][0] == self.arms[self.index[place]][0]:
                up = self.parent(up)
        return up

    def promoted(self, place, goal=False):
        """An arm's inner record is today the arm's own, but for the goals asked inside it."""
        while not goal and self.level(place) and self.inner(place):
            arm = self.arms[self.index[place]][0]
            place = next(norm(p[0]) for at, p in enumerate(self.places) if p[1] == place and self.arms[at] and self.arms[at][0] == arm)
        return place

    def up(self, place, k):
        for _ in range(k):
            place = self.parent(place) if place else None
        return place

    def chain(self, start, target):
        """How many .before lead from a place to another, or None."""
        k = 0
        while start and start != target:
            start = self.before(start)
            k += 1
        return k if start else None

    def step(self, place, fields):
        """The fields of a path that begins with a step, renamed, or None."""
        seek, final = place, None
        while seek is not None:
            at = self.index[seek]
            name, parent, step, renamed, new = self.places[at]
            callee = self.callees[at]
            if self.level(seek) and not self.inner(seek):
                final = at
            if step[0] and norm(step[0]).lower() in (norm(fields[0]).lower(), norm(fields[0].replace("_lem", "")).lower()):
                rest = fields[1:]
                if self.arms[at] and final is not None and self.arms[final][0] == self.arms[at][0]:
                    best = None
                    for field, old, path in self.arms[final][2]:
                        if norm(old) == norm(fields[0]) and rest[:len(path)] == path and (best is None or len(path) > best[0]):
                            best = (len(path), field)
                    if best and (best[0] or not rest or best[1].endswith("own")):
                        return [self.arms[final][0], best[1]] + rest[best[0]:]
                    return None
                for old, now in renamed:
                    if rest and rest[0] == old:
                        rest = [now] + rest[1:]
                        break
                if len(rest) > 1 and rest[0] in ("auto", "new") and rest[1].isdigit() and callee in self.params:
                    # The parameters were a pair of the first and the others.
                    k = 1
                    while rest[k] == "1":
                        k += 1
                    rest = [rest[0], self.params[callee][k - 1]] + rest[k + 1:]
                return [step[1]] + rest
            seek = parent
        return None


def declarations(text):
    """Splits a file into (head, name, body) by its declarations at the margin."""
    parts = re.split(r"(?m)^(?=(?:pub |abbrev |unfoldable )*[^\s(){}.;,\"-][^\s(){}.;,\"]* :)", text)
    return parts


def terms(text):
    """Splits an application's arguments, as they stand, at the outermost level."""
    out, depth, at = [], 0, 0
    for m in re.finditer(r"[({\[]|[)}\]]|\s+", text):
        it = m.group(0)
        if it in "({[":
            depth += 1
        elif it in ")}]":
            depth -= 1
        elif depth == 0:
            out.append(text[at:m.start()])
            at = m.end()
    out.append(text[at:])
    return [t for t in out if t]


def by_old_name(names):
    by_old = {}
    for at, (old, new) in enumerate(names.needs):
        by_old.setdefault(norm(old), at)
        by_old.setdefault(norm("overflow_" + old), at)
        by_old.setdefault(norm(new), at)
    return by_old


def turn(text, aliases, said):
    """aliases: the names of functions, by the module name that their goals are cited under."""
    alias = "(" + "|".join(sorted(map(re.escape, aliases), key=len, reverse=True)) + ")"
    helpers = {}
    for decl, module, place in re.findall(r"(?m)^(?:pub )?(" + W + r") : (?:\{[^}]*\} → |\(\w+ : [^()]*\) → )*?\(\S+ : " + alias + r"\.(" + W + ")", text):
        if norm(place) in aliases[module].index:
            helpers[decl] = aliases[module].promoted(norm(place))
    for names in aliases.values():
        names.helpers = helpers
    # Goals by their position in tie.spec.
    goal_of, dropped, matched, refill = {}, set(), {}, False
    if "tie" in aliases:
        names = aliases["tie"]
        m = re.search(r"\(tie\.spec\s+(.*)\)\s*\Z", text, re.S)
        if m:
            given = terms(m.group(1))
            if len(given) != 2 * len(names.loops) + len(names.needs):
                said.append(f"tie.spec has {len(given)} arguments, today's {2 * len(names.loops)} + {len(names.needs)}")
                refill = True
            else:
                tail = given[2 * len(names.loops):]
                goal_of = {decl: at for at, decl in enumerate(tail)}
                turned = []
                for at, term in enumerate(tail):
                    var = re.match(r"\(λ (\w+)[. ]", term)
                    if var:
                        term = rename_paths(term, names, {var.group(1): names.asked_at[at]}, said)
                    turned.append(term)
                head = text[:m.start(1)]
                text = head + "\n    ".join(given[:2 * len(names.loops)] + turned) + text[m.end(1):]

    out = []
    for part in declarations(text):
        head = re.match(r"(?:pub |abbrev |unfoldable )*(\S+) :", part)
        if not head:
            out.append(rename_tie(part, aliases, said))
            continue
        decl = head.group(1)
        env = {}
        need = re.match(r"\s*(?:\(\w+ : [^()]*\) → )*" + alias + r"\.Need-(" + W + ")", part[head.end():])
        module = need.group(1) if need else None
        if need:
            names = aliases[module]
            at = goal_of.get(decl)
            if at is None:
                at = by_old_name(names).get(norm(need.group(2)))
            if at is None:
                said.append(f"{decl}: no goal {need.group(2)}: dropped")
                dropped.add(decl)
                continue
            matched[at] = decl
            part = part.replace(f"{module}.Need-{need.group(2)}", f"{module}.Need-{names.needs[at][1]}", 1)
            before = len(re.findall(r"\(\w+ : [^()]*\) →", part[head.end():].split(module + ".Need")[0]))
            args = re.search(r"(?m)^" + re.escape(decl) + r"((?: [^\s=]+)*) =", part)
            if args:
                bound = args.group(1).split()
                if len(bound) > before:
                    env[bound[before]] = names.asked_at[at]
            own = names
        for var, mod, place in re.findall(r"\((\S+) : " + alias + r"\.(" + W + ")", part):
            if norm(place) in aliases[mod].index:
                env[var] = aliases[mod].promoted(norm(place))
                own = aliases[mod]
        part = rename_tie(part, aliases, said, module if need else None)
        if env:
            part = rename_paths(part, own, env, said)
        out.append(part)
    whole = "".join(out)
    if refill:
        # Goals that no declaration answers are left to the search.
        names = aliases["tie"]
        free = lambda new: "(λ c κs. search rules)" if new.split("-clause-")[0].rstrip("0123456789-").endswith("requires") else "(λ c. search rules)"
        args = given[:2 * len(names.loops)] + [matched.get(at) or free(new) for at, (_, new) in enumerate(names.needs)]
        whole = re.sub(r"\(tie\.spec\s+(.*)\)\s*\Z", lambda m: "(tie.spec\n    " + "\n    ".join(args) + ")\n", whole, flags=re.S)
        if "search rules" in whole and "Author.Rules.{rules}" not in whole:
            whole = whole.replace("use Rattle.", "use borrow.Author.Rules.{rules}\nuse Rattle.", 1)
    for decl in dropped:
        whole = re.sub(r"(?m)^ +" + re.escape(decl) + r"\n", "", whole)
    return whole


def rename_tie(part, aliases, said, done=None):
    alias = "(" + "|".join(sorted(map(re.escape, aliases), key=len, reverse=True)) + ")"

    def one(m):
        module, it = m.groups()
        names = aliases[module]
        if it in ("spec", "close", "Claims", "statement"):
            return m.group(0)
        key = norm(it)
        if key in names.index:
            return module + "." + names.places[names.index[names.promoted(key)]][4]
        for old, new in names.loops:
            for word in ("invariant-", "decreases-"):
                if key == norm(word + old):
                    return module + "." + word + new
        if key.startswith("Need-"):
            if any(it == "Need-" + new for _, new in names.needs):
                return m.group(0)
            at = by_old_name(names).get(key[5:])
            if at is not None:
                return module + ".Need-" + names.needs[at][1]
        said.append(f"{module}.{it}")
        return m.group(0)

    return re.sub(r"(?<![\w.-])" + alias + r"\.(" + W + ")", one, part)


def rename_paths(part, names, env, said):
    env = dict(env)
    pattern = re.compile(r"(?<![\w.'-])(\w+'*)((?:\.(?!\s)" + W + ")+)")
    for m in re.finditer(r"let (\w+) = (\w+)((?:\.before)*) in", part):
        if m.group(2) in env and m.group(1) not in env:
            at = names.up(env[m.group(2)], m.group(3).count(".before"))
            if at:
                env[m.group(1)] = names.promoted(at)

    def one(m):
        var, fields = m.group(1), m.group(2)[1:].split(".")
        if var not in env:
            return m.group(0)
        k = 0
        while fields and fields[0] == "before":
            fields.pop(0)
            k += 1
        if not fields:
            target = names.up(env[var], k)
            # A helper that is given the place says which it wants.
            for word in reversed(re.findall(W, part[:m.start()])):
                if word in names.helpers:
                    target = names.helpers[word]
                    break
            count = names.chain(env[var], names.promoted(target)) if target else None
            if count is None:
                said.append(f"place {m.group(0)} at {env[var]}")
                return m.group(0)
            return var + ".before" * count
        if tuple(fields[:2]) in names.args:
            fields[:2] = names.args[tuple(fields[:2])]
        if tuple(fields[:1]) in names.args:
            fields[:1] = names.args[tuple(fields[:1])]
        if fields[0] in names.AT_START or fields[0].startswith(("told-", "fits-")):
            return var + "." + ".".join(fields)
        new = names.step(env[var], fields)
        if new is None:
            said.append(f"path {m.group(0)} at {env[var]}")
            return m.group(0)
        return var + "." + ".".join(new)

    return pattern.sub(one, part)


def main(argv):
    with open(argv[0], encoding="utf-8") as f:
        listed = json.load(f)
    crate = argv[1].rstrip("/")
    # The files of a proof, each with the names that it cites: by function, or by the functions of a cycle.
    files = {}
    for module, of in sorted(listed.items()):
        m = re.match(r"Rattle-\w+-proofs\.(.*)\.Lts(?:-(\w+))?$", module)
        if not m:
            continue
        folder = f"{crate}/proofs/{m.group(1).replace('.', '/')}"
        for path in [f"{folder}/Proof.antt", *glob.glob(f"{glob.escape(folder)}/Proof/*.antt")]:
            if os.path.isfile(path):
                files.setdefault(path, []).append((module, m.group(2), of))
    for path, entries in sorted(files.items()):
        with open(path, encoding="utf-8") as f:
            text = f.read()
        aliases = {}
        for module, member, of in entries:
            last = "Lts-" + member if member else "Tie"
            cited = re.search(r"(?m)^use " + re.escape("Rattle." + module.split("-", 1)[1].replace("-proofs.", ".proofs.", 1).rsplit(".", 1)[0]) + r"\." + re.escape(last) + r" as (\S+)", text)
            if cited:
                aliases[cited.group(1)] = Names(of)
        if not aliases:
            continue
        said = []
        new = turn(text, aliases, said)
        for line in said:
            print(f"{path}: {line}")
        if new != text:
            with open(path, "w", encoding="utf-8") as f:
                f.write(new)


main(sys.argv[1:])
