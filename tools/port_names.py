#!/usr/bin/env python3
"""Brings the repository's own definitions, lemmas and fields to snake case, after port.py and before any edit by hand.

usage: python3 tools/port_names.py [--dry]    at the top of a checkout in which the kit's port.py has run

A name that a crate's specs/ or proofs/ declares is respelled, there and in the clauses of src/, in must-fail edits and in pages: a dash
and a hump become an underscore (`sum-within`, `twiceArea` to `sum_within`, `twice_area`), `getD` becomes `get_or` as in the library.
Types, modules and facts keep their capitals; names that are imported from the library, and functions of src/, keep their spelling.
It stops where two names would fall together.
"""

import collections
import glob
import re
import sys

TOKEN = re.compile(r"[^\s(){}\[\]:;,.\"«»⌜⌝`→×]+")
DECLARED = re.compile(r"^(\s*)((?:pub |abbrev |unfoldable )*)([^\s(){}:;,.«»]+) :(?:\s|$)")
FIELD = re.compile(r"^\s+(?:pub )?([^\s(){}:;,.«»]+) :(?:\s|$)")
USE = re.compile(r"^\s*(?:pub )?(?:ghost )?use ([^\s{]+)\.\{(.*?)\}", re.S | re.M)
OWN = re.compile(r"^Rattle\.(\w+)\.(specs|proofs)")


def crates():
    return {line.split(":")[0].split()[0] for line in open("crates.txt") if line.strip() and not line.startswith("#")}


def snake(name):
    name = name.replace("getD", "get_or")
    name = re.sub(r"(?<=[a-z0-9])([A-Z])", lambda m: "_" + m.group(1).lower(), name) if name[0].islower() else name
    return name.replace("-", "_")


def declared(files, own):
    names = collections.defaultdict(set)
    for f in files:
        for line in open(f, encoding="utf-8"):
            m = DECLARED.match(line)
            if not m or line.lstrip().startswith("--"):
                continue
            name = m.group(3)
            goal = re.search(r": (tie|goal)\.", line)
            if not goal and name not in ("record", "data"):
                names[name].add(f)
    return names


def imported(text, own):
    """What a file takes from elsewhere than this repository, by its bare name."""
    out = set()
    for m in USE.finditer(text):
        o = OWN.match(m.group(1))
        if o and o.group(1) in own and ".declared" not in m.group(1) and not re.search(r"\.(Tie|Statement|Goals|Given)$", m.group(1)):
            continue
        for item in m.group(2).split(","):
            words = item.split()
            if words:
                out.add(words[-1])
    return out


def fields(files):
    """The fields of the repository's own records."""
    out = set()
    for f in files:
        within = False
        for line in open(f, encoding="utf-8"):
            if re.match(r"^(pub )?record ", line):
                within = True
            elif line.strip() and not line.startswith(" "):
                within = False
            elif within:
                m = FIELD.match(line)
                if m:
                    out.add(m.group(1))
    return out


def aliases(text, own):
    """The words that stand for one of the repository's own modules in a file."""
    found = re.findall(r"^use (Rattle\.(\w+)\.(?:specs|proofs)\.\S+) as (\S+)", text, re.M)
    made = re.compile(r"\.(Tie|Statement|Symbol|TheVariants|TheLaws|contracts\.\w+)$")
    return {a for path, crate, a in found if crate in own and not made.search(path)}


def turned(names):
    """Old name to new: a definition that had humps keeps the plain name, a lemma beside it gets `_lem`."""
    plain = {}
    groups = collections.defaultdict(set)
    for n in names:
        groups[snake(n) if n[0].isalpha() else n].add(n)
    for new, olds in groups.items():
        first = next((n for n in olds if re.search("[a-z0-9][A-Z]", n)), new if new in olds else next(iter(olds)))
        for n in olds:
            plain[n] = new if n == first else new + "_lem"
    return {n: m for n, m in plain.items() if n != m}


def main():
    own = crates()
    antt = sorted(glob.glob("crates/*/specs/**/*.antt", recursive=True) + glob.glob("crates/*/proofs/**/*.antt", recursive=True))
    names = declared(antt, own)
    turn = turned(names)
    parts, after = fields(antt), {turn.get(n, n) for n in names}
    tokens = collections.defaultdict(set)
    for f in antt:
        for t in TOKEN.findall(open(f, encoding="utf-8").read()):
            tokens[t].add(f)
    for n, m in sorted(turn.items()):
        if m.endswith("_lem") or tokens[n] & tokens.get(m, set()):
            print("look:", n, "->", m, sorted(tokens[n] & tokens.get(m, set()))[:3])
    if "--dry" in sys.argv:
        return
    others = sorted(glob.glob("crates/*/src/**/*.rt", recursive=True) + glob.glob("crates/*/must-fail/*.edit") + glob.glob("*.md") + glob.glob("docs/**/*.md", recursive=True))
    for f in antt + others:
        text = open(f, encoding="utf-8").read()
        keep = imported(text, own) if f.endswith(".antt") else set()

        called = aliases(text, own)

        def one(m):
            t = m.group(0)
            plain = not re.search("-|[a-z0-9][A-Z]", t)
            if f.endswith(".md") and not plain and snake(t) in after:
                return turn.get(t, snake(t))
            if t not in turn or t in keep or (plain and f not in names[t]):
                return t
            before = re.search(r"([^\s(){}\[\]:;,.]*)\.$", text[max(0, m.start() - 80) : m.start()])
            if before and f.endswith((".antt", ".rt")) and not (re.search("[a-z0-9][A-Z]", t) or t in parts or before.group(1) in called):
                return t
            return turn[t]

        new = TOKEN.sub(one, text)
        if new != text:
            open(f, "w", encoding="utf-8").write(new)


if __name__ == "__main__":
    main()
