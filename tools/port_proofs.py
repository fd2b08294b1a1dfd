#!/usr/bin/env python3
"""Turns a crate's Proof.antt files over a `Tie` into Invariants.antt and Answers.antt, once, after port.py and port_names.py.

usage: python3 tools/port_proofs.py CRATE NAMES.json    at the top of the checkout

NAMES.json is what `rt check --generated FOLDER --old-names` writes in the crate's folder: each goal's and each step's old and new name.
An answer that was `search rules` or `omega arith` alone is left out, since the check tries these; the others are carried over, their
chains `c.before.before.STEP` turned to `c.STEP`. A proof that walks the code itself (no `Tie`) stays as it is.
"""

import json
import os
import re
import sys

START = re.compile(r"^((?:pub |abbrev |unfoldable )*)([^\s(){}:;,]+) :(?=\s|$)")
CHAIN = re.compile(r"(?<![^\s(){}\[\],;])([^\s(){}\[\],;.]+)((?:\.[^\s(){}\[\],;.]+)+)")
TRIVIAL = re.compile(r"^\s*(search rules|omega arith|refl|tt|\(?search rules, search rules\)?)\s*$")


def key(name):
    return name.replace("-", "_").lower()


def split(text):
    """Header lines, then declarations as (flags, name, lines)."""
    head, decls, opaque = [], [], None
    pending = []
    for line in text.split("\n"):
        if line.startswith(("use ", "pub use ")) or (not decls and line.startswith("--") and not any(l.startswith("use ") for l in head)):
            head.append(line)
            continue
        m = START.match(line)
        if m or line.startswith(("module ", "record ", "pub record ", "data ", "pub data ", "mutual")):
            name = m.group(2) if m else line.split()[1]
            decls.append((m.group(1) if m else "", name, pending + [line]))
            pending = []
        elif line.startswith("--"):
            pending.append(line)
        elif decls:
            if pending:
                decls[-1][2].extend(pending)
                pending = []
            decls[-1][2].append(line)
        elif line.strip():
            head.append(line)
    for d in decls:
        while d[2] and not d[2][-1].strip():
            d[2].pop()
    return head, decls


SOURCE = set()


class Turn:
    def __init__(self, names):
        self.same, self.hidden = [], {}
        self.needs = {key(o): n for o, n in names["needs"]}
        self.steps = {}
        for p in names["places"]:
            self.steps[key(p[2][0])] = p[2][1]
        self.places = {p[0]: new for p, new in zip(names["places"], names["places_by_name"])}
        self.above = {p[0]: (p[1], p[2][1]) for p in names["places"]}
        self.asked = {key(n[0]): at[0] for n, at in zip(names["needs"], names["asked_at"])}
        self.callee = {key(p[2][0]): names["params"].get(p[3], []) for p in names["places"] if p[3]}
        self.args = [(o.split(".")[-1], n.split(".")[-1]) for o, n in names["args"] if o.startswith(".args .")]
        self.fields = []
        for a in names["arms"]:
            for field, step, path in a[2] if a else []:
                if (a[0], field, step, path) not in self.fields:
                    self.fields.append((a[0], field, step, path))
        self.fields.sort(key=lambda f: -len(f[3]))
        self.calls = {re.sub(r"-.*", "", p[2][1]) for p in names["places"] if p[3]}
        self.goals = {at[1] for at in names["asked_at"]}
        self.loops = {}
        for (pair, live), changed in zip(names["loops"], names["changed"]):
            self.loops[key(pair[0])] = (pair[1], live, changed)
            self.steps[key(pair[0])] = pair[1]

    def flat(self, text, root):
        """Without the names that stand for an earlier place: the names of the facts are flat now."""
        places = "|".join(re.escape(n) for n in self.same) or "(?!)"
        while True:
            text = re.sub(rf"\((?:{places}) {re.escape(root)}(?:\.before)*\)", root, text)
            m = re.search(rf"let (\S+) = \(?(?:(?:{places}) )?{re.escape(root)}(?:\.before)*\)?(?:\.before)* in\s*", text)
            if not m:
                break
            rest = re.sub(rf"(?<![^\s(){{}}\[\],;]){re.escape(m.group(1))}(?=[\s(){{}}\[\],;.]|$)", root, text[m.end():])
            text = text[: m.start()] + rest
        return text

    def source_name(self, m):
        name = m.group(1).replace("-", "_")
        return "." + name if name in SOURCE and key(m.group(1)) not in self.steps else m.group(0)

    def spread(self, text, root):
        """With what stands for a part of a chain written out, where the rest of the chain has a new name."""
        at = 0
        while True:
            m = re.compile(rf"let (\S+) = ({re.escape(root)}(?:\.[^\s(){{}}\[\],;.]+)+) in\s*").search(text, at)
            if not m:
                return text
            name, rest = m.group(1), text[m.end() :]
            use = rf"(?<![^\s(){{}}\[\],;]){re.escape(name)}(?=[\s(){{}}\[\],;.]|$)"
            ends = re.search(r"\.(given|new|auto)(\.[01])*$", m.group(2))
            if ends or re.search(use + r"\.(given|new|auto)(?![\w-])", rest):
                text = text[: m.start()] + re.sub(use, m.group(2), rest)
                at = m.start()
            else:
                at = m.end()

    def body(self, text, binders, need=None):
        alias = set(binders)
        text = text.replace(".type-inv", ".type_inv").replace(".well-formed", ".well_formed")
        for b in binders:
            text = self.spread(self.flat(text, b), b)
        # a name of the source keeps its underscores
        text = re.sub(r"\.([a-z0-9]+(?:-[a-z0-9]+)+)(?![^\s(){}\[\],;.])", self.source_name, text)
        for old, new in self.args:
            text = re.sub(rf"\.{re.escape(old)}(?![^\s(){{}}\[\],;.])", "." + new, text)

        def one(m):
            if m.group(1) not in alias:
                return m.group(0)
            parts = m.group(2).split(".")[1:]
            if all(p == "before" for p in parts):
                return m.group(0)
            while parts and parts[0] == "before":
                parts.pop(0)
            if parts and parts[0] == "pre":
                parts[0] = "requires"
            for arm, field, step, path in self.fields:
                if key(parts[0]) == key(step) and (path or parts[1:]) and parts[1 : 1 + len(path)] == path:
                    return ".".join([m.group(1), arm, field] + parts[1 + len(path) :])
            for i, part in enumerate(parts):
                if part in ("new", "auto") and i + 1 < len(parts) and key(parts[0]) in self.callee:
                    names, k = self.callee[key(parts[0])], i + 1
                    while k < len(parts) and parts[k] == "1":
                        k += 1
                    if k < len(parts) and parts[k] == "0" and k - i - 1 < len(names):
                        parts[i + 1 : k + 1] = [names[k - i - 1]]
                    break
                if part == "args" and i + 1 < len(parts):
                    parts[i + 1] = parts[i + 1].replace("-", "_")
            if parts:
                parts[0] = self.steps.get(key(parts[0]), parts[0].replace("type-inv", "type_inv"))
            parts = [p.replace("type-inv", "type_inv") for p in parts]
            return ".".join([m.group(1)] + parts)

        text = CHAIN.sub(one, text)
        # The test of an `if !..` now speaks of what was negated.
        test = r"([^\s(){}\[\],;.]+\.if-not-[^\s(){}\[\],;.]+\.(?:true|false))"
        called = lambda m: re.search(r"\.if-not-([^\s(){}\[\],;.]+?)(-\d+)?\.", m.group(1)).group(1) in self.calls
        text = re.sub(r"not-(?:false|true) _ " + test, lambda m: "KEPT " + m.group(1) if called(m) else m.group(0), text)
        text = re.sub(r"(?<!KEPT )(?<![^\s(){}\[\],;])" + test, lambda m: f"(ap not {m.group(1)})" if called(m) else m.group(0), text)
        text = text.replace("KEPT ", "")
        arm = need and self.arm(need)
        if arm:
            text = re.sub(r"([^\s(){}\[\],;.]+)\.(?!struct)[^\s(){}\[\],;.]+\.given\.1(?![\w.])", rf"\1.{arm}.is", text)
        return text

    def place(self, m):
        """The type of a place in the code, which Goals names where a goal is asked there."""
        old = next((o for o in self.places if key(o) == key(m.group(1))), m.group(1))
        new = self.places.get(old, old)
        return ("goal." if new in self.goals else "place.") + new

    def arm(self, need):
        """The arm in which a goal is asked."""
        at = self.asked.get(need)
        while at:
            at, step = self.above[at][0], self.above[at][1]
            if step.startswith(("in-", "in_default")):
                return step
        return None

    def invariant(self, name, lines):
        """An invariant or a measure, over the record l."""
        text = "\n".join(lines)
        kind, old = re.match(r"(invariant|decreases)-(\S+)", name).groups()
        new, live, changed = self.loops[key(old)]
        m = re.search(rf"^{re.escape(name)} (.*?)=\s(.*)$", text, re.M | re.S)
        binders, body = m.group(1).split(), m.group(2)
        to = {}
        names = list(live) + [v for v, c in zip(live, changed) if c]
        if len(names) != len(binders):
            return None
        plain = [b.rstrip("₀").replace("-", "_") for b in binders]
        if sorted(plain) == sorted(names):
            names = plain
            changed = [b.endswith("₀") for b in binders]
        for i, (b, v) in enumerate(zip(binders, names)):
            first = i < len(live)
            to[b] = f"l.initial.{v}" if first and changed[i] else f"l.{v}"

        def one(m):
            return to.get(m.group(0), m.group(0))

        body = re.sub(r"(?<![^\s(){}\[\],;])[^\s(){}\[\],;.]+", one, body)
        unf = re.search(r"^unfolding .*$", text, re.M)
        head = f"abbrev pub {kind}-{new} : goal.{kind}-{new}\n" + (unf.group(0) + "\n" if unf else "")
        notes = "".join(l + "\n" for l in lines if l.startswith("--"))
        return notes + head + f"{kind}-{new} l = {body}\n"

    def goal(self, need, name):
        """A goal's new name, by that of the need or of its answer."""
        short = [key(need), re.sub("^(overflow|nonzero)_", "", key(need)), re.sub("^slice_bounds_", "part_", key(need)), key(name)]
        return next((s for s in short if s in self.needs), None)

    def answer(self, goal, name, lines, wanted=False):
        at = self.goal(goal, name)
        new = self.needs.get(at)
        if new is None:
            return None, None
        out, only = [], True
        text = "\n".join(lines)
        notes = [l for l in lines if l.startswith("--")]
        unf = [l for l in lines if l.startswith("unfolding ")]
        clauses = re.split(rf"^(?={re.escape(name)} )", text, flags=re.M)[1:]
        for clause in clauses:
            m = re.match(rf"{re.escape(name)} (.*?)=(\s.*)$", clause, re.S)
            if not m or START.match(clause):
                continue
            binders = [b for b in m.group(1).split() if not b.startswith("κ")]
            body = self.body(m.group(2), binders, at)
            only = only and TRIVIAL.match(body) and not unf
            out.append(f"{new} {' '.join(binders)} ={body}")
        if not out:
            return new, None
        return new, (None if only and not wanted else "\n".join(notes + [f"pub {new} : goal.{new}"] + unf + out) + "\n")


def lets(turn, decls):
    """What speaks of a place in the code (`c : tie.After-x`), by name: (its type, its body), over the flat names of c, or None for a place
    itself."""
    out = {}
    place = r"tie\.[^\s(){}\[\],;.]+(?: invariant-\S+ decreases-[^\s)]+)*"
    turn.same = [d[1] for d in decls if re.search(rf" : (\(\S+ : )?{place}\)? → {place}\s*$", "\n".join(d[2]), re.M)]
    for flags, name, lines in decls:
        text = "\n".join(l for l in lines if not l.startswith("--"))
        m = re.match(rf"(?:(?:pub|abbrev|unfoldable) )*{re.escape(name)} : (.*?)^(unfolding .*?\n)?{re.escape(name)} (.*?)=(\s.*)$", text, re.S | re.M)
        if not m:
            continue
        sig, unf, binders, body = m.group(1).strip(), m.group(2) or "", m.group(3).split(), m.group(4).strip("\n")
        if re.fullmatch(rf"(\(\S+ : )?{place}\)? → {place}", sig):
            out[name] = None
            continue
        s = re.match(rf"\((\S+) : {place}\)\s*(→)?\s*(.*)$", sig, re.S) or re.match(rf"{place}()\s*(→)\s*(.*)$", sig, re.S)
        if not s or not binders:
            continue
        c, rest = binders[0], s.group(3)
        ty = turn.body(rest, [s.group(1) or c])
        ty = re.sub(rf"(?<![^\s(){{}}\[\],;]){re.escape(s.group(1) or c)}(?=[\s).]|$)", "c", ty)
        made = turn.body(body, [c])
        made = re.sub(rf"(?<![^\s(){{}}\[\],;]){re.escape(c)}(?=[\s).]|$)", "c", made)
        if len(binders) > 1:
            made = f" λ {' '.join(binders[1:])}. {made.strip()}"
        hidden = re.match(r"((?:\{[^{}]*\}\s*)+)(→\s*)?", ty)
        if hidden:
            names = [n for g in re.findall(r"\{([^{}]*?) :", hidden.group(1)) for n in g.split()]
            ty = hidden.group(0).replace("{", "(").replace("}", ")") + ty[hidden.end() :]
            made = f" λ {' '.join('_' for _ in names)}. {made.strip().removeprefix('λ ')}" if not made.strip().startswith("λ ") else f" λ {' '.join('_' for _ in names)} {made.strip()[2:]}"
            turn.hidden[name] = len(names)
        out[name] = (ty, made, unf.strip(), "abbrev" in flags and len(binders) == 1)
    return out


def inline(made, known, hidden):
    """An answer with a `let` for each such lemma that it cites."""
    if made is None:
        return None
    arg = r" (?:c(?:\.before)*|\(c(?:\.before)*\)(?:\.before)*)"
    for name, what in known.items():
        if what is None:
            made = re.sub(rf"\({re.escape(name)}{arg}\)", "c", made)

    def write_out(text):
        for _ in range(4):
            for name, what in known.items():
                if what and what[3]:
                    whole = "(" + " ".join(what[1].split()) + ")"
                    text = re.sub(rf"\({re.escape(name)}{arg}\)", lambda m: whole, text)
                    text = re.sub(rf"(?<![^\s(){{}}\[\],;]){re.escape(name)}{arg}(?=[\s(){{}}\[\],;]|$)", lambda m: whole, text)
        return text

    made = write_out(made)
    need, seen = [], set()

    def visit(text):
        for name, what in known.items():
            if what and re.search(rf"(?<![^\s(){{}}\[\],;]){re.escape(name)}{arg}(?=[\s(){{}}\[\],;]|$)", text) and name not in seen:
                seen.add(name)
                what = known[name] = tuple(write_out(w) for w in what[:2]) + what[2:]
                visit(what[0] + " " + what[1])
                need.append(name)

    visit(made)
    if not need:
        return made

    def cut(text):
        for name, what in known.items():
            if what is None:
                text = re.sub(rf"\({re.escape(name)}{arg}\)", "c", text)
        for name in need:
            full = name + " _" * hidden.get(name, 0)
            text = re.sub(rf"\({re.escape(name)}{arg}\)", f"({full})" if full != name else name, text)
            text = re.sub(rf"(?<![^\s(){{}}\[\],;]){re.escape(name)}{arg}(?=[\s(){{}}\[\],;]|$)", full, text)
        return re.sub(r"\bc(\.before)+(?=\.)", "c", text)

    head, clause = re.match(r"(.*?^\S+ c =)(.*)$", made, re.S | re.M).groups() if re.search(r"^\S+ c =", made, re.M) else (None, None)
    if head is None:
        return made
    unf = sorted({w for n in need for w in known[n][2].split()[1:]})
    if unf:
        if "\nunfolding " in head:
            head = re.sub(r"\nunfolding (.*)", lambda m: "\nunfolding " + " ".join(m.group(1).split() + [u for u in unf if u not in m.group(1).split()]), head)
        else:
            head = re.sub(r"\n(\S+ c =)$", "\nunfolding " + " ".join(unf) + r"\n\1", head)
    said = "".join("\n    let " + n + " : " + cut(known[n][0]).strip() + " =" + cut(known[n][1]).replace("\n", "\n    ").rstrip() + "\n    in" for n in need)
    return head + said + ("\n    " if not clause.startswith("\n") else "") + cut(clause).lstrip(" ")


def uses(head, text):
    """The use lines that a text needs."""
    head = list(head)
    for word, module in (("ap", "mathlib.Core.Path"), ("not", "mathlib.Core.Bool")):
        if f"{word} " in text and not any(re.search(rf"[{{ ]{word}[,}}]", l) for l in head) and "(ap not" in text:
            at = next((i for i, l in enumerate(head) if l.startswith(f"use {module}.{{")), None)
            if at is None:
                head.append(f"use {module}.{{{word}}}")
            else:
                head[at] = head[at].replace("{", "{" + word + ", ", 1)
    words = set(re.findall(r"[^\s(){}\[\],;.]+", text)) | set(re.findall(r"[^\s(){}\[\],;.]+(?=\.)", text))
    syms = "".join(text.split())
    out = []
    for line in head:
        m = re.match(r"^(use \S+)\.\{(.*)\}$", line)
        if m:
            kept = []
            for item in m.group(2).split(","):
                item = item.strip()
                n = item.split()[-1]
                parts = [p for p in n.split("◌") if p]
                if n in words or (n == "[]" and "[]" in text) or ("◌" in n and all(p in syms for p in parts)):
                    kept.append(item)
            if kept:
                out.append(f"{m.group(1)}.{{{', '.join(kept)}}}")
        elif line.startswith("use "):
            n = line.split()[-1].split(".")[-1]
            if n in words:
                out.append(line)
    return out


def main():
    crate, data = sys.argv[1], json.load(open(sys.argv[2]))
    for top, _, fs in os.walk(f"crates/{crate}/src"):
        for f in fs:
            SOURCE.update(re.findall(r"[a-z]\w*_\w*", open(os.path.join(top, f), encoding="utf-8").read()))
    for top, _, fs in sorted(os.walk(f"crates/{crate}/proofs")):
        if "Proof.antt" not in fs:
            continue
        path = os.path.join(top, "Proof.antt")
        text = open(path, encoding="utf-8").read()
        if ".Tie as tie" not in text:
            print("stays:", path)
            continue
        rel = os.path.relpath(top, f"crates/{crate}/proofs").replace("/", ".")
        names = data.get(f"Rattle-{crate}-proofs.{rel}.Lts")
        if names is None:
            print("no names:", path)
            continue
        turn = Turn(names)
        head, decls = split(text)
        notes = [l for l in head if l.startswith("--")]
        head = [l for l in head if l.startswith("use ") and not re.search(r"\.(Tie as tie|Statement\.\{statement\})$", l)]
        inv, ans, helpers, lost = [], [], [], []
        heads = {d[1]: turn.needs.get(turn.goal(m.group(1), d[1])) for d in decls for m in [re.search(r" : tie\.Need-(\S+)", " ".join(d[2]))] if m}
        cited = set()
        for d in decls:
            for w in re.findall(r"(?<![^\s(){}\[\],;])[^\s(){}\[\],;.]+", "\n".join(d[2][1:])):
                if w in heads and w != d[1] and not d[1].endswith(("_spec", "-spec")):
                    cited.add(w)
        known = lets(turn, [d for d in decls if not re.search(r" : tie\.Need-", " ".join(d[2]))])
        for flags, name, lines in decls:
            sig = " ".join(l for l in lines if not l.startswith("--"))
            need = re.search(rf"{re.escape(name)} : tie\.Need-(\S+)", sig)
            if name.endswith(("_spec", "-spec")) and "statement" in sig.split("=")[0]:
                continue
            if re.search(rf"{re.escape(name)} : tie\.(invariant|decreases)-", sig):
                made = turn.invariant(name, lines)
                (inv if made else lost).append(made or "\n".join(lines))
            elif need:
                new, made = turn.answer(need.group(1), name, lines, name in cited)
                if made:
                    for w in cited - {name}:
                        made = re.sub(rf"(?<![^\s(){{}}\[\],;.]){re.escape(w)}(?=[\s(){{}}\[\],;]|$)", heads[w] or w, made)
                if new is None:
                    lost.append("\n".join(lines))
                elif made:
                    ans.append(inline(made, known, turn.hidden))
            elif name in known:
                continue
            else:
                h = "\n".join(lines) + "\n"
                bound = re.findall(r"\((\S+) : tie\.", h)
                h = re.sub(r"\btie\.([^\s(){}\[\],;.]+)(?: invariant-\S+ decreases-[^\s)]+)*", turn.place, h)
                helpers.append(turn.body(h, bound))
        base = f"use Rattle.{crate}.proofs.{rel}"
        body = "\n".join(ans)
        used, todo = [], body
        for h in reversed(helpers):
            n = (START.match([l for l in h.split("\n") if not l.startswith("--")][0]) or re.match(r"()(\S+)", h)).group(2)
            if n in re.findall(r"[^\s(){}\[\],;.]+", todo):
                used.insert(0, h)
                todo += h
        if inv:
            t = "\n".join(inv)
            lone = [] if ans else notes
            open(os.path.join(top, "Invariants.antt"), "w").write("\n".join(lone + uses(head, t) + [f"{base}.Given as goal", "", t]))
        if ans:
            t = "\n".join(used + ans)
            open(os.path.join(top, "Answers.antt"), "w").write("\n".join(notes + uses(head, t) + [f"{base}.Tie as place"] * ("place." in t) + [f"{base}.Goals as goal", "", t]))
        if lost:
            print("LOST in", path)
            print("\n".join(lost))
        os.remove(path)


if __name__ == "__main__":
    main()
