#!/usr/bin/env python3
"""Brings the repository's own definitions and lemmas to one spelling: words in snake case, types and facts in camel case.

usage: python3 tools/spell.py        at the top of the repository, once, after the kit's port.py
       python3 tools/spell.py --list  prints the renamings and writes nothing

A name is renamed where a file of specs/ or proofs/ defines it (a definition, a lemma, a field, a constructor, a name after `let`,
a variable bound with its type).
A name that a file brings in from a library of the kit keeps its spelling there; so do names of goals, which the check makes, and what
stands in quotes. Of comments only names in camel case and names in back quotes are turned.
"""

import os
import re
import sys
from collections import defaultdict

# names that would otherwise fall together with another, or read badly
CHOSEN = {
    "++-assoc": "joined_assoc",
    "all-++": "all_joined",
    "answers-++": "answers_joined",
    "count-++": "count_joined",
    "items-++": "items_joined",
    "only-++": "only_joined",
    "slips-++": "slips_joined",
    "summed-++": "summed_joined",
    "total-++": "total_joined",
    "getD-pairs": "get_or_pairs",
    "all-of": "all_from_each",
    "first-cause": "first_cause_stays",
    "is-oldest": "oldest_is",
    "known-after": "after_known",
    "limit-numbers": "limit_numbers_read",
    "other-side": "other_side_unfilled",
    "read-on": "reading_on",
    "same-scope": "scope_same",
    "scope-word": "scope_word_is",
    "slip-count": "slip_count_seen",
    "cannot-rest": "rest_refused",
    "is_open": "open_is",
    "noneWait": "nothing_waits",
}
# a name that is turned in these files alone
ONLY = {"is_open": ("history/proofs/Accepted.antt", "history/proofs/Holds.antt")}

END = r"[^\s(){}\[\];,.:]+"
DEFINED = re.compile(r"^\s*(?:(?:abbrev|unfoldable|pub)\s+)*(" + END + r")\s+:(?:\s+(.*))?$")
BOUND = re.compile(r"[({]([\w' -]+?)\s+:\s")
LET = re.compile(r"\blet\s+(" + END + r")\s+[:=]\s")
FIELD = re.compile(r"^\s+(?:pub\s+)?(" + END + r")\s+:\s")
TYPE = re.compile(r"^\s*(?:pub\s+)?(?:record|data)\s+(" + END + r")")
USE = re.compile(r"^(?:ghost )?use ([^;{\n]*?)(?:\.\{([^}]*)\}|\s+as\s+(\S+?))?;?$", re.M)
FIELDS = set()
KEYWORDS = {"use", "mod", "record", "data", "where", "let", "--", "in", "elim", "λ"}


def turned(name):
    if name in CHOSEN:
        return CHOSEN[name]
    if re.search(r"[^\w'-]", name) or name.strip("-'_") == "":
        return name
    if name[0].isupper():
        return "".join(w[:1].upper() + w[1:] for w in name.split("-")) if "-" in name else name
    return re.sub(r"([a-z0-9])([A-Z])", r"\1_\2", name).replace("-", "_").lower()


def files(root, ends):
    for folder, dirs, names in os.walk(os.path.join(root, "crates")):
        dirs[:] = sorted(d for d in dirs if d != "out")
        for n in sorted(names):
            if n.endswith(ends):
                yield os.path.join(folder, n)


def read(path):
    with open(path, encoding="utf-8") as f:
        return f.read()


def uses(text):
    """The names that a file brings in: from the repository, and from elsewhere."""
    elsewhere = set()
    for m in USE.finditer(text):
        path, names = m[1], m[2]
        if names is None:
            continue
        own = path.startswith("Rattle.") and path.split(".")[1] in CRATES and ".proofs." not in path.replace(".proofs.Lib", "")
        made = re.search(r"\.(Goals|Given)$", path)
        for n in names.split(","):
            n = n.strip()
            new = n.split(" as ")[-1].strip() if " as " in n else n
            if made or not (path.startswith("Rattle.") and path.split(".")[1] in CRATES):
                elsewhere.add(new)
    return elsewhere


def collected(root):
    found = defaultdict(set)
    for p in files(root, ".antt"):
        inside = False
        for line in read(p).splitlines():
            if re.match(r"\s*(?:pub\s+)?record\s", line):
                inside = True
            elif inside and FIELD.match(line):
                FIELDS.add(FIELD.match(line)[1])
            elif line.strip() and not line.lstrip().startswith("--"):
                inside = False
            if line.lstrip().startswith("--"):
                continue
            m = TYPE.match(line)
            if m:
                found[m[1]].add(p)
                continue
            m = DEFINED.match(line)
            if m and m[1] not in KEYWORDS and not (m[2] or "").startswith("goal."):
                found[m[1]].add(p)
            for m in LET.finditer(line):
                found[m[1]].add(p)
            for m in BOUND.finditer(line):
                for n in m[1].split():
                    if turned(n) != n:
                        found[n].add(p)
    return found


def main():
    root = os.getcwd()
    global CRATES
    CRATES = set(os.listdir(os.path.join(root, "crates")))
    found = collected(root)
    table = {n: turned(n) for n in found if turned(n) != n}
    if "--list" in sys.argv:
        for n in sorted(table):
            print(n, "->", table[n])
    pattern = re.compile(r"(?<![\w'\-◌])(" + "|".join(re.escape(n) for n in sorted(table, key=len, reverse=True)) + r")(?![\w'\-◌])")
    pieces = re.compile(r'("(?:[^"\\\n]|\\.)*")')
    changed = 0
    together = set()
    for p in files(root, (".antt", ".rt", ".edit")):
        text = read(p)
        kept = uses(text) if not p.endswith(".edit") else set()
        goals = set()
        for line in text.splitlines():
            m = DEFINED.match(line)
            if m and (m[2] or "").startswith("goal."):
                goals.add(m[1])
        mark = "--" if p.endswith(".antt") else "//"
        # names already in use in this file
        out = []
        there = set(re.findall(r"(?<![\w'\-◌.])[\w'\-]+(?![\w'\-◌])", text))
        hit = {}

        def one(m, s, comment):
            n = m[1]
            if n in ONLY and not p.endswith(ONLY[n]):
                return n
            if n in goals or (n in kept and p not in found[n]):
                return n
            before = s[: m.start()]
            if before.endswith("goal."):
                return n
            if "-" in n and n not in FIELDS and before.endswith(".") and not re.search(r"(?:^|[\s({\[,;])[A-Za-z]\w*\.$", before):
                # a field of a step, as c.loop-x.invariant
                return n
            if "-" in n and re.search(r"(?:^|[\s({\[,;])[cwg]\.$", before):
                return n
            if comment and "-" in n and not (before.endswith("`")):
                return n
            hit[n] = table[n]
            return table[n]

        for line in text.split("\n"):
            at = line.find(mark) if not p.endswith(".edit") else -1
            code, comment = (line, "") if at < 0 or line[:at].count('"') % 2 else (line[:at], line[at:])
            parts = pieces.split(code)
            code = "".join(s if i % 2 else pattern.sub(lambda m, s=s: one(m, s, False), s) for i, s in enumerate(parts))
            comment = pattern.sub(lambda m, s=comment: one(m, s, True), comment)
            out.append(code + comment)
        new = "\n".join(out)
        for n, t in hit.items():
            if t in there and p.endswith((".antt", ".rt")):
                together.add((t, n, os.path.relpath(p, root)))
        if new != text:
            changed += 1
            if "--list" not in sys.argv:
                with open(p, "w", encoding="utf-8") as f:
                    f.write(new)
    back = defaultdict(set)
    for n, t in table.items():
        back[t].add(n)
    for t, ns in sorted(back.items()):
        if len(ns) > 1:
            print("fall together:", t, sorted(ns))
        if t in found:
            print("defined already:", t, sorted(ns), [os.path.relpath(q, root) for q in sorted(found[t])][:4], [os.path.relpath(q, root) for n in ns for q in sorted(found[n])][:4])
    for t, n, p in sorted(together):
        print("in use in the file:", n, "->", t, p)
    print(f"{len(table)} names, {changed} files")


if __name__ == "__main__":
    main()
