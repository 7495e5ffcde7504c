#!/usr/bin/env python3
"""Brings this repository's own definitions, fields, constructors and lemmas to one spelling.

usage: python3 tools/respell.py [--dry]     at the top of the repository, once, right after the port's own script

What has a capital first becomes upper camel case, everything else snake case, in crates/*/specs, crates/*/proofs and in the clauses,
ghost members and ghost imports of crates/*/src. Names that Rattle makes (goals, steps, invariants) and names of the code stay. Names of two
spellings that would fall together, or onto a word that stands already in a file or a crate that has the name, get the ending `_lem` (a fact or
a type: `Fact`).
"""

import collections
import os
import re
import sys

WORD = r"[^\s(){}\[\]:;,.λ≡→×⊎=|\"`↦]+"
HEAD = re.compile(r"^( *)(?:abbrev |unfoldable )?(?:pub )?(?:abbrev |unfoldable )?(record |data |ruleset )?(" + WORD + r")(?=[ :])(.*)$")
KEEP = re.compile(r": goal\.")
CHOSEN = {"Found_at": "FoundPlace"}
WORDS = {"let", "use", "pub", "mod", "elim", "where", "unfolding", "open", "in", "abbrev", "unfoldable", "data", "record", "ruleset"}
TOKEN = re.compile(r"(?<![^\s(){}\[\]:;,.λ=|\"`←-])" + WORD)


def files(root, ending):
    for folder, dirs, names in os.walk(os.path.join(root, "crates")):
        dirs[:] = sorted(d for d in dirs if d != "out")
        for f in sorted(names):
            if f.endswith(ending):
                yield os.path.join(folder, f)


def crate(p):
    return p.split("/crates/")[1].split("/")[0]


def read(p):
    with open(p, encoding="utf-8") as f:
        return f.read()


def spelled(name):
    """The name's new spelling."""
    prime = len(name) - len(name.rstrip("'"))
    core = name[: len(name) - prime] if prime else name
    if core[0].isupper():
        parts = [p for p in re.split(r"[-_]", core) if p]
        core = "".join(p[0].upper() + p[1:] for p in parts)
    else:
        core = re.sub(r"(?<=[a-z0-9])(?=[A-Z])", "-", core)
        core = "_".join(p[0].lower() + p[1:] if p[1:].islower() or len(p) == 1 else p for p in core.split("-") if p)
    return core + "'" * prime


def declared(root):
    """Every name that a file of specs/ or proofs/ declares, but for answers to goals of Rattle's."""
    names = collections.defaultdict(set)
    for p in files(root, ".antt"):
        for line in read(p).split("\n"):
            if line.lstrip().startswith("--") or KEEP.search(line):
                continue
            m = HEAD.match(line)
            if not m or m.group(3) in WORDS:
                continue
            rest = m.group(4)
            if m.group(2) or re.match(r"^(?: [({].*[)}])? :(?: |$)", rest):
                names[m.group(3)].add(p)
    return names


def ghost_parts(text):
    """The parts of a source file that antt reads: (start, end) of ghost imports, clauses and ghost members."""
    out = []
    for m in re.finditer(r"^[ ]*(?:pub )?ghost use [^;]*;", text, re.M):
        out.append((m.start(), m.end()))
    for m in re.finditer(r"\b(?:requires|ensures)\*?(?: \w+)? \{|\bghost \w+:? ?=? ?\{|\blaw \w+: \{", text):
        depth, i = 1, m.end()
        while depth and i < len(text):
            depth += {"{": 1, "}": -1}.get(text[i], 0)
            i += 1
        out.append((m.end(), i))
    return out


def rewrite(p, text, new):
    if new != text:
        with open(p, "w", encoding="utf-8") as f:
            f.write(new)


def renamed(text, names):
    def one(m):
        word = m.group(0)
        if word not in names:
            return word
        before = text[: m.start()]
        if re.search(r"(?:^|[^\w'.-])(?:c|w|goal)\.$", before):
            return word
        return names[word]

    return TOKEN.sub(one, text)


def main():
    root, dry = ".", "--dry" in sys.argv
    names = declared(root)
    said = {p: {m.group(0) for m in re.finditer(WORD, read(p))} for p in files(root, (".antt", ".rt"))}
    new = {}
    for n in sorted(names):
        if not re.match(r"^[A-Za-z]", n):
            continue
        s = CHOSEN.get(n) or spelled(n)
        if s != n:
            new[n] = s
    plain = dict(new)
    for n in sorted(plain):
        s = plain[n]
        homes = {crate(p) for p in names[n]}
        where = [p for p in said if s in said[p] and (n in said[p] or crate(p) in homes)]
        if where:
            new[n] = s + ("Fact" if s[0].isupper() else "_lem")
            print(f"falls together: {n} -> {s}, now {new[n]}: {sorted(names[n])[0]}, {where[0]}")
    for a in sorted(new):
        for b in sorted(new):
            if a < b and new[a] == new[b]:
                both = [p for p in said if a in said[p] and b in said[p] or a in said[p] and crate(p) in {crate(q) for q in names[b]}]
                print("two names become", new[a], ":", a, b, "together in", both)
    print(len(new), "names")
    if dry:
        for n in sorted(new):
            print(f"{n} -> {new[n]}")
        return
    for p in files(root, ".antt"):
        text = read(p)
        rewrite(p, text, renamed(text, new))
    for p in files(root, ".rt"):
        text = made = read(p)
        for a, b in sorted(ghost_parts(text), reverse=True):
            made = made[:a] + renamed(made[a:b], new) + made[b:]
        rewrite(p, text, made)


main()
