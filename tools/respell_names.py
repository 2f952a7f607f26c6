#!/usr/bin/env python3
"""Respells the repository's own definitions and lemmas as today's Rattle spells names.

usage: python3 tools/respell_names.py [--list]     at the top of the repository, once, right after the kit's port.py

A type or fact is in upper camel case (Reads-back: ReadsBack). Any other definition, field or
constructor is in snake case (check-sum: check_sum). In a lemma's name a dash joins two names and a
plain word is added with '_' (check-sum-set: check_sum-set). Names that Rattle itself makes, comments,
strings and code are left as they are. --list only prints what would be renamed.
"""

import collections
import glob
import os
import re
import sys

WORD = r"[^\s:(){}\[\]«»;,.=λ→×∥⊎∷|@\"`]+"
MARKS = r"(?:(?:pub|abbrev|unfoldable|opaque|private|rec) +)*"
TOP = re.compile("^" + MARKS + "(?:(?:record|data) +)?(" + WORD + ") *(?:[:({]|$)", re.M)
INNER = re.compile(rf"^ +(?:pub +)?({WORD}) +:(?= |$)", re.M)
GENERATED = re.compile(r"^(returns|loop|then|else|in|invariant|overflow|bounds|slice|ensures|nonzero|offset|prove|branch)-|-requires(-|$)|-(init|preserved|smaller)$")

# words of the library that stand in lemmas' names as names
LIBRARY = set("append length set take drop cons nil push between swap map replicate zero suc flat_map".split())


def files(kind):
    return sorted(f for f in glob.glob(f"crates/*/{kind}/**/*.antt", recursive=True) if "/out/" not in f)


def declared(path):
    """The top-level names of a file, and the names declared inside its records and data types."""
    text = re.sub(r"--.*", "", open(path, encoding="utf-8").read())
    tops = {m.group(1) for m in TOP.finditer(text)}
    return tops, {m.group(1) for m in INNER.finditer(text)}


def camel(name):
    return "".join(part[:1].upper() + part[1:] for part in name.split("-"))


def as_lemma(name, known):
    """A dash between two known names, '_' before a plain word."""
    words, units = name.split("-"), []
    at = 0
    while at < len(words):
        for to in range(len(words), at, -1):
            unit = "_".join(words[at:to])
            if unit in known:
                units.append((unit, True))
                at = to
                break
        else:
            units.append((words[at], False))
            at += 1
    spelled = units[0][0]
    for (_, before), (unit, named) in zip(units, units[1:]):
        spelled += ("-" if before and named else "_") + unit
    return spelled


def plan():
    tops, inners, lemmas = set(), set(), set()
    for f in files("specs"):
        t, i = declared(f)
        tops |= t
        inners |= i
    for f in files("proofs"):
        t, i = declared(f)
        if re.match(r"crates/[^/]+/proofs/[^/]+\.antt$", f):
            lemmas |= t
            inners |= i
        else:
            lemmas |= {n for n in t if not GENERATED.search(n)}
    inners -= {n for n in inners if GENERATED.search(n)}
    known = {n.replace("-", "_") for n in tops | inners if not n[:1].isupper()} | LIBRARY
    names, fields = {}, {}
    for n in tops | inners | lemmas:
        if "-" not in n or not re.search(r"\w-\w", n):
            continue
        if n[0].isupper():
            names[n] = camel(n)
        elif n in tops or n in inners:
            names[n] = n.replace("-", "_")
        else:
            names[n] = as_lemma(n, known)
        if n in inners:
            fields[n] = names[n]
    return {n: to for n, to in names.items() if n != to}, {n: to for n, to in fields.items() if n != to}


def respelled(text, names, fields, comment):
    """The text with each whole name respelled; after a dot only a field, or a name of a module."""
    token = re.compile(rf'({re.escape(comment)}[^\n]*|"(?:[^"\\\n]|\\.)*")|({WORD})')

    def one(m):
        if m.group(1):
            return m.group(1)
        word = m.group(2)
        if word not in names:
            return word
        before = text[: m.start()]
        if before.endswith("."):
            path = re.search(rf"({WORD})\.$", before)
            if word in fields or (path and path.group(1)[0].isupper()):
                return names[word]
            return word
        return names[word]

    return token.sub(one, text)


def main():
    if not os.path.isdir("crates"):
        raise SystemExit("run it at the top of the repository")
    names, fields = plan()
    together = collections.defaultdict(list)
    for n, to in names.items():
        together[to].append(n)
    for to, froms in sorted(together.items()):
        if len(froms) > 1:
            print("fall together:", to, "from", ", ".join(sorted(froms)))
    if "--list" in sys.argv:
        for n in sorted(names):
            print(n, names[n], "field" if n in fields else "")
        return
    for f in files("specs") + files("proofs"):
        text = open(f, encoding="utf-8").read()
        now = respelled(text, names, fields, "--")
        if now != text:
            open(f, "w", encoding="utf-8").write(now)
    for f in sorted(glob.glob("crates/*/src/**/*.rt", recursive=True)):
        text = open(f, encoding="utf-8").read()
        now = respelled(text, names, fields, "//")
        if now != text:
            open(f, "w", encoding="utf-8").write(now)
    print(len(names), "names respelled")


main()
