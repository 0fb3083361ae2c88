#!/usr/bin/env python3
"""Spells this repository's own words, facts and lemmas as the language now does: snake case, facts in upper camel case.

usage: tools/respell.py            at the top of the repository, once, after the kit's own scripts

A dash stays only in a lemma whose parts are words of specs/ or of the library ('member-these'), and where the name with
an underscore is taken already. Strings of programs, the names of functions and what stands outside crates/ keep theirs.
"""

import os
import re
import sys

PART = r"[A-Za-z][A-Za-z0-9_']*"
NAME = PART + r"(?:-[A-Za-z0-9_']+)+"
TOKEN = re.compile(r"(?<![\w'-])" + NAME + r"(?![\w'-])")
HEAD = re.compile(r"(?m)^\s*(?:(?:abbrev|unfoldable|pub|record|data)\s+)*(" + NAME + r")(?=\s*(?:\(|\{|:))")
BINDERS = re.compile(r"(?:λ|\(|\{|\blet)\s*((?:" + PART + r"(?:-[A-Za-z0-9_']+)*\s+)*" + PART + r"(?:-[A-Za-z0-9_']+)*)\s*(?:\.(?!\w)|:|=)")
# parts of a lemma's name that name operations of the library
OPERATIONS = {"and", "or", "not", "mod", "zero", "one", "ones", "suc", "all", "low", "append", "push", "self", "some", "none"}


def files(ending):
    for folder, dirs, names in os.walk("crates"):
        dirs[:] = sorted(d for d in dirs if d != "out")
        for name in sorted(names):
            if name.endswith(ending):
                yield os.path.join(folder, name)


def read(path):
    with open(path, encoding="utf-8") as f:
        return f.read()


def is_answer(path):
    return os.path.basename(path) in ("Answers.antt", "Invariants.antt")


def library_names():
    """Names that files import from the library."""
    found = set()
    for path in files(".antt"):
        for where, names in re.findall(r"(?m)^use (Rattle\.std|lib|native|mathlib|borrow)[\w.]*\{([^}]*)\}", read(path)):
            found.update(n.strip().split(" as ")[0] for n in names.split(","))
    return found


def own_words():
    """The functions, facts and types that specs/ defines."""
    found = set()
    for path in files(".antt"):
        if "/specs/" in path:
            found.update(re.findall(r"(?m)^\s*(?:pub\s+)?(?:abbrev|unfoldable|record|data)\s+(?:pub\s+)?([A-Za-z][\w']*)(?=\s*[({:])", read(path)))
    return found


def own_names():
    """Names with a dash that the repository defines: those of specs/, and those of proofs/."""
    words, lemmas = set(), set()
    for path in files(".antt"):
        text = re.sub(r"--[^\n]*", "", read(path))
        into = words if "/specs/" in path else lemmas
        if not is_answer(path):
            into.update(HEAD.findall(text))
        into.update(re.findall(r"\bas (" + NAME + r")(?=[,}])", text))
        for group in BINDERS.findall(text):
            into.update(n for n in group.split() if "-" in n)
    return words, lemmas - words


def source_names():
    """Identifiers of the Rust text: functions, clauses, fields, variables."""
    found = set()
    for path in files(".rt"):
        found.update(re.findall(r"(?<![\w'-])[a-z][a-z0-9_]*(?![\w'-])", read(path)))
    return found


def camel(name):
    return "".join(part[:1].upper() + part[1:] for part in name.split("-"))


def spelled(name, is_lemma, words, taken):
    if name[0].isupper() and not is_lemma:
        return camel(name)
    parts = name.split("-")
    joins = all(p in words or p in OPERATIONS for p in parts[1:]) and parts[0] in words
    if is_lemma and joins:
        return name
    new = camel(name) if name[0].isupper() else "_".join(parts)
    return name if new in taken else new


def main():
    words, lemmas = own_names()
    library = library_names()
    words, lemmas = words - library, lemmas - library
    plain = own_words()
    everything = set()
    for path in files(".antt"):
        everything.update(re.findall(r"(?<![\w'-])[A-Za-z][\w']*(?![\w'-])", re.sub(r"--[^\n]*", "", read(path))))
    sources = source_names()
    change = {}
    for name in sorted(words | lemmas):
        new = spelled(name, name in lemmas, plain, everything if name in lemmas else set())
        if new != name:
            change[name] = new
    # what a proof cites of the Rust text has that text's spelling
    cited = {t for p in files(".antt") for t in TOKEN.findall(read(p))} - words - lemmas
    for name in cited:
        if name.replace("-", "_") in sources and name.replace("-", "_") not in change.values():
            change[name] = name.replace("-", "_")
    back = {}
    for name, new in sorted(change.items()):
        back.setdefault(new, []).append(name)
    for new, names in sorted(back.items()):
        if len(names) > 1:
            print("fall together:", new, names)
    if "--dry" in sys.argv:
        for name, new in sorted(change.items()):
            print(name, new)
        return
    turn = lambda text: TOKEN.sub(lambda m: change.get(m[0], m[0]), text)
    for path in [*files(".antt"), *files(".rt")]:
        text = read(path)
        if path.endswith(".rt"):
            pieces = re.split(r'("(?:\\.|[^"\\])*")', text)
            new = "".join(p if p.startswith('"') else turn(p) for p in pieces)
        else:
            new = turn(text)
        if new != text:
            with open(path, "w", encoding="utf-8") as f:
                f.write(new)


main()
