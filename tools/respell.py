#!/usr/bin/env python3
"""Brings the names of the definitions and lemmas of specs/ and proofs/ to one spelling: words in snake case, facts in camel case.

usage: python3 tools/respell.py    at the top of a checkout, once

A dash stays only where it joins the name of a function and of what it is applied to, as in `length-packed`. Names that Rattle makes
(goals, steps, the files Answers.antt and Invariants.antt) and names of src/ are left alone.
"""

import os
import re
import sys

# The lemmas that are named by the left side of their equation keep a dash, between the two names; those that were named after older
# words of the library get the words of today.
KEPT = {
    "getD-packed": "get_or-packed",
    "getD-split": "get_or-split_of",
    "getD-unpacked": "get_or-unpacked",
    "length-entry-words": "length-entry_words",
    "length-labelled": "length-labelled",
    "length-packed": "length-packed",
    "length-record": "length-record_at",
    "length-replaced": "length-replaced",
    "length-row-words": "length-row_words",
    "length-split": "length-split_of",
    "length-stored": "length-stored",
    "length-unpacked": "length-unpacked",
    "length-written": "length-written",
    "unpacked-packed": "unpacked-packed",
    "byte-written": "byte-written",
    "byte-part": "byte-part",
    "byte-in-packed": "byte_in-packed",
    "read-entry-words": "read_entry-entry_words",
    "read-row-words": "read_path-row_words",
    "said-entry-words": "said-entry_words",
    "take-set": "take-set",
    "take-pasted": "take-paste",
    # facts
    "Writes-keep-these-laws": "WritesKeepTheseLaws",
}

GENERATED = ("Answers.antt", "Invariants.antt")
DEFINED = re.compile(r"(?m)^( *)(?:abbrev |unfoldable |pub |data |record |ruleset )*([^\s(){}:.,;|λ]+)(?: [({][^:\n]*:[^)}\n]*[)}])* : ")
# what stands before the last name of a path of modules
MODULES = re.compile(r"(?<![\w.'-])(?:Rattle\.\w+\.(?:specs|proofs)\.)?[A-Z]\w*(?:\.[A-Z]\w*)*\.$")
# fields of records: what stands behind a value and a dot
FIELDS = {"lit-after": "lit_after", "one-handle": "one_handle"}
# a name of antt, and what stands before it
TOKEN = re.compile(r"(?<![^\s(){}.,;:|←])([A-Za-z][^\s(){}.,;:|]*)")


def files(root):
    for folder, dirs, names in os.walk(os.path.join(root, "crates")):
        dirs[:] = sorted(d for d in dirs if d != "out")
        for name in sorted(names):
            if name.endswith((".antt", ".rt")):
                yield os.path.join(folder, name)


def read(path):
    with open(path, encoding="utf-8") as f:
        return f.read()


def defined(root):
    """Each name that a file of specs/ or a file of lemmas defines, with the files that do."""
    names = {}
    for path in files(root):
        if path.endswith(".rt") or os.path.basename(path) in GENERATED:
            continue
        for found in DEFINED.finditer(read(path)):
            names.setdefault(found.group(2), set()).add(path)
    return names


def new_name(name):
    return KEPT.get(name) or FIELDS.get(name) or name.replace("-", "_")


def respelled(text, names, code):
    def turn(found):
        word = found.group(1)
        if word not in names:
            return word
        before = text[: found.start()]
        if before.endswith(".") and word not in FIELDS and not MODULES.search(before[before.rfind("\n") + 1 :]):
            return word  # a step or a goal of a proof
        return names[word]

    if not code:
        return TOKEN.sub(turn, text)
    # in src/ only clauses and ghost items speak of them, where a dash is part of a name
    return re.sub(r"(?<![\w'-])([A-Za-z]\w*(?:-\w+)+)(?![\w'-])", lambda m: names.get(m.group(1), m.group(1)), text)


def main():
    root = "."
    known = defined(root)
    names = {n: new_name(n) for n in known if "-" in n}
    taken = {}
    for n in known:
        for path in known[n]:
            other = taken.setdefault((path, new_name(n)), n)
            if other != n:
                sys.exit(f"respell: {path}: {other} and {n} fall together")
    changed = 0
    for path in files(root):
        text = read(path)
        turned = respelled(text, names, path.endswith(".rt"))
        if turned != text:
            changed += 1
            with open(path, "w", encoding="utf-8") as f:
                f.write(turned)
    print(f"respell: {sum(names[n] != n for n in names)} names, {changed} files")


main()
