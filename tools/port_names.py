#!/usr/bin/env python3
"""Brings the names of definitions, lemmas, fields and modules in specs/ and proofs/ to the spelling of today's Rattle.

usage: python3 tools/port_names.py          at the top of the repository, once, after /opt/rattle/port/port.py
       python3 tools/port_names.py --list   prints each name with its new one and writes nothing

Words are in snake case (sumBelow becomes sum_below), and so are fields, whose dashes go too; a dash in the name of a lemma joins two names and
stays. The modules `inner` of specs/ and `kronecker` of the crate expansions become `Inner` and `Kronecker`. Names from src/ keep their spelling.
It goes over the .antt, .rt and .edit files of crates/, the pages, and .ci/sentences.
"""

import glob
import os
import re
import subprocess
import sys

DECLARED = re.compile(r"^(?:  )?(?:unfoldable |abbrev |pub )*([^\s:(){}=]+)(?: .*)? :(?: |$)")
FIELD = re.compile(r"^  (?:pub )?([^\s:(){}]+)(?: [^:]*)? : ")
BLOCK = re.compile(r"^(?:unfoldable |abbrev |pub )*(record|data) ")
TOKEN = re.compile(r"[^\s(){};,.\"`⟦⟧@|\[\]]+")
# Lemmas and fields that would fall together with the new name of a definition: (the folder, the name, its new one).
APART = [
    ("crates/fields/", "digits_from", "digits_from_lem"),
    ("crates/lines/", "end_line", "end_line_lem"),
    ("crates/table_texts/", "from_second", "from_second_lem"),
    ("crates/expansions/", "in_place", "in_place_lem"),
    ("crates/", "line_after", "line_after_lem"),
    ("crates/algebra/", "with_it", "with_it_gives"),
]
FIELDS = {
    "heading-said": "heading_is_said",
    "mixed-said": "mixed_is_said",
    "row-said": "row_is_said",
    "handed-up": "is_handed_up",
    "kind-field": "has_kind_field",
}
MODULES = [
    (r"(Rattle\.\w+\.specs\.)inner(?=\.)", r"\1Inner"),
    (r"((?<!\w)specs/)inner(?=[/.])", r"\1Inner"),
    (r"(Rattle\.expansions\.(?:specs|proofs)\.)kronecker(?=\.)", r"\1Kronecker"),
]
HERE = [
    (r"((?<!\w)(?:specs|proofs)/)kronecker(?=[/.])", r"\1Kronecker"),
]
MOVES = [("crates/*/specs/inner", "Inner"), ("crates/expansions/*/kronecker", "Kronecker")]


def snake(name):
    return re.sub(r"(?<=[a-z0-9])([A-Z])", lambda m: "_" + m[1].lower(), name)


def antt():
    return sorted(glob.glob("crates/*/specs/**/*.antt", recursive=True) + glob.glob("crates/*/proofs/**/*.antt", recursive=True))


def all_files():
    pages = ["README.md", "CONTRIBUTING.md", ".ci/sentences", *glob.glob("docs/*.md"), *glob.glob("examples/*.md"), *glob.glob("tests/*.md")]
    code = glob.glob("crates/*/src/**/*.rt", recursive=True) + glob.glob("crates/*/must-fail/*.edit")
    return antt() + sorted(code) + [p for p in pages if os.path.isfile(p)]


def renamed():
    """The new name of each declared name that gets one."""
    words = dict(FIELDS)
    for path in antt():
        block = None
        for line in open(path, encoding="utf-8"):
            head = BLOCK.match(line)
            if head:
                block = head[1]
                continue
            if re.match(r"^[^\s-]", line):
                block = None
            if block:
                named, dash = FIELD.match(line), True
            else:
                named, dash = DECLARED.match(line), False
            if not named or not named[1][0].islower() or named[1] in words:
                continue
            new = snake(named[1]).replace("-", "_") if dash else snake(named[1])
            if new != named[1]:
                words[named[1]] = new
    return words


def turned(path, text, words):
    apart = {old: new for folder, old, new in APART if path.startswith(folder)}
    if path.endswith(".rt"):
        apart = {}
    # A dash that no name of a field has stays: a lemma of that spelling is none.
    text = TOKEN.sub(lambda m: apart.get(m[0], m[0]), text)
    text = TOKEN.sub(lambda m: words.get(m[0], m[0]), text)
    for old, new in MODULES + (HERE if path.startswith("crates/expansions/") else []):
        text = re.sub(old, new, text)
    if path.endswith("specs/Lib.antt"):
        text = re.sub(r"(?m)^(pub )?mod inner$", r"\1mod Inner", text)
    if path.startswith("crates/expansions/") and path.endswith("/Lib.antt"):
        text = re.sub(r"(?m)^(pub )?mod kronecker$", r"\1mod Kronecker", text)
    return text


def main():
    words = renamed()
    if sys.argv[1:] == ["--list"]:
        for old, new in sorted(words.items()):
            print(old, new)
        return
    for path in all_files():
        with open(path, encoding="utf-8") as f:
            text = f.read()
        new = turned(path, text, words)
        if new != text:
            with open(path, "w", encoding="utf-8") as f:
                f.write(new)
    for pattern, name in MOVES:
        for folder in sorted(glob.glob(pattern)):
            to = os.path.join(os.path.dirname(folder), name)
            subprocess.run(["git", "mv", folder, to], check=True)
            subprocess.run(["git", "mv", folder + ".antt", to + ".antt"], check=True)


if __name__ == "__main__":
    main()
