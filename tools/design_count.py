#!/usr/bin/env python3
"""Counts, in the Rattle sources of a commit, the places of each point of docs/DESIGN-PASS.md:

    python3 tools/design_count.py COMMIT [--list]

With --list each place is printed. A working tree is counted where COMMIT is '.'.
"""
import collections
import itertools
import re
import subprocess
import sys


def sources(commit):
    """The text of each .rt file of the crates, by its path."""
    if commit == ".":
        names = subprocess.run(["git", "ls-files", "crates"], capture_output=True, text=True, check=True).stdout
    else:
        names = subprocess.run(["git", "ls-tree", "-r", "--name-only", commit, "crates"], capture_output=True, text=True, check=True).stdout
    found = {}
    for name in names.splitlines():
        if re.fullmatch(r"crates/\w+/src/.*\.rt", name):
            if commit == ".":
                with open(name, encoding="utf-8") as file:
                    found[name] = file.read()
            else:
                found[name] = subprocess.run(["git", "show", f"{commit}:{name}"], capture_output=True, text=True, check=True).stdout
    return found


def lines(files, pattern):
    """Each line of code, comments aside, in which the pattern stands."""
    for name, text in files.items():
        for number, line in enumerate(text.splitlines(), 1):
            code = re.sub(r"//.*", "", line)
            if re.search(pattern, code):
                yield f"{name}:{number}: {line.strip()}"


NONE = r"^    (Wrong|Unseen|Nowhere|Ended|Short|Done|Refused)\b"


def shaped_enums(files):
    """Enums with a variant that stands for nothing, for the end or for a refusal."""
    for name, text in files.items():
        for match in re.finditer(r"^(?:pub )?enum (\w+) \{\n(.*?)^\}", text, re.S | re.M):
            if re.search(NONE, match.group(2), re.M):
                yield f"{name}: enum {match.group(1)}"


def functions(files):
    """(crate::function, parameters, requires clauses) of each function."""
    for name, text in files.items():
        crate = name.split("/")[1]
        for match in re.finditer(r"\bfn (\w+)\s*(?:<[^>]*>)?\(([^)]*)\)(.*?)^ *\{\n", text, re.S | re.M):
            parameters = [re.sub(r"\s+", " ", p.strip()) for p in match.group(2).split(",") if ":" in p]
            clauses = re.findall(r"requires\s*(?:\w+\s*)?\{(.*?)\}\s*\n", match.group(3), re.S)
            yield f"{crate}::{match.group(1)}", parameters, clauses


def parts(clause):
    """The facts of a clause, those that × joins."""
    found, part, depth = [], "", 0
    for character in clause:
        depth += character in "([{"
        depth -= character in ")]}"
        if character == "×" and depth == 0:
            found.append(part)
            part = ""
        else:
            part += character
    for fact in found + [part]:
        fact = re.sub(r"\s+", " ", fact.strip())
        while fact.startswith("(") and fact.endswith(")") and "→" not in fact:
            fact = fact[1:-1].strip()
        yield fact


def repeated_facts(files):
    """Facts that stand in the requires of three functions or more."""
    holders = collections.defaultdict(set)
    for function, _, clauses in functions(files):
        for clause in clauses:
            for fact in parts(clause):
                holders[fact].add(function)
    for fact, held in sorted(holders.items(), key=lambda pair: -len(pair[1])):
        if len(held) >= 3:
            yield f"{len(held)} functions: {fact}"


def travellers(files):
    """Pairs of parameters, same names and types, that eight functions or more take."""
    takers = collections.defaultdict(set)
    for function, parameters, _ in functions(files):
        for pair in itertools.combinations(sorted(parameters), 2):
            takers[pair].add(function)
    for pair, taken in sorted(takers.items(), key=lambda item: -len(item[1])):
        if len(taken) >= 8:
            yield f"{len(taken)} functions: {pair[0]}, {pair[1]}"


def twins(files):
    """Functions and types of one name that stand in more than one module."""
    places = collections.defaultdict(list)
    for name, text in files.items():
        for match in re.finditer(r"^ *(?:pub )?(fn|struct|enum) (\w+)", text, re.M):
            if match.group(2) != "main":
                places[match.group(2)].append(name)
    for item, names in sorted(places.items()):
        if len(names) > 1:
            yield f"{item}: {', '.join(names)}"


def counts(files):
    yield "1a enums of the shape of Option or Result", shaped_enums(files)
    yield "1b a flag or an answer beside the value", lines(files, r"^    pub (\w+: bool|answer: \w+),")
    yield "1c numbers for refusals", lines(files, r"\bnumber: usize|number: \d+|\bfn (judge_table|judge_sizes|judge_design|judge_beside_kronecker|first_refusal|unfinished)\(.*-> usize|^fn first_refusal\($")
    yield "1d numbers for letters", lines(files, r"\bletters?: &?(\[u8; [\w:]+\]|u8)")
    yield "1e numbers 0 and 1 for a choice of two", lines(files, r"\b(with|digit|half): usize\b")
    yield "2a names that stand in more than one module", twins(files)
    yield "2b structs of bytes with a length", lines(files, r"^    pub bytes: \[u8; ")
    yield "3 loops by while or loop", lines(files, r"^ *('\w+: )?(while|loop)\b")
    yield "4a a conversion, a comparison or a minimum by a function of its own", lines(files, r"\bfn (wide|class_number|family_number|same|less|lower|copy|copy_places|byte_at|value_of|judged_length|digit_count|digit_byte)\(")
    yield "4b types that derive Clone and Copy alone", lines(files, r"^#\[derive\(Clone, Copy\)\]")
    yield "5a facts in the requires of three functions or more", repeated_facts(files)
    yield "5b pairs of parameters that eight functions or more take", travellers(files)
    yield "6 a buffer beside a place or a length in it", lines(files, r"start: Writer|^    pub (named|length): usize,")
    yield "7 a flag that says which step to run", lines(files, r"\bboth: bool")


def main():
    files = sources(sys.argv[1])
    for title, found in counts(files):
        found = list(found)
        print(f"{len(found):4} {title}")
        if "--list" in sys.argv:
            for place in found:
                print("       ", place)


main()
