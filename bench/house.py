#!/usr/bin/env python3
"""Counts what a reader of the crates has before him, and prints a figure a line.

usage: bench/house.py

Crates of the program are those below `poad`; the chain is the longest way down, and the ways are counted over all crates, as
`rt` walks them. Of clauses it counts those with a line above 100 columns, and those that speak of all histories; of functions
those with seven arguments or more. Texts are read as text: a count may be off by one or two.
"""
import re
from functools import cache
from pathlib import Path

TOP = Path(__file__).resolve().parent.parent
LAWS = {"history_laws", "history_words"}


def crates():
    lines = (it.split("#")[0] for it in (TOP / "crates.txt").read_text().split("\n"))
    named = {it.split(":")[0].split()[0]: it.split(":")[1].split() for it in lines if ":" in it}
    return {name: [it for it in below if it in named] for name, below in named.items()}


def clauses(text):
    """The clauses of a file, each with all its lines."""
    lines = iter(text.split("\n"))
    for line in lines:
        if re.match(r"\s*(requires|ensures)\b", line):
            clause = [line]
            while "".join(clause).count("{") > "".join(clause).count("}"):
                clause.append(next(lines))
            yield clause


def arguments(text):
    """How many arguments each function of a file has."""
    for listed in re.findall(r"\bfn \w+(?:<[^>]*>)?\(([^{]*?)\)\s*(?:->|\n|\{)", text, re.S):
        flat = listed
        while flat != (flat := re.sub(r"<[^<>]*>", "", flat)):
            pass
        yield len([it for it in flat.split(",") if it.strip()])


def main():
    below = crates()

    @cache
    def chain(name):
        return 1 + max(map(chain, below[name]), default=0)

    @cache
    def ways(name):
        return sum(1 + ways(it) for it in below[name])

    @cache
    def under(name):
        return frozenset([name]).union(*map(under, below[name]))

    texts = {it: it.read_text() for it in TOP.glob("crates/*/src/**/*.rt")}
    crate = {it: it.relative_to(TOP / "crates").parts[0] for it in texts}
    found = [(crate[it], clause) for it, text in texts.items() for clause in clauses(text)]
    wide = sum(any(len(line) > 100 for line in clause) for _, clause in found)
    speaks = re.compile(r"\([\w ]+ : List (Entry|EntryOf)\)")
    histories = [name for name, clause in found if speaks.search(" ".join(clause))]
    many = [crate[it] for it, text in texts.items() for count in arguments(text) if count >= 7]
    program = under("poad")
    print(f"crates: {len(below)}, of the program {len(program)}")
    print(f"chain: {max(map(chain, below))}, of the program {chain('poad')}")
    print(f"ways: {sum(map(ways, below))}")
    print(f"clauses: {len(found)}, above 100 columns {wide} ({100 * wide / len(found):.1f} %)")
    print(f"clauses over all histories: {len(histories)}, outside of crates of laws {sum(it not in LAWS for it in histories)}")
    print(f"functions with seven arguments or more: {len(many)}, of the program {sum(it in program for it in many)}")
    longest = max(texts, key=lambda it: texts[it].count("\n"))
    print(f"longest file: {texts[longest].count(chr(10))} lines, {longest.relative_to(TOP)}")


main()
