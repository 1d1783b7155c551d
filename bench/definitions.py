#!/usr/bin/env python3
"""Counts the definitions that the clauses of a function rest on, and what these rest on in turn, down to the Prelude.

usage: bench/definitions.py [FILE FUNCTION]      `crates/serve_run/src/running.rt serve_core` where they aren't given

It reads the files as text, and runs nothing. A definition counts with its lines that aren't blank and no comment. The types
that the code declares (`specs.declared`) and the words of std aren't counted. A line a crate: its lines, its definitions, and
its files with their lines; the last line has the sums.
"""
import re
import sys
from collections import defaultdict
from pathlib import Path

TOP = Path(__file__).resolve().parent.parent
IMPORT = re.compile(r"^(?:ghost |pub )?use (Rattle\.[\w.]+?)(?:\.\{([^}]*)\})?(?: as (\w+))?;?$", re.M)
# At the margin anything may begin, below it, in a module with parameters, no field of a record.
HEADS = [
    re.compile(r"^(?:(?:abbrev|unfoldable|opaque|pub)\s+)+(?:(?:record|data)\s+)?([^\s:({]+)"),
    re.compile(r"^  (?:abbrev pub|unfoldable pub|opaque pub|pub record|pub data|abbrev) +([^\s:({]+)"),
]
WORD = re.compile(r"[A-Za-z_]\w*(?:\.[A-Za-z_]\w*)*")


def imports(text):
    """What a file names: each name by itself, and each module by its last word or its other name."""
    names, modules = {}, {}
    for path, listed, other in IMPORT.findall(text):
        if listed:
            for item in listed.split(","):
                name, _, local = item.strip().partition(" as ")
                names[local or name] = path, name
        else:
            modules[other or path.rpartition(".")[2]] = path
    return names, modules


def definitions(text):
    """Each definition of a file, with its lines."""
    found, current = defaultdict(list), None
    for line in text.split("\n"):
        if line.startswith(("use ", "pub use ")) or not line.strip() or line.strip().startswith("--"):
            continue
        head = next((it[1] for it in (form.match(line) for form in HEADS) if it), None)
        current = head or current
        if current:
            found[current].append(line)
    return found


def read_all():
    known, named = {}, {}
    for path in TOP.glob("crates/*/specs/*.antt"):
        module, text = f"Rattle.{path.parts[-3]}.specs.{path.stem}", path.read_text()
        named[module] = imports(text)
        known.update({(module, name): lines for name, lines in definitions(text).items()})
    return known, named


def cited(known, module, names, modules, text):
    """The definitions that a text of a module names."""
    for word in WORD.findall(text):
        first, _, rest = word.partition(".")
        for found in ((module, first), names.get(first), (modules.get(first), rest.partition(".")[0])):
            if found in known:
                yield found


def clauses(file, function):
    text = (TOP / file).read_text()
    start = text.index(f"fn {function}")
    return imports(text), text[start : text.index("\n{", start)]


def main():
    file, function = sys.argv[1:] or ("crates/serve_run/src/running.rt", "serve_core")
    known, named = read_all()
    (names, modules), text = clauses(file, function)
    waiting, seen = list(cited(known, None, names, modules, text)), set()
    while waiting:
        found = waiting.pop()
        if found not in seen:
            seen.add(found)
            waiting += cited(known, found[0], *named[found[0]], "\n".join(known[found]))
    crates = defaultdict(lambda: defaultdict(list))
    for module, name in seen:
        _, crate, _, stem = module.split(".")
        crates[crate][stem].append(len(known[module, name]))
    for crate, files in sorted(crates.items()):
        lines, count = sum(map(sum, files.values())), sum(map(len, files.values()))
        print(f"{crate}: {lines} lines, {count} definitions ({', '.join(f'{it} {sum(files[it])}' for it in sorted(files))})")
    print(f"{function}: {sum(len(known[it]) for it in seen)} lines, {len(seen)} definitions, {len(crates)} crates")


main()
