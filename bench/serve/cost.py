"""Tells what a call of `add` on an object of the map costs poad and omniORB, one at a time over 1, 4 and 8 connections:
where the processor time goes (perf), how many system calls it makes (strace), and how many instructions and
allocations (valgrind), which for poad are also told by crates.

cost.py POAD OMNI_SERVER LOAD"""
import collections
import itertools
import re
import subprocess
import sys
import tempfile
import time
from pathlib import Path

import figures
import sheet
from servers import OmniOrb, Poad

CONNECTIONS, SECONDS = (1, 4, 8), 2
STUBS = re.compile(r"__send|__libc_(recv|send|read|write)|.*epoll_(p?)wait|__poll|syscall$|entry_SYSCALL|do_syscall")
ALLOCATES = re.compile(r"_?_?(int_)?(malloc|free|realloc|calloc|cfree)|tcache|libc::heap::|std_heap::")
COPIES = re.compile(r"__mem|rotate")


def place_in_system(symbols):
    """Where a sample of the system belongs: a call, and whether it waits there, or what else it is."""
    made = next(filter(None, (re.match(r"__x64_sys_(\w+)", symbol) for symbol in symbols)), None)
    if made:
        return f"{made[1]}, waiting" if "schedule" in symbols else made[1]
    if any(symbol.startswith("exit_to_user_mode") for symbol in symbols):
        return "others' turns"
    if any(symbol.startswith("entry_SYSCALL") for symbol in symbols):
        return "into and out of calls"
    return "else in the system"


def place(stack):
    """Where a sample belongs: in the system, or what the code is that runs."""
    leaf, library = stack[0]
    if "kernel" in library:
        return place_in_system([symbol for symbol, _ in stack])
    return place_outside(leaf, library)


def place_outside(leaf, library):
    """Where a function outside the system belongs: what it does, or its crate where it has one, or its library."""
    if STUBS.match(leaf):
        return "into and out of calls"
    if ALLOCATES.match(leaf):
        return "allocator"
    if COPIES.match(leaf):
        return "copies of memory"
    crate = re.match(r"([a-z_]+)::", leaf)
    return crate[1] if crate and "omni" not in leaf else Path(library).name


def samples(record, pid):
    """The stacks of a record that are of this process, the innermost function first."""
    words = ["perf", "script", "-i", record, "--pid", str(pid), "-F", "ip,sym,dso"]
    said = subprocess.run(words, check=True, text=True, stdout=subprocess.PIPE, stderr=subprocess.DEVNULL).stdout
    for stack in re.split(r"\n\n+", said.strip()):
        lines = (re.match(r"\s*\w+ (.*) \((.*)\)", line) for line in stack.splitlines())
        frames = [(line[1], line[2]) for line in lines if line]
        if frames:
            yield frames


def call(programs, server, connections, under=()):
    return programs.measure(server, "add", "map", 1, connections, SECONDS, under)


def shares(programs, server, connections, record):
    """What a call takes of the processor, in microseconds, by places."""
    perf = ["perf", "record", "-q", "-a", "-g", "-F", "4000", "-e", "cpu-clock", "-m", "16M", "-o", record]
    figure = call(programs, server, connections, perf)
    counts = collections.Counter(map(place, samples(record, server.pid)))
    return {name: figure.processor * count / counts.total() for name, count in counts.items()}


def system_calls(programs, server, connections, listing):
    """How many system calls a call makes, by their names."""
    words = ["strace", "-f", "-qq", "-c", "-o", listing, "-p", str(server.pid)]
    tracer = subprocess.Popen(words, stderr=subprocess.DEVNULL)
    time.sleep(0.5)
    before = server.value()
    call(programs, server, connections)
    calls = server.value() - before
    tracer.terminate()
    tracer.wait()
    rows = (line.split() for line in Path(listing).read_text().splitlines())
    return {row[-1]: int(row[3]) / calls for row in rows if len(row) >= 5 and row[3].isdigit() and row[-1] != "total"}


def under_callgrind(program, listing):
    """A program that runs another one under valgrind, and lists its work when it ends."""
    script = listing.with_suffix(".sh")
    words = f"-q --tool=callgrind --instr-atstart=no --callgrind-out-file={listing}"
    script.write_text(f'#!/bin/sh\nexec valgrind {words} "{program}" "$@"\n')
    script.chmod(0o755)
    return script


def switch(server, word):
    """Switches the counting of instructions on or off."""
    words = ["callgrind_control", "-i", word, str(server.pid)]
    subprocess.run(words, check=True, stdout=subprocess.DEVNULL, stderr=subprocess.DEVNULL)


def instructions(said):
    """How many instructions each function took itself, with its library, by what callgrind says."""
    names, taken, at, library, is_call = {}, collections.Counter(), None, None, False
    for line in said.splitlines():
        named = re.match(r"(fn|ob)=(\(\d+\))(?: (.+))?$", line)
        if named:
            kind, number, name = named.groups()
            found = names.setdefault((kind, number), name)
            at, library = (found, library) if kind == "fn" else (at, found)
        elif line.startswith("calls="):
            is_call = True
        elif re.match(r"[+*\d-]", line):
            if not is_call:
                taken[at, library] += int(line.split()[1])
            is_call = False
        else:
            # A callee or its library may be named here for the first time.
            for kind, number, name in re.findall(r"^c(fn|ob)=(\(\d+\)) (.+)$", line):
                names.setdefault((kind, number), name)
    return taken


def counted(programs, server, connections, listing):
    """How many instructions a call takes outside the system, all and by places, and how many allocations it makes."""
    call(programs, server, connections)
    switch(server, "on")
    before = server.value()
    call(programs, server, connections)
    calls = server.value() - before
    switch(server, "off")
    server.stop()
    said = listing.read_text()
    names = dict(re.findall(r"fn=\((\d+)\) (.+)", said))
    made = re.findall(r"cfn=\((\d+)\).*\ncalls=(\d+)", said)
    allocations = sum(int(count) for number, count in made if names.get(number) in ("malloc", "realloc", "calloc"))
    places = collections.Counter()
    for (leaf, library), count in instructions(said).items():
        places[place_outside(leaf, library)] += count / calls
    return {"instructions": places.total(), "allocations": allocations / calls}, places


def rows_of(columns, least):
    """A row for each name that takes as much in some column, the largest first."""
    names = {name for column in columns for name, value in column.items() if value >= least}
    for name in sorted(names, key=lambda name: -max(column.get(name, 0) for column in columns)):
        yield sheet.row(name, *(f"{column.get(name, 0):.2f}" for column in columns))


def main():
    programs = figures.Programs(*sys.argv[1:])
    starts = {Poad: programs.poad, OmniOrb: programs.omni}
    with tempfile.TemporaryDirectory() as name:
        folder, taken, made, simple, work = Path(name), [], [], [], []
        with programs.servers() as running:
            for server, connections in itertools.product(running, CONNECTIONS):
                taken.append(shares(programs, server, connections, folder / "record"))
                made.append(system_calls(programs, server, connections, folder / "calls"))
        for (start, program), connections in itertools.product(starts.items(), CONNECTIONS):
            listing = folder / f"{start.name}.{connections}"
            count, places = counted(programs, start(under_callgrind(program, listing)), connections, listing)
            simple.append(count)
            work.append(places)
    heads = [f"{start.name}, {connections}" for start in starts for connections in CONNECTIONS]
    tables = [
        sheet.table(["Processor time a call, us", *heads], rows_of(taken, 0.1)),
        sheet.table(["System calls a call", *heads], rows_of(made, 0.01)),
        sheet.table(["A call, outside the system", *heads], rows_of(simple, 0)),
        sheet.table(["Instructions a call, outside the system", *heads], rows_of(work, 50)),
    ]
    print("\n\n".join(tables))


main()
