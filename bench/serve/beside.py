"""Measures poad beside omniORB's adapter, and prints tables of both. `long` measures three times as often; `note` puts
the tables into bench/README.md, and a drawing of the rates beside this file.

beside.py POAD OMNI_SERVER LOAD [long] [note]"""
import os
import resource
import sys
import time
from pathlib import Path

import figures
import plot
import sheet

HERE = Path(__file__).resolve().parent
README, DRAWING = HERE.parent / "README.md", HERE / "beside.svg"
BEGIN, END = "<!-- figures of serve/run -->", "<!-- their end -->"
SHOWN = ("add", "map")


def busy():
    """How many seconds of the machine's processors were taken so far, and how many of them by this process and its
    children that ended."""
    words = Path("/proc/stat").read_text().split("\n", 1)[0].split()[1:]
    user, nice, system, _, _, interrupts, soft, stolen = map(int, words[:8])
    own = (resource.getrusage(who) for who in (resource.RUSAGE_SELF, resource.RUSAGE_CHILDREN))
    taken = (user + nice + system + interrupts + soft + stolen) / os.sysconf("SC_CLK_TCK")
    return taken, sum(usage.ru_utime + usage.ru_stime for usage in own)


def machine():
    lines = Path("/proc/cpuinfo").read_text().splitlines()
    model = next(line.split(": ")[1] for line in lines if line.startswith("model name"))
    return f"{os.cpu_count()} processors ({model}), Linux {os.uname().release}"


def replaced(text, section):
    """The text with this section between its two marks."""
    before, rest = text.split(BEGIN)
    return f"{before}{BEGIN}\n{section}\n{END}{rest.split(END)[1]}"


def main():
    programs = figures.Programs(*(word for word in sys.argv[1:] if word not in ("long", "note")))
    rounds = 15 if "long" in sys.argv else 5
    load, start, before = os.getloadavg()[0], time.time(), busy()
    by_server = figures.lives(programs)
    measured = figures.measure(programs, rounds)
    took, after = time.time() - start, busy()
    others = ((after[0] - before[0]) - (after[1] - before[1])) / took

    said = (
        f"{time.strftime('%Y-%m-%d %H:%M')}, {machine()}. The load was {load:.1f} before it began, and other work took "
        f"{others:.1f} of the processors meanwhile. {rounds} rounds in {took:.0f} seconds. Of two figures the first is "
        f"poad's, and a ratio is poad's figure by omniORB's of the same round."
    )
    picture = f"![Calls a second: {sheet.name_of(SHOWN)}](serve/{DRAWING.name})"
    by_call = {call: f"{sheet.name_of(call)}:\n\n{sheet.cells_of(call, measured)}" for call in figures.CALLS}
    summary = "\n\n".join([said, sheet.ratios(measured), by_call.pop(SHOWN), picture, sheet.lives(by_server)])
    print("\n\n".join([summary, *by_call.values()]))
    if "note" in sys.argv:
        README.write_text(replaced(README.read_text(), summary))
        DRAWING.write_text(plot.drawing(measured, SHOWN))


main()
