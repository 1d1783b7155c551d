#!/usr/bin/env python3
"""Reads large configurations with the built program, and prints the times of half a file and of the whole one.

usage: bench/check.py [PROGRAM]      PROGRAM is out/poad where it isn't given. Run ./poad once first, so
                                     that it is built.

There are two files of about 1,048,576 bytes, the most that a configuration has: one with as many objects as fit, and
one with 1,024 managers, servants and adapters, and rules up to the end. Half of a file has half of its entries. The
script ends with 1 where a whole file takes more than 2.6 times its half, or more than 2 s, or where the counts that
are printed aren't those of the file. Of five runs the least time counts, and the least time of the processor, of
which the ratio is, so that what else runs on the machine doesn't spoil it.
"""
import resource
import subprocess
import sys
import tempfile
import time
from pathlib import Path

LIMIT = 1_048_576
HEAD = 'root = "active"\n[[servant]]\nname = "r"\nkind = "register"\n[[adapter]]\npath = "/o"\npolicies = ["USER_ID", "MULTIPLE_ID"]\nboot = true\n'


def filled(head, entry, most=1 << 30):
    """The head and as many entries as fit, and their number."""
    parts, size, count = [head], len(head), 0
    while count < most:
        text = entry(count)
        if size + len(text) > LIMIT:
            break
        parts.append(text)
        size += len(text)
        count += 1
    return parts, count


def objects():
    """As many objects as fit, each with an id of its own."""
    parts, count = filled(HEAD, lambda i: f'[[object]]\nadapter="/o"\nid="t:{i:x}"\nservant="r"\n', 65_536)
    return lambda n: ("".join(parts[: n + 1]), (1, 1, 2, n, 0)), count


def tables():
    """So many managers, servants and adapters, each adapter with the rules that fit."""
    rule = '[[adapter.rule]]\nid="t:{}"\nservant="s{}"\n'

    def text(n):
        rows = [f'[[manager]]\nname="m{i}"\n' for i in range(n)] + [f'[[servant]]\nname="s{i}"\nkind="echo"\n' for i in range(n)]
        for i in range(n):
            rows.append(f'[[adapter]]\npath="/a{i}"\nmanager="m{i}"\npolicies=["USER_ID","USE_SERVANT_MANAGER"]\n')
            rows += [rule.format(j, i) for j in range(21)]
        return "".join(rows), (n + 1, n, n + 1, 0, 0)

    return text, 1024


def processor():
    """The processor's seconds of all runs until now."""
    used = resource.getrusage(resource.RUSAGE_CHILDREN)
    return used.ru_utime + used.ru_stime


def seconds(program, text, counts, folder):
    """The least time of five runs of `check`, and the least of the processor's."""
    if len(text.encode()) > LIMIT:
        sys.exit(f"a file of {len(text.encode())} bytes")
    file = folder / "poad.toml"
    file.write_text(text)
    names = ("managers", "servants", "adapters", "objects", "forwards")
    want = "".join(f"{name} {count}\n" for name, count in zip(names, counts))
    all_times, all_used = [], []
    for _ in range(5):
        start, before = time.perf_counter(), processor()
        ran = subprocess.run([program, "check", str(file)], capture_output=True, text=True)
        all_times.append(time.perf_counter() - start)
        all_used.append(processor() - before)
        if ran.returncode != 0 or ran.stdout != want:
            sys.exit(f"status {ran.returncode} {ran.stderr.strip()}, printed {ran.stdout!r}, wanted {want!r}")
    return min(all_times), min(all_used)


def main():
    top = Path(__file__).resolve().parent.parent
    program = sys.argv[1] if len(sys.argv) > 1 else str(top / "out/poad")
    slow = False
    with tempfile.TemporaryDirectory() as name:
        for what, (text, count) in (("objects", objects()), ("managers, servants and adapters with rules", tables())):
            times = []
            for part in (count // 2, count):
                content, counts = text(part)
                spent, used = seconds(program, content, counts, Path(name))
                print(f"{part} {what}, {len(content.encode())} bytes: {spent:.3f} s, of the processor {used:.3f} s")
                times.append((spent, used))
            ratio = times[1][1] / times[0][1]
            print(f"ratio {ratio:.2f}")
            slow = slow or ratio > 2.6 or times[1][0] > 2
    return slow


if __name__ == "__main__":
    sys.exit(main())
