#!/usr/bin/env python3
"""Feeds N and 2N messages to the built program and prints messages a second and the ratio of the times.

usage: bench/answer.py [add|locate] [N]      `add` and 200000 where they aren't given. Run ./poad once first, so that it is built.

`add` is a Request that adds to the register, `locate` a LocateRequest of it. Time that is linear in the input gives
a ratio near 2. The script ends with 1 where the ratio of the times by the clock is above 2.2, or where a reply isn't
the one that it should be. Each time is the least of three runs; behind it stands the least time of the processor.
"""
import resource
import subprocess
import sys
import tempfile
import time
from pathlib import Path

PROGRAM = Path(__file__).resolve().parent.parent / "out/poad"
KEY = bytes.fromhex("504f41010000000001000000000000080000000100000001")


def add(request_id):
    """A little-endian Request of GIOP 1.2: `add` of 1 to the register."""
    head = bytes.fromhex("47494f50010201003c000000") + request_id.to_bytes(4, "little") + bytes.fromhex("03000000")
    return head + bytes.fromhex("0000000018000000") + KEY + bytes.fromhex("0400000061646400000000000100000000000000")


def value(request_id):
    """Its reply: as many as there were requests up to it."""
    return bytes.fromhex("47494f500102010114000000") + request_id.to_bytes(4, "little") + bytes(8) + request_id.to_bytes(8, "little")


def locate(request_id):
    """A little-endian LocateRequest of GIOP 1.2 for the register."""
    return bytes.fromhex("47494f500102010324000000") + request_id.to_bytes(4, "little") + bytes.fromhex("0000000018000000") + KEY


def here(request_id):
    """Its reply: the object is here."""
    return bytes.fromhex("47494f500102010408000000") + request_id.to_bytes(4, "little") + bytes.fromhex("01000000")


LOADS = {"add": (add, value), "locate": (locate, here)}


def seconds(load, count, folder):
    """The least time of three runs over so many messages, by the clock and of the processor."""
    ask, answer = LOADS[load]
    source = folder / f"{count}.giop"
    source.write_bytes(b"".join(ask(i) for i in range(1, count + 1)))
    want = b"".join(answer(i) for i in range(1, count + 1))
    clock, processor = [], []
    for _ in range(3):
        sink = folder / "replies"
        with open(source, "rb") as given, open(sink, "wb") as taken:
            start, used = time.perf_counter(), resource.getrusage(resource.RUSAGE_CHILDREN)
            status = subprocess.run([PROGRAM, "answer"], stdin=given, stdout=taken).returncode
            clock.append(time.perf_counter() - start)
            spent = resource.getrusage(resource.RUSAGE_CHILDREN)
            processor.append(spent.ru_utime + spent.ru_stime - used.ru_utime - used.ru_stime)
        if status != 0 or sink.read_bytes() != want:
            sys.exit(f"status {status}, or other replies than wanted")
    return min(clock), min(processor)


def main():
    words = sys.argv[1:]
    load = words.pop(0) if words and words[0] in LOADS else "add"
    count = int(words[0]) if words else 200_000
    with tempfile.TemporaryDirectory() as name:
        once = seconds(load, count, Path(name))
        twice = seconds(load, 2 * count, Path(name))
    for many, (clock, processor) in ((count, once), (2 * count, twice)):
        print(f"{many} x {load}: {clock:.3f} s, {many / clock:.0f} a second; of the processor {processor:.3f} s, {many / processor:.0f} a second")
    ratio = twice[0] / once[0]
    print(f"ratio {ratio:.2f}, of the processor {twice[1] / once[1]:.2f}")
    return ratio > 2.2


if __name__ == "__main__":
    sys.exit(main())
