#!/usr/bin/env python3
"""Feeds `answer` 100,000 requests `get` in GIOP 1.0, 1.1 and 1.2 by turns, and prints the processor time a call.

usage: bench/versions.py [TURNS]      25 where they aren't given. POAD names another program than the built one.

A line a version has the median and the least of the turns, and the median of its ratios to the 1.2 of the same turn.
"""
import os
import resource
import statistics
import struct
import subprocess
import sys
import tempfile
from pathlib import Path

PROGRAM = os.environ.get("POAD") or Path(__file__).resolve().parent.parent / "out/poad"
KEY = bytes.fromhex("504f41010000000001000000000000080000000100000001")
CALLS = 100_000
MINORS = (0, 1, 2)


def request(minor, number):
    """A little-endian `get`, whose fields before the operation all end at a multiple of four."""
    fields = [b"" if minor == 2 else bytes(4), struct.pack("<IB", number, 3 if minor == 2 else 1)]
    # In 1.0 the key's length is aligned behind the octet; in 1.1 and 1.2 three octets stand there.
    fields += [bytes(3), bytes(4) if minor == 2 else b"", struct.pack("<I", len(KEY)), KEY]
    fields += [struct.pack("<I", 4), b"get\0", bytes(4)]
    body = b"".join(fields)
    return struct.pack("<4sBBBBI", b"GIOP", 1, minor, 1, 0, len(body)) + body


def seconds(minor, path):
    """The processor time of one run on the input at this path."""
    before = resource.getrusage(resource.RUSAGE_CHILDREN)
    with open(path, "rb") as given:
        ran = subprocess.run([PROGRAM, "answer"], stdin=given, capture_output=True, check=True)
    after = resource.getrusage(resource.RUSAGE_CHILDREN)
    assert ran.stdout[:6] == b"GIOP\1" + bytes([minor])
    return after.ru_utime - before.ru_utime + after.ru_stime - before.ru_stime


def main():
    turns = int(sys.argv[1]) if len(sys.argv) > 1 else 25
    with tempfile.TemporaryDirectory() as folder:
        paths = {minor: Path(folder, str(minor)) for minor in MINORS}
        for minor, path in paths.items():
            path.write_bytes(b"".join(request(minor, number) for number in range(CALLS)))
        rows = [{minor: seconds(minor, path) for minor, path in paths.items()} for _ in range(turns)]
    for minor in MINORS:
        times = [row[minor] * 1e6 / CALLS for row in rows]
        ratio = statistics.median(row[minor] / row[2] for row in rows)
        print(f"1.{minor}: {statistics.median(times):.2f} us a call, at least {min(times):.2f}; {ratio:.2f} of 1.2")


main()
