#!/usr/bin/env python3
"""Binds and resolves N and 2N names in one context of `poad names`, and prints microseconds a call and the ratio of the times.

usage: bench/names.py [apart] [N] | limits

N is 32768 where it isn't given; 65,536 names is the most. Run ./poad once first, so that it is built, or name the program
by POAD. Each name is bound and then resolved, in the order of the names, or with `apart` in one that jumps about. Time that
is linear in the input gives a ratio near 2. Each time is the least of three runs, of the processor; behind it stands the
least by the clock. With `limits` it looks at the limits instead: 65,536 components are bound in two contexts together, and
one more isn't; 65,536 contexts are made, and one more isn't.

The script ends with 1 where a call takes more than 3 us, the ratio is above 2.2, or a reply isn't the one that it should be.
"""
import os
import resource
import struct
import subprocess
import sys
import tempfile
import time
from pathlib import Path

PROGRAM = os.environ.get("POAD") or Path(__file__).resolve().parent.parent / "out/poad"
KEY = b"POA\1\1\1\5names\0\4\0\0\0\0"
STEP = 2654435761 if "apart" in sys.argv[1:] else 1
OBJECT = struct.pack("<I4sII", 4, b"IDL\0", 0, 0)[:12]


def request(number, operation, arguments, context=0):
    """A little-endian Request of GIOP 1.2 to a context."""
    body = struct.pack("<IB3xHxxI", number, 3, 0, len(KEY)) + KEY[:-4] + struct.pack(">I", context)
    for field in (operation,):
        body += b"\0" * (-len(body) % 4) + struct.pack("<I", len(field) + 1) + field + b"\0"
    body += b"\0" * (-len(body) % 4) + struct.pack("<I", 0)
    body += b"\0" * (-(len(body) + 12) % 8) + arguments
    return b"GIOP\1\2\1\0" + struct.pack("<I", len(body)) + body


def name(i):
    """A name of one component, whose id has eight bytes."""
    return struct.pack("<II", 1, 9) + b"%08x\0" % (i * STEP % 2**32) + b"\0\0\0" + struct.pack("<I", 1) + b"\0\0\0\0"


def reply(number, body=b""):
    return b"GIOP\1\2\1\1" + struct.pack("<IIII", 12 + len(body), number, 0, 0) + body


def seconds(count, folder):
    """The least time of three runs over so many names, of the processor and by the clock."""
    source = folder / f"{count}.giop"
    asked = [request(2 * i, b"bind", name(i) + OBJECT) for i in range(count)]
    asked += [request(2 * i + 1, b"resolve", name(i)) for i in range(count)]
    source.write_bytes(b"".join(asked))
    want = b"".join(reply(2 * i) for i in range(count)) + b"".join(reply(2 * i + 1, OBJECT) for i in range(count))
    processor, clock = [], []
    for _ in range(3):
        sink = folder / "replies"
        with open(source, "rb") as given, open(sink, "wb") as taken:
            start, used = time.perf_counter(), resource.getrusage(resource.RUSAGE_CHILDREN)
            status = subprocess.run([PROGRAM, "names"], stdin=given, stdout=taken).returncode
            clock.append(time.perf_counter() - start)
            spent = resource.getrusage(resource.RUSAGE_CHILDREN)
            processor.append(spent.ru_utime + spent.ru_stime - used.ru_utime - used.ru_stime)
        if status != 0 or sink.read_bytes() != want:
            sys.exit(f"{count} names: status {status}, or another reply")
    return min(processor), min(clock)


def answers(asked, folder):
    """The replies to these requests, which `names` has to end well behind."""
    (folder / "asked").write_bytes(b"".join(asked))
    with open(folder / "asked", "rb") as given, open(folder / "replies", "wb") as taken:
        if subprocess.run([PROGRAM, "names"], stdin=given, stdout=taken).returncode != 0:
            sys.exit("it doesn't end well")
    said, replies, at = (folder / "replies").read_bytes(), [], 0
    while at < len(said):
        end = at + 12 + struct.unpack_from("<I", said, at + 8)[0]
        replies.append(said[at:end])
        at = end
    return replies


def full(number):
    """TRANSIENT 11 of this server."""
    body = struct.pack("<III", number, 2, 0) + struct.pack("<I", 32) + b"IDL:omg.org/CORBA/TRANSIENT:1.0\0" + struct.pack("<II", 0xFFFFF00B, 1)
    return b"GIOP\1\2\1\1" + struct.pack("<I", len(body)) + body


def limits(folder):
    """Whether the last of what may be bound and made is, one more isn't, and one is again where another went."""
    most = 65536
    first = [request(0, b"bind_new_context", name(0))]
    binds = [request(i, b"bind", name(i) + OBJECT, i % 2) for i in range(2, most + 3)]
    more = [request(1, b"unbind", name(2)), request(2, b"bind", name(2) + OBJECT), request(3, b"rebind", name(4) + OBJECT)]
    said = answers(first + binds + more, folder)
    bound = said[1:-4] == [reply(i) for i in range(2, most + 1)] + [full(most + 1)] and said[-4:] == [full(most + 2), reply(1), reply(2), reply(3)]
    made = []
    for i in range(most + 1):
        made += [request(2 * i, b"bind_new_context", name(0)), request(2 * i + 1, b"unbind", name(0))]
    said = answers(made + [request(5, b"bind", name(1) + OBJECT, most)], folder)
    contexts = said[2 * most] == full(2 * most) and said[-1] == reply(5) and all(said[2 * i + 1] == reply(2 * i + 1) for i in range(most))
    print(f"65,536 bound: {'kept' if bound else 'NOT KEPT'}; 65,536 contexts: {'kept' if contexts else 'NOT KEPT'}")
    sys.exit(not (bound and contexts))


def main():
    if sys.argv[1:] == ["limits"]:
        with tempfile.TemporaryDirectory() as folder:
            limits(Path(folder))
    numbers = [word for word in sys.argv[1:] if word != "apart"]
    count = int(numbers[0]) if numbers else 32768
    with tempfile.TemporaryDirectory() as folder:
        half = seconds(count, Path(folder))
        whole = seconds(2 * count, Path(folder))
    for names, times in ((count, half), (2 * count, whole)):
        print(f"{names} names: {times[0]:.2f} s, {times[0] / names / 2 * 1e6:.2f} us a call; by the clock {times[1]:.2f} s")
    print(f"ratio {whole[0] / half[0]:.2f}, by the clock {whole[1] / half[1]:.2f}")
    sys.exit(whole[0] / half[0] > 2.2 or whole[0] / count / 4 > 3e-6)


main()
