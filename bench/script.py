"""Makes a script of a journal: what came over each connection, and whose turns there were, in the order in which the
journal has them. `poad replay` plays it on one thread; if the journal is legal, it comes out of that as it went in.

script.py JOURNAL > SCRIPT"""
import struct
import sys

HEADER = 12


def octets(word):
    """The octets of a word `h:` and hexadecimal."""
    return bytes.fromhex(word.removeprefix("h:"))


def padded(fields, boundary):
    """The fields, with a gap behind them. Places count from the header."""
    return fields + b"\0" * (-(HEADER + len(fields)) % boundary)


def message(kind, minor, order, fields, size):
    """A message of this minor version of GIOP 1, with octets behind its fields up to its size."""
    head = b"GIOP\x01" + bytes([minor, order == "<", kind]) + struct.pack(order + "I", size - HEADER)
    return (head + fields).ljust(size, b"\0")


def target(minor, order, key):
    """A target by its key, or from version 1.2 on by a profile that has none."""
    if key == "-":
        return struct.pack(order + "HxxII", 1, 1, 0)
    kind = struct.pack(order + "Hxx", 0) if minor >= 2 else b""
    return kind + struct.pack(order + "I", len(octets(key))) + octets(key)


def opening(minor, order, number, flags):
    """The fields in front of the target. Before version 1.2 no service context is the first, and an octet says whether a
    reply is asked."""
    if minor < 2:
        return struct.pack(order + "IIB3x", 0, number, flags & 1)
    return struct.pack(order + "IB3x", number, flags)


def closing(minor, order, lacking):
    """No service context and a gap of so many octets, or one context that is as long. Before version 1.2 it is a
    principal of so many."""
    if minor < 2:
        return struct.pack(order + "I", lacking) + b"\0" * lacking
    if lacking < 8:
        return struct.pack(order + "I", 0) + b"\0" * lacking
    return struct.pack(order + "III", 1, 0, lacking - 8) + b"\0" * (lacking - 8)


def request(words, size):
    number, minor, name, flags, key, operation, base, body = words
    minor = int(minor)
    order = "<" if name == "little" else ">"
    operation = octets(operation) + b"\0"
    fields = opening(minor, order, int(number), int(flags)) + target(minor, order, key)
    fields = padded(fields, 4) + struct.pack(order + "I", len(operation)) + operation
    fields = padded(fields, 4)
    fields += closing(minor, order, int(base) - HEADER - len(fields) - 4)
    return message(0, minor, order, fields + octets(body), size)


def locate(words, size):
    number, minor, name, key = words
    minor = int(minor)
    order = "<" if name == "little" else ">"
    return message(3, minor, order, struct.pack(order + "I", int(number)) + target(minor, order, key), size)


def line(words, size):
    """An administrator's line of this size: an id in the shorter spelling where it had that, and spaces in front of the
    last word."""
    if words[0] == "bad":
        return "?" * size
    if len(" ".join(words)) > size:
        words = ["t:" + octets(it).decode() if it.startswith("h:") else it for it in words]
    return " ".join(words[:-1]).ljust(size - len(words[-1])) + words[-1]


def arrival(connection, size, kind, *words):
    if kind == "line":
        return f"admin c{connection} {line(words[1:], int(size))}"
    made = request(words, int(size)) if kind == "request" else locate(words, int(size))
    return f"feed c{connection} {made.hex()}"


def step(entry):
    """The line of a script that makes the entry."""
    kind, number, *words = entry
    if kind == "arrive":
        return arrival(number, *words)
    if kind in ("entered", "collect"):
        return f"collect c{number}"
    if kind == "left":
        return f"end c{number}"
    return f"step {number}"


def main():
    before = []
    with open(sys.argv[1]) as journal:
        next(journal)
        for entry in map(str.split, journal):
            # One `collect` gives all replies that are decided.
            if entry[0] != "collect" or entry[:2] != before[:2]:
                print(step(entry))
            before = entry
    print("journal")


main()
