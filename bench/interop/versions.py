#!/usr/bin/env python3
"""Calls a server of examples/serve/desk.toml in each version of GIOP and in both byte orders, by bytes alone: a locate, a
get, a call of _is_a and one that asks no reply. The status is 1 where an answer has another version, order or value."""
import pathlib
import struct
import sys

sys.path.insert(0, str(pathlib.Path(__file__).resolve().parent.parent))
from giop import COUNTER, connect, exactly

REQUEST, REPLY, LOCATE_REQUEST, LOCATE_REPLY, OBJECT_HERE = 0, 1, 3, 4, 1
INTERFACE = b"IDL:poad/Register:1.0\0"


class Message:
    """A message of a version and byte order, whose fields are put one behind the other."""

    def __init__(self, minor, little, kind):
        self.minor, self.order, self.kind = minor, "<" if little else ">", kind
        self.fields = b""

    def align(self, unit):
        self.fields += b"\0" * (-(12 + len(self.fields)) % unit)

    def ulong(self, number):
        self.align(4)
        self.fields += struct.pack(self.order + "I", number)

    def octets(self, octets):
        self.ulong(len(octets))
        self.fields += octets

    def key(self):
        if self.minor == 2:
            self.align(2)
            self.fields += struct.pack(self.order + "H", 0)
        self.octets(COUNTER)

    def bytes(self):
        flags = 1 if self.order == "<" else 0
        return struct.pack(self.order + "4sBBBBI", b"GIOP", 1, self.minor, flags, self.kind, len(self.fields)) + self.fields


def request(minor, little, number, operation, text=None, asks=True):
    message = Message(minor, little, REQUEST)
    if minor < 2:
        message.ulong(0)
    message.ulong(number)
    message.fields += bytes([(3 if minor == 2 else 1) if asks else 0])
    if minor > 0:
        message.fields += b"\0\0\0"
    message.key()
    message.octets(operation + b"\0")
    message.ulong(0)
    if text:
        message.align(8 if minor == 2 else 1)
        message.octets(text)
    return message.bytes()


def locate(minor, little, number):
    message = Message(minor, little, LOCATE_REQUEST)
    message.ulong(number)
    message.key()
    return message.bytes()


def answer(link, minor, little):
    """The type, the id, the status and the body of the next message, which has this version and byte order."""
    order = "<" if little else ">"
    head = exactly(link, 12)
    assert (head[4], head[5], head[6] & 1) == (1, minor, int(little)), bytes(head).hex()
    fields = exactly(link, struct.unpack(order + "I", head[8:])[0])
    if head[7] == LOCATE_REPLY:
        return head[7], *struct.unpack(order + "II", fields[:8]), b""
    numbers = struct.unpack(order + "III", fields[:12])
    return head[7], *(numbers[:2] if minor == 2 else numbers[1:]), bytes(fields[12:])


def calls(minor, little):
    link = connect()
    order = "<" if little else ">"
    link.sendall(locate(minor, little, 1) + request(minor, little, 2, b"get"))
    assert answer(link, minor, little) == (LOCATE_REPLY, 1, OBJECT_HERE, b"")
    kind, number, status, body = answer(link, minor, little)
    assert (kind, number, status, len(body)) == (REPLY, 2, 0, 8), body.hex()
    link.sendall(request(minor, little, 3, b"get", asks=False) + request(minor, little, 4, b"_is_a", INTERFACE))
    assert answer(link, minor, little) == (REPLY, 4, 0, b"\1")
    link.close()
    return struct.unpack(order + "q", body)[0]


values = {calls(minor, little) for minor in (0, 1, 2) for little in (True, False)}
assert len(values) == 1, values
