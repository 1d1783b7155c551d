"""A client of a server of examples/serve/desk.toml: it sends GIOP 1.2 requests over sockets."""
import socket
import struct

CLIENTS, ADMINISTRATORS = 2809, 2810
REPLY, CLOSE_CONNECTION, MESSAGE_ERROR = 1, 5, 6


def persistent_key(adapter, object_id):
    """The key of an object of a persistent adapter below the root."""
    return struct.pack(f">4sBBB{len(adapter)}sH", b"POA\1", 1, 1, len(adapter), adapter, len(object_id)) + object_id


COUNTER = persistent_key(b"map", b"main")
ECHO = persistent_key(b"echo", b"a")


def connect(port=CLIENTS, receive=None):
    """A link to the server, with so much room for what it receives."""
    link = socket.socket()
    link.settimeout(60)
    if receive:
        link.setsockopt(socket.SOL_SOCKET, socket.SO_RCVBUF, receive)
    link.connect(("127.0.0.1", port))
    return link


def reset(link):
    link.setsockopt(socket.SOL_SOCKET, socket.SO_LINGER, struct.pack("ii", 1, 0))
    link.close()


def request(number, key=COUNTER, operation=b"get", octets=None):
    """A request, little-endian, with a sequence of octets if there are any."""
    body = struct.pack("<IB3xHxxI", number, 3, 0, len(key)) + key
    body += b"\0" * (-len(body) % 4) + struct.pack("<I", len(operation) + 1) + operation + b"\0"
    body += b"\0" * (-len(body) % 4) + struct.pack("<I", 0)
    if octets is not None:
        body += b"\0" * (-(len(body) + 12) % 8) + struct.pack("<I", len(octets)) + octets
    return b"GIOP\x01\x02\x01\x00" + struct.pack("<I", len(body)) + body


def exactly(link, count):
    got = bytearray()
    while len(got) < count:
        more = link.recv(count - len(got))
        if not more:
            raise EOFError
        got += more
    return got


def next_kind(link):
    """Reads the next message, and answers its kind."""
    head = exactly(link, 12)
    exactly(link, struct.unpack("<I" if head[6] & 1 else ">I", head[8:])[0])
    return head[7]


def say(line):
    """Says a line to the administrators' port, and answers what was answered."""
    with connect(ADMINISTRATORS) as link:
        link.sendall(line.encode() + b"\n")
        return link.makefile().readline().strip()
