#!/usr/bin/env python3
"""Servers of one connection after the other, at a port of 127.0.0.1: `peers.py PORT KIND`. KIND is `little` or `big`, which
answer each request by the long long 7, in the version of the request and that byte order; `closing`, which closes once it
was asked; `dropping`, which says CloseConnection; `garbage`, which says what is no GIOP; or `silent`, which never answers. It says `ready`, and serves until it is killed."""
import pathlib
import socket
import struct
import sys
import time

sys.path.insert(0, str(pathlib.Path(__file__).resolve().parent.parent))
from giop import exactly

REPLY, CLOSE_CONNECTION = 1, 5


def message(minor, order, kind, body):
    return struct.pack(order + "4sBBBBI", b"GIOP", 1, minor, order == "<", kind, len(body)) + body


def read_request(link):
    """The minor version and the id of the next request, which is little-endian."""
    head = exactly(link, 12)
    body = exactly(link, struct.unpack("<I", head[8:])[0])
    at = 0 if head[5] == 2 else 4
    return head[5], struct.unpack_from("<I", body, at)[0]


def reply(minor, order, number):
    fields = (number, 0, 0) if minor == 2 else (0, number, 0)
    return message(minor, order, REPLY, struct.pack(order + "III", *fields) + struct.pack(order + "q", 7))


def answer(link, kind):
    minor, number = read_request(link)
    if kind == "silent":
        time.sleep(90)
    elif kind == "garbage":
        link.sendall(b"HTTP/1.1 400 Bad Request\r\nConnection: close\r\n\r\n")
    elif kind == "dropping":
        link.sendall(message(2, ">", CLOSE_CONNECTION, b""))
    elif kind != "closing":
        link.sendall(reply(minor, "<" if kind == "little" else ">", number))


def serve(port, kind):
    with socket.create_server(("127.0.0.1", port)) as server:
        print("ready", flush=True)
        while True:
            link, _ = server.accept()
            with link:
                answer(link, kind)


serve(int(sys.argv[1]), sys.argv[2])
