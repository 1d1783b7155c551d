#!/usr/bin/env python3
"""Lends `poad answer` a port: a connection to 127.0.0.1 PORT has a process of its own, whose input and output it is.

usage: bench/bridge/bridge.py PORT FILE [COUNT]      FILE is a configuration; ends after COUNT connections, or never

Connections are served one after the other, and each sees a run of its own. Prints `ready` when clients may come.
Run ./poad once first, so that the program is built.
"""
import itertools
import socket
import subprocess
import sys
from pathlib import Path

PROGRAM = Path(__file__).resolve().parents[2] / "crates/poad/out/poad"


def main():
    words = sys.argv[1:]
    if len(words) not in (2, 3):
        sys.exit(__doc__)
    turns = range(int(words[2])) if len(words) == 3 else itertools.count()
    with socket.create_server(("127.0.0.1", int(words[0]))) as door:
        print("ready", flush=True)
        for _ in turns:
            link, _ = door.accept()
            with link:
                ran = subprocess.run([PROGRAM, "answer", words[1]], stdin=link, stdout=link, check=False)
            print(f"status {ran.returncode}", flush=True)


if __name__ == "__main__":
    main()
