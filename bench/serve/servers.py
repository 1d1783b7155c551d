"""The two servers that are measured, with a register in each of three ways to serve."""
import os
import struct
import subprocess
import time
from pathlib import Path

import giop

HERE = Path(__file__).resolve().parent
LANES, WORKERS = 64, 4
WAYS = ("map", "default", "activator")
HOST = "127.0.0.1"


class Fields:
    """The fields of an encapsulation."""

    def __init__(self, octets):
        self.octets, self.at, self.order = octets, 1, "<" if octets[0] else ">"

    def number(self, code):
        size = struct.calcsize(code)
        self.at += -self.at % size + size
        return struct.unpack(self.order + code, self.octets[self.at - size : self.at])[0]

    def sequence(self):
        count = self.number("I")
        self.at += count
        return self.octets[self.at - count : self.at]


def key_of(reference):
    """The object key of the first profile of a reference."""
    ior = Fields(bytes.fromhex(reference.removeprefix("IOR:")))
    ior.sequence()  # Its type.
    assert ior.number("I") >= 1 and ior.number("I") == 0, "no IIOP profile"
    profile = Fields(ior.sequence())
    profile.number("B"), profile.number("B")
    profile.sequence()  # Its host.
    profile.number("H")
    return profile.sequence()


class Server:
    """A server that runs, until it is stopped."""

    def __init__(self, command, **streams):
        self.start = time.perf_counter()
        self.process = subprocess.Popen(command, text=True, **streams)
        self.pid = self.process.pid
        self.keys = self.when_ready()
        self.value()
        self.first_answer = time.perf_counter() - self.start

    def value(self):
        """The value of the register in the map."""
        with giop.connect(self.port) as link:
            link.sendall(giop.request(1, self.keys["map"]))
            return struct.unpack("<q", giop.exactly(link, 32)[24:])[0]

    def resident(self):
        """How many bytes of memory it has."""
        pages = int(Path(f"/proc/{self.pid}/statm").read_text().split()[1])
        return pages * os.sysconf("SC_PAGE_SIZE")

    def processor(self):
        """How many seconds of processors it took so far."""
        # The clock of a process, as clock_getcpuclockid(3) makes it of the number.
        return time.clock_gettime(~self.pid << 3 | 2)

    def stop(self):
        self.process.terminate()
        self.process.wait()


class Poad(Server):
    name, port = "poad", 2923

    def __init__(self, program):
        words = ["--lanes", str(LANES), "--workers", str(WORKERS), "--run", "1"]
        super().__init__([program, "serve", HERE / "beside.toml", *words], stderr=subprocess.PIPE)

    def when_ready(self):
        line = self.process.stderr.readline()
        assert line.startswith("poad: serving"), line
        return {way: giop.persistent_key(way.encode(), b"main") for way in WAYS}


class OmniOrb(Server):
    name, port = "omniORB", 2921

    def __init__(self, program):
        super().__init__([program, "-ORBendPoint", f"giop:tcp:{HOST}:{self.port}"], stdout=subprocess.PIPE)

    def when_ready(self):
        lines = (self.process.stdout.readline().split() for _ in WAYS)
        return {way: key_of(reference) for way, reference in lines}
