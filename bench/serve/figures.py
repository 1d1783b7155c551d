"""Figures of two servers that run side by side, measured by turns."""
import contextlib
import itertools
import subprocess
import time
from collections import defaultdict
from statistics import median
from typing import NamedTuple

import giop
from servers import LANES, WAYS, OmniOrb, Poad

SECONDS = 0.22
CALLS = [(operation, way) for way in WAYS for operation in ("get", "add")]
# Depth and connections. Those of the first list are measured in each round, the others in the first alone.
HEADLINE = [(1, 1), (1, 2), (1, 4), (1, 8), (16, 1), (16, 4)]
OTHERS = [(1, 16), (1, 64), (16, 2), (16, 8), (16, 16), (16, 64)]


class Figure(NamedTuple):
    """Calls a second; the median and the 99th percentile of how long one took, and what it took of the server's
    processor time, in microseconds."""

    rate: float
    p50: float
    p99: float
    processor: float


class Life(NamedTuple):
    """What a server is and takes beside its calls."""

    first_answer: float  # seconds from its start
    idle: float  # of a processor, with 64 clients that ask nothing
    before: int  # bytes of memory when it has started
    after: int  # behind the calls
    calls: int
    young: float  # processor time of a call among the first
    old: float  # and among the last


class Programs(NamedTuple):
    poad: str
    omni: str
    load: str

    @contextlib.contextmanager
    def servers(self):
        """Both servers, freshly started."""
        running = []
        try:
            running += [Poad(self.poad)]
            running += [OmniOrb(self.omni)]
            yield running
        finally:
            for server in running:
                server.stop()

    def measure(self, server, operation, way, depth, connections, seconds=SECONDS, under=()):
        """What comes of calls for so long, by a client that may run under another program."""
        target = [str(server.port), server.keys[way].hex(), operation]
        words = [*under, self.load, *target, str(connections), str(depth), str(seconds), str(server.pid)]
        said = subprocess.run(words, check=True, text=True, stdout=subprocess.PIPE).stdout
        return Figure(*map(float, said.split()))


def measure_round(programs, turn):
    """The figures of a round, each with its server, call and cell. Who is first changes from round to round."""
    cells = HEADLINE + (OTHERS if turn == 0 else [])
    for operation, way in CALLS:
        with programs.servers() as running:
            order = running if turn % 2 == 0 else running[::-1]
            for cell, server in itertools.product(cells, order):
                figure = programs.measure(server, operation, way, *cell)
                yield (server.name, (operation, way), cell), figure


def measure(programs, rounds):
    """The figures of so many rounds, by server, call and cell."""
    figures = defaultdict(list)
    for turn in range(rounds):
        for what, figure in measure_round(programs, turn):
            figures[what].append(figure)
    return figures


def idle(server):
    """What the server takes of a processor while 64 clients ask nothing."""
    with contextlib.ExitStack() as links:
        for _ in range(LANES):
            links.enter_context(giop.connect(server.port))
        time.sleep(0.5)
        taken = server.processor()
        time.sleep(2)
        return (server.processor() - taken) / 2


def lives(programs, turns=12):
    """The life of each server, with so many turns of calls."""
    with programs.servers() as running:
        before = {server.name: server.resident() for server in running}
        quiet = {server.name: idle(server) for server in running}
        figures = defaultdict(list)
        for _ in range(turns):
            for server in running:
                figures[server.name].append(programs.measure(server, "add", "map", 16, 4))
        return {server.name: life(server, before, quiet, figures[server.name]) for server in running}


def life(server, before, quiet, figures):
    name = server.name
    young, old = (median(figure.processor for figure in some) for some in (figures[:3], figures[-3:]))
    return Life(server.first_answer, quiet[name], before[name], server.resident(), server.value(), young, old)
