"""How many calls a second a server of desk.toml answers without and with a state file, by turns, and how much of the processor a
run took.

state.py PROGRAM CONFIGURATION"""
import multiprocessing
import os
import statistics
import subprocess
import sys
import time

from giop import connect, exactly, persistent_key, request, say

PROGRAM, CONFIGURATION = sys.argv[1:]
TURNS, CLIENTS, ACCOUNTS, ROUNDS, AT_ONCE = 5, 4, 64, 2500, 16
REPLY_BYTES = 32


def ask(client):
    """Gets the states of the client's accounts again and again."""
    keys = [persistent_key(b"accounts", b"%d-%d" % (client, account)) for account in range(ACCOUNTS)]
    with connect() as link:
        for start in range(ROUNDS):
            piece = [request(number, keys[(start + number) % ACCOUNTS]) for number in range(AT_ONCE)]
            link.sendall(b"".join(piece))
            exactly(link, AT_ONCE * REPLY_BYTES)


def run_with(run, options):
    """The calls a second of a run with these options, and the seconds of the processor that it took."""
    words = [PROGRAM, "serve", CONFIGURATION, "--lanes", "8", "--workers", "2", "--run", str(run), *options]
    server = subprocess.Popen(words, stderr=subprocess.PIPE)
    while b"serving" not in server.stderr.readline():
        pass
    asking = [multiprocessing.Process(target=ask, args=(client,)) for client in range(CLIENTS)]
    start = time.time()
    for it in asking:
        it.start()
    for it in asking:
        it.join()
    took = time.time() - start
    say("shutdown")
    _, status, usage = os.wait4(server.pid, 0)
    assert status == 0
    return CLIENTS * ROUNDS * AT_ONCE / took, usage.ru_utime + usage.ru_stime


without, having = [], []
for turn in range(TURNS):
    without.append(run_with(2 * turn, []))
    having.append(run_with(2 * turn + 1, ["--state", "state"]))
for place, what in enumerate(("calls a second", "s of the processor")):
    medians = [statistics.median(run[place] for run in runs) for runs in (without, having)]
    print(f"without a state file {medians[0]:,.2f} {what}, with one {medians[1]:,.2f}: {medians[1] / medians[0]:.2f} times")
