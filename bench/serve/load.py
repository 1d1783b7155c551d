"""Asks a server of desk.toml by one client and by eight, one request at a time and sixteen, and tells how many it
answers a second and what it takes of the processor; what it takes while idle; and its descriptors before and after
100,000 connections.

load.py PID"""
import multiprocessing
import os
import sys
import time

from giop import connect, exactly, request

PID = int(sys.argv[1])
REPLY_BYTES = 32


def processor():
    """How many seconds of processors the server's threads took so far."""
    taken = 0
    for thread in os.listdir(f"/proc/{PID}/task"):
        with open(f"/proc/{PID}/task/{thread}/schedstat") as line:
            taken += int(line.read().split()[0])
    return taken / 1e9


def descriptors():
    return len(os.listdir(f"/proc/{PID}/fd"))


def ask(rounds, at_once):
    """Asks so many times, with so many requests in a piece."""
    piece = b"".join(map(request, range(at_once)))
    with connect() as link:
        for _ in range(rounds):
            link.sendall(piece)
            exactly(link, at_once * REPLY_BYTES)


def ask_anew(count):
    """Asks once over each of so many connections."""
    for _ in range(count):
        ask(1, 1)


def measure(name, clients, work, words, count):
    """Lets so many clients work, each in a process of its own, and tells what it came to."""
    start, taken = time.time(), processor()
    asking = [multiprocessing.Process(target=work, args=words) for _ in range(clients)]
    for it in asking:
        it.start()
    for it in asking:
        it.join()
    took, taken = time.time() - start, processor() - taken
    assert not any(it.exitcode for it in asking)
    requests = clients * count
    print(f"{name}: {requests / took:,.0f} a second, {1e6 * taken / requests:.1f} us of a processor each", flush=True)


def main():
    before = descriptors()
    for clients in (1, 8):
        for at_once, requests in ((1, 20000), (16, 160000)):
            rounds = requests // at_once // clients
            name = f"{clients} clients, {at_once} requests at a time"
            measure(name, clients, ask, (rounds, at_once), rounds * at_once)
    measure("8 clients, a connection for each request", 8, ask_anew, (12500,), 12500)
    time.sleep(1)
    taken = processor()
    time.sleep(10)
    print(f"idle: {(processor() - taken) / 10:.2%} of a processor")
    print(f"descriptors: {before} before, {descriptors()} after 100,000 connections")


main()
