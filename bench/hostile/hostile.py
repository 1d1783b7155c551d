"""Abuses a server of desk.toml over its ports. After each abuse it looks whether fresh clients are served as fast as
before, the descriptors are as before, and the memory has grown by no more than the journal, and a tenth beside it.
Then it says `shutdown` under load.

How fast a client is served is told by the clock of the same moment: as a multiple of what a client of a bare server in
this program waits. So a machine that is busy slows both.

hostile.py PID LANES"""
import os
import socket
import statistics
import sys
import threading
import time

import giop

PID, LANES = map(int, sys.argv[1:])


class Kept:
    """What came to the server, and stays in its journal."""

    calls = connections = octets = 0


def connect(port=giop.CLIENTS, receive=None):
    Kept.connections += 1
    return giop.connect(port, receive)


def request(number, key=giop.COUNTER, operation=b"get", octets=None):
    Kept.calls += 1
    # As the request has them, and its reply.
    Kept.octets += 2 * len(octets or b"")
    return giop.request(number, key, operation, octets)


def ask(link, count=1):
    """So many requests in one piece, and their replies."""
    link.sendall(b"".join(map(request, range(count))))
    for _ in range(count):
        assert giop.next_kind(link) == giop.REPLY


# How many times as long as before a fresh client may wait, beside a client of the bare server.
SLOWER = 10


class Yardstick:
    """A bare server: it answers each client's one byte, and closes."""

    def __init__(self):
        self.door = socket.create_server(("127.0.0.1", 0))
        threading.Thread(target=self.serve, daemon=True).start()

    def serve(self):
        while True:
            with self.door.accept()[0] as link:
                link.sendall(link.recv(1))

    def client(self):
        with socket.create_connection(self.door.getsockname()) as link:
            link.sendall(b"G")
            giop.exactly(link, 1)


YARDSTICK = Yardstick()


def fresh_client():
    """A new client, which waits for its first reply."""
    with connect() as link:
        ask(link)


def seconds(work):
    start = time.perf_counter()
    work()
    return time.perf_counter() - start


def slowness():
    """How long a fresh client waits, and how many times as long as one of the bare server: medians, by turns."""
    pairs = [(seconds(fresh_client), seconds(YARDSTICK.client)) for _ in range(9)]
    fresh, bare = map(statistics.median, zip(*pairs))
    return fresh, fresh / bare


def is_silent(link, seconds):
    link.settimeout(seconds)
    try:
        return not link.recv(1)
    except TimeoutError:
        return True
    finally:
        link.settimeout(60)


def silent_links():
    """Links that send nothing. As long as a lane is left, it serves; who comes when all are taken waits until one goes."""
    links = [connect() for _ in range(LANES - 1)]
    time.sleep(1)
    fresh_client()
    links.append(connect())
    time.sleep(1)
    with connect() as waiting:
        waiting.sendall(request(1))
        assert is_silent(waiting, 2), "who came while all lanes were taken was served"
        links.pop().close()
        assert giop.next_kind(waiting) == giop.REPLY
    for link in links:
        link.close()


def connects_and_resets():
    for _ in range(10000):
        giop.reset(connect())


def calls_and_resets():
    for _ in range(1000):
        link = connect()
        link.sendall(request(1))
        giop.reset(link)


def byte_a_second():
    """A request whose last bytes come so is answered."""
    with connect() as link:
        message = request(1)
        link.sendall(message[:-10])
        for byte in message[-10:]:
            time.sleep(1)
            link.sendall(bytes([byte]))
        assert giop.next_kind(link) == giop.REPLY


def half_a_message():
    for _ in range(100):
        with connect() as link:
            link.sendall(request(1)[:30])


def garbage():
    """A mebibyte of it is answered by a MessageError."""
    with connect() as link:
        try:
            link.sendall(bytes(range(256)) * 4096)
        except OSError:
            pass
        assert giop.next_kind(link) == giop.MESSAGE_ERROR


def never_reads():
    """A peer that takes none of 10,000 replies of a kilobyte is cut off after half a minute."""
    asked = b"".join(request(it, giop.ECHO, b"echo", b"x" * 1000) for it in range(10000))
    end = time.time() + 60
    with connect(receive=4096) as link:
        link.settimeout(1)
        while time.time() < end:
            try:
                asked = asked[link.send(asked) :]
            except TimeoutError:
                pass
            except OSError:
                return
    raise AssertionError("the peer wasn't cut off")


def hundred_lines():
    with connect(giop.ADMINISTRATORS) as link:
        link.sendall(b"bogus\n" * 100)
        answers = link.makefile()
        for number in range(1, 101):
            assert answers.readline() == f"{number} no BadWord 1\n"


def hundred_administrators():
    """Each says a line at once, and is answered when those before it have left."""
    links = [connect(giop.ADMINISTRATORS) for _ in range(100)]
    for link in links:
        link.sendall(b"bogus\n")
    for link in links:
        assert link.makefile().readline() == "1 no BadWord 1\n"
        link.close()


ABUSES = (
    silent_links,
    connects_and_resets,
    calls_and_resets,
    byte_a_second,
    half_a_message,
    garbage,
    never_reads,
    hundred_lines,
    hundred_administrators,
)


def descriptors():
    return len(os.listdir(f"/proc/{PID}/fd"))


def memory():
    """The server's memory in bytes."""
    with open(f"/proc/{PID}/status") as lines:
        return next(int(it.split()[1]) << 10 for it in lines if it.startswith("VmRSS"))


def settle(count):
    """Waits until the server has no more than so many descriptors, a minute at most."""
    end = time.time() + 60
    while descriptors() > count and time.time() < end:
        time.sleep(0.1)


def take_all_lanes():
    """Each lane serves once, so that it has its buffers."""
    links = [connect() for _ in range(LANES)]
    for link in links:
        ask(link, 100)
    for link in links:
        link.close()


def many_calls():
    with connect() as link:
        for _ in range(200):
            ask(link, 100)


def many_connections():
    for _ in range(2000):
        with connect() as link:
            link.sendall(b"G")


def grown(work, count):
    """By how many bytes the memory grows."""
    before = memory()
    work()
    settle(count)
    return max(0, memory() - before)


def fault_of(abuse):
    """Abuses the server, and tells what it didn't do meanwhile that it is to do."""
    try:
        abuse()
    except AssertionError as fault:
        return str(fault) or "an answer is another than was due"
    except TimeoutError:
        return "no answer came for a minute"
    except (EOFError, OSError) as fault:
        return f"a link ended early: {str(fault) or 'the server closed it'}"
    return None


def faults_of(abuse, limit, kept_a_call, kept_a_connection):
    """Abuses the server, tells what was seen in a line, and lists what is wrong."""
    Kept.calls = Kept.connections = Kept.octets = 0
    count, held, start = descriptors(), memory(), time.time()
    faults = [fault_of(abuse)]
    took, (waited, times) = time.time() - start, slowness()
    settle(count)
    kept = Kept.calls * kept_a_call + Kept.connections * kept_a_connection + Kept.octets
    if times > limit:
        faults.append(f"a fresh client waits {times:.0f} times as long as one of a bare server, and {limit:.0f} at most")
    if descriptors() != count:
        faults.append(f"there were {count} descriptors")
    if memory() > 1.1 * (held + kept):
        faults.append("the memory grew by more than the journal")
    faults = [it for it in faults if it]
    print(
        f"{abuse.__name__}: {took:.1f} s; a fresh client waits {waited * 1000:.1f} ms, {times:.1f} times as long as one of"
        f" a bare server; {descriptors()} descriptors; memory {held >> 10} KiB, then {memory() >> 10}, up to"
        f" {int(kept) >> 10} of it for the journal: {'FAILED: ' + '; '.join(faults) if faults else 'ok'}",
        flush=True,
    )
    return faults


def send(link, message):
    """Sends a message to a server that may have closed."""
    try:
        link.sendall(message)
    except OSError:
        pass


def ask_until_closed(ends):
    """Asks without end, 16 calls ahead of the replies, and tells what comes behind the replies."""
    kind = None
    try:
        with giop.connect() as link:
            send(link, b"".join(map(giop.request, range(16))))
            while (kind := giop.next_kind(link)) == giop.REPLY:
                send(link, giop.request(16))
    except (EOFError, OSError):
        pass
    ends.append(kind)


def shutdown_under_load():
    """Each of eight clients reads its replies and then a CloseConnection."""
    ends = []
    asking = [threading.Thread(target=ask_until_closed, args=[ends]) for _ in range(8)]
    for it in asking:
        it.start()
    time.sleep(2)
    answer = giop.say("shutdown")
    for it in asking:
        it.join()
    closed = ends.count(giop.CLOSE_CONNECTION)
    assert answer == "1 ok" and closed == 8, f"the answer is '{answer}', and {closed} of 8 clients read CloseConnection"


def main():
    count = descriptors()
    take_all_lanes()
    settle(count)
    usual = slowness()[1]
    kept_a_call = grown(many_calls, count) / 20000
    kept_a_connection = grown(many_connections, count) / 2000
    print(
        f"a call keeps {kept_a_call:.0f} bytes, a connection {kept_a_connection:.0f}; {count} descriptors; a fresh client"
        f" waits {usual:.1f} times as long as one of a bare server, which may become {SLOWER * usual:.1f}"
    )
    faults = [faults_of(abuse, SLOWER * usual, kept_a_call, kept_a_connection) for abuse in ABUSES]
    last = fault_of(shutdown_under_load)
    print(f"shutdown_under_load: {f'FAILED: {last}' if last else 'ok'}", flush=True)
    return bool(last or any(faults))


sys.exit(main())
