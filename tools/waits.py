"""How long a client waits that asks for little, beside clients that send or read as fast as they
can (`fairness`), or ask for the longest answers and read nothing (`unread`), and how much memory
these take: for tools/hostile.py, which says the words.

On a machine that is busy otherwise memcached (of Debian), with as many threads as workers, shows
how long the same load makes others wait.
"""
import contextlib
import multiprocessing
import os
import selectors
import time
from typing import NamedTuple

import tries
from asking import (
    END, ERROR, LARGE, STORED, ask, asks_for, get, hit, is_same, put, seconds_to, write_large)
from served import (
    OF_THE_PACKAGE, TUNABLES, Memcached, Server, Trouble, install, read, read_exactly)
from tries import Beside

# What 99 of 100 requests, and each one, may wait on a quiet machine, in seconds, unless a load says
# otherwise.
MOST = 0.020, 0.060
# A machine is quiet where others take at most this share of its processors meanwhile: processes
# that have nothing to do with the load, and the machine's host.
QUIET = 0.05
# A busy machine makes all wait: so much longer may they wait, or so many times as long as
# memcached's clients in the same load.
ROOM = 3
TIMES_MEMCACHED = 8
# What a worker may hold more, in MiB.
MOST_MEMORY = 192
# How long a load is measured, if its clients ask for the longest answers so many times as long, and
# how long it runs before.
SECONDS = 0.7
TIMES_LONGEST = 3
BEFORE = 0.15
# The bytes that a fast client sends, or asks for, at a time.
AT_A_TIME = 2_000_000
SEGMENTS = ["--segments", "64"]
OPTIONS = ["--segment-size", "1048576", *SEGMENTS]
# With the package's options both servers have its settings of the C library too.
INSTALLED = {**os.environ, "GLIBC_TUNABLES": TUNABLES}


def waits_beside(is_over, server, newcomers):
    """What 99 of 100 requests of a client, and each one, waited at most; and, if asked for, those
    of newcomers from before they connect."""
    with server.connect(60) as stream:
        waits = [seconds_to(stream)]
        while not is_over.is_set():
            waits.append(seconds_to(stream))
            time.sleep(0.001)
            if newcomers and len(waits) % 4 == 0:
                asked = time.monotonic()
                with server.connect(60) as newcomer:
                    ask(newcomer, b"get none\r\n", END)
                    waits.append(time.monotonic() - asked)
    waits.sort()
    return waits[len(waits) * 99 // 100], waits[-1]


class Others:
    """The share of the machine's processors that others took beside the block, in which this
    process, those that it started and waited for, and a server run."""

    def __init__(self, server):
        self.server = server

    def taken(self):
        """The seconds that others took so far."""
        user, nice, system, *_, steal = map(int, read("/proc/stat").split()[1:9])
        taken = (user + nice + system + steal) / os.sysconf("SC_CLK_TCK")
        return taken - sum(os.times()[:4]) - self.server.processor_seconds()

    def __enter__(self):
        self.began, self.before = time.monotonic(), self.taken()
        return self

    def __exit__(self, *_):
        seconds = (time.monotonic() - self.began) * os.cpu_count()
        self.share = (self.taken() - self.before) / seconds


class Waited(NamedTuple):
    """What 99 of 100 requests, and each one, waited at most, in seconds; what others took; beside
    what; and what a client of memcached waited there, if that was asked."""

    longest: tuple
    others: float
    load: object = ""
    memcached: object = None

    def __str__(self):
        of_most, of_all = (it * 1000 for it in self.longest)
        beside = f"; memcached's {self.memcached}" if self.memcached else ""
        return (f"beside {self.load}: {of_most:.0f} ms (99 of 100) and {of_all:.0f} ms (all) where"
                f" others took {self.others:.0%} of the processors{beside}")

    def is_within(self, most):
        return all(it <= much for it, much in zip(self.longest, most))


def judged(here, most, beside):
    """Whether clients waited no longer than they may, and what they waited. `beside` measures
    memcached's in the same load."""
    if here.is_within(most):
        return True, here
    here = here._replace(memcached=beside())
    if here.others > QUIET:
        longer = zip(most, here.memcached.longest)
        most = [max(ROOM * it, TIMES_MEMCACHED * waited) for it, waited in longer]
    return here.is_within(most), here


def must_hold_little(server, before, said):
    """Trouble, behind these words, if a worker held too much more than before."""
    more = (server.kilobytes("VmHWM") - before) // 1024
    if more > MOST_MEMORY:
        raise Trouble(f"{said} {more} MiB")


# ---- clients that send or read as fast as they can

SEND, READ, BOTH = "send", "read", "read and write"
MALFORMED, HOLD = "send malformed lines and then", "ask for and don't read"


class Load(NamedTuple):
    """So many clients, each with so many connections, which do this with values of this size; of
    how many keys a `get` is; what others may wait on a quiet machine; and whether a line that is no
    command stands before each `get`."""

    clients: int
    size: int
    verb: str
    keys: int = 1
    streams: int = 1
    most: tuple = MOST
    is_hidden: bool = False

    def __str__(self):
        many = f"{self.keys} times " if self.keys > 1 else ""
        behind = " behind a line that is no command" if self.is_hidden else ""
        count = self.clients * self.streams
        return f"{count} that {self.verb} {many}{self.size // 1000} kB{behind}"

    def seconds(self):
        return SECONDS if self.keys == 1 else SECONDS * TIMES_LONGEST

    def asked(self, key):
        """Of each connection of a client what it sends, and how many bytes it then reads, again and
        again: or nothing, once, if it holds what it asked for."""
        value = b"v" * self.size
        if self.verb == SEND:
            return [(put(key, value, words=b" noreply") * (AT_A_TIME // self.size), 0)]
        if self.verb == MALFORMED:
            line = b"set %b 0 0 x\r\n" % key
            return [(line + value * (AT_A_TIME // self.size), 0)] * self.streams
        count = 1 if self.verb == BOTH else max(AT_A_TIME // (self.keys * self.size), 1)
        text, answer = get(key, self.keys), len(hit(key, value, times=self.keys))
        if self.is_hidden:
            text, answer = b"x\r\n" + text, len(ERROR) + answer
        writes = [(put(b"%b-%d" % (key, it), value), len(STORED)) for it in range(self.streams)]
        return [(text * count, answer * count)] * self.streams + writes * (self.verb == BOTH)


SENDERS = [Load(clients, size * 1000, SEND) for size in (8, 30, 100, 130) for clients in (1, 2, 8)]
READERS = [Load(clients, size * 1000, READ) for size in (10, 100) for clients in (1, 2, 8)]
# Beside several clients that ask for 8.4 MB again and again.
LARGE_READ = 0.030, 0.060
# (a hit more would exceed the limit of an answer)
LONGEST = [Load(1, 131_000, READ, 64), Load(8, 131_000, READ, 64, most=LARGE_READ)]
HOSTILE = [
    Load(8, 131_000, READ, 64, most=LARGE_READ, is_hidden=True),
    Load(8, 131_000, READ, 64, 5, most=LARGE_READ, is_hidden=True),
    Load(8, 64_000, MALFORMED, streams=16),
    Load(8, 100_000, HOLD, 64, 25),
]
# (a line has 2,048 bytes strictly, so an answer 134 MB)
STRICT = [Load(1, 131_000, READ, 1021, most=(0.100, 0.100))]
# As many connections read values of 1 MB, one at a time, as write them.
MEGABYTES = [Load(4, 1_000_000, BOTH, streams=5, most=(0.010, 0.060))]
OF_MEGABYTES = *OF_THE_PACKAGE, "--workers", "1"
# By the server's words. With two workers the clients are on both of them in turn.
LOADS = {
    ("--lenient", "--workers", "1"): SENDERS + READERS + LONGEST + HOSTILE,
    ("--lenient", "--workers", "2"): [
        it for it in SENDERS + READERS if it.size == 100_000 and it.clients > 1],
    ("--workers", "1"): STRICT,
    OF_MEGABYTES: MEGABYTES,
}


def write(server, key, value):
    with server.connect(60) as stream:
        ask(stream, put(key, value), STORED)


def run_client(server, key, load):
    """A fast client. One whose connection is closed ends, but if it sends malformed lines: then
    another connection comes."""
    write(server, key, b"v" * load.size)
    selector, buffer = selectors.DefaultSelector(), bytearray(262_144)

    def begin(text, count):
        stream = server.connect(60)
        stream.setblocking(False)
        selector.register(stream, selectors.EVENT_WRITE, [text, count, memoryview(text), count])

    def go_on(stream, state):
        text, count, unsent, unread = state
        if unsent:
            unsent = unsent[stream.send(unsent):]
            if not unsent and load.verb == HOLD:
                selector.unregister(stream)
                return
        else:
            got = stream.recv_into(buffer, min(unread, len(buffer)))
            if not got:
                raise ConnectionError("the server has closed it")
            unread -= got
        if not unsent and not unread:
            unsent, unread = memoryview(text), count
        state[2:] = unsent, unread
        selector.modify(stream, selectors.EVENT_WRITE if unsent else selectors.EVENT_READ, state)

    for text, count in load.asked(key):
        begin(text, count)
    while True:
        for ready, _ in selector.select():
            try:
                go_on(ready.fileobj, ready.data)
            except BlockingIOError:
                continue
            except ConnectionError:
                if load.verb != MALFORMED:
                    raise
                selector.unregister(ready.fileobj)
                ready.fileobj.close()
                begin(*ready.data[:2])


@contextlib.contextmanager
def fast_clients(server, load):
    """The clients of a load, which run beside the block."""
    fast = [multiprocessing.Process(
        target=run_client, args=(server, b"%c" % (65 + it), load), daemon=True)
        for it in range(load.clients)]
    try:
        for process in fast:
            process.start()
        yield
        if any(it.exitcode is not None for it in fast):
            raise Trouble(f"beside {load}: a fast client has ended")
    finally:
        for process in fast:
            process.kill()
            process.join()


def waited(server, load):
    with Others(server) as others, fast_clients(server, load):
        time.sleep(BEFORE)
        with Beside(waits_beside, server, True) as waits:
            time.sleep(BEFORE + load.seconds())
    return Waited(waits.noted, others.share, load)


def fairness_of(program, words):
    found, is_packaged = [], words == OF_MEGABYTES
    sizes, tuned = (SEGMENTS, INSTALLED) if is_packaged else (OPTIONS, None)
    with (Server(program, *words, *sizes, environment=tuned) as server,
          Memcached(int(words[-1]), environment=tuned) as memcached):
        before = server.kilobytes("VmRSS")
        for load in LOADS[words]:
            found.append(tries.in_two_of_three(lambda: judged(
                waited(server, load), load.most, lambda: waited(memcached, load))))
        server.must_run()
        if is_packaged:
            must_hold_little(server, before, f"beside {load}: the server takes")
    within = sum(it.is_within(it.load.most) for it in found)
    worst = [max(times) * 1000 for times in zip(*(it.longest for it in found))]
    return (f"{' '.join(words)}: {len(found)} loads of fast clients, {within} as on a quiet"
            f" machine; in the worst others waited {worst[0]:.0f} ms (99 of 100) and"
            f" {worst[1]:.0f} ms (all)")


def fairness(program):
    """What it says of all loads; Trouble where a client waited too long in two of three tries."""
    install("memcached")
    return "; ".join(fairness_of(program, words) for words in LOADS)


# ---- clients that ask for the longest answers and read nothing

# So many clients ask for so many values, of 33 MB.
CLIENTS, KEYS = 40, 255
# Each client asks for this much and reads it, beside them: the value's bytes and how often.
READ_BESIDE = [(100, 1), (1_000, 100), (100_000, 10)]


def read_whole(stream, key, value, times):
    stream.sendall(get(key, times))
    wanted = hit(key, value, times=times)
    assert is_same(read_exactly(stream, len(wanted)), wanted), f"{times} x {len(value)} bytes"


def settle(server):
    before = -1
    for _ in range(100):
        time.sleep(0.2)
        if before == (before := server.kilobytes("VmRSS")):
            return


def waited_unread(server, meanwhile):
    """What others waited beside clients of which each takes little into its own system, while this
    is called."""
    with Others(server) as others, Beside(waits_beside, server, False) as waits:
        time.sleep(BEFORE)
        for _ in range(CLIENTS):
            asks_for(server, KEYS, 4096)
        meanwhile(server)
    asked = f"clients that ask for {KEYS * len(LARGE) / 1e6:.0f} MB each and read nothing"
    return Waited(waits.noted, others.share, asked)


def unread_here(program):
    """How others waited; Trouble if it held too much."""
    with Server(program, "--workers", "1", *OPTIONS) as server, server.connect() as reader:
        write_large(server)
        with server.connect() as first:
            read_whole(first, b"large", LARGE, KEYS)
        for size, _ in READ_BESIDE:
            write(server, b"read-%d" % size, b"v" * size)
        before = server.kilobytes("VmRSS")

        def meanwhile(_):
            settle(server)
            for size, times in READ_BESIDE:
                read_whole(reader, b"read-%d" % size, b"v" * size, times)

        found = waited_unread(server, meanwhile)
        must_hold_little(server, before, "clients that read nothing take")
    return found


def unread_beside():
    """How a client of memcached waited in the same load."""
    with Memcached(1) as server:
        write_large(server)
        return waited_unread(server, lambda _: time.sleep(1))


def unread(program):
    """What it says; Trouble where they held too much, or others waited too long in two of three."""
    install("memcached")
    tried = lambda: judged(unread_here(program), MOST, unread_beside)
    return f"others waited {tries.in_two_of_three(tried)}"
