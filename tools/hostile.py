#!/usr/bin/env python3
"""Hostile use of a served segcached: bad bytes, bad peers, refused memory, much data, shared
counters.

    tools/hostile.py [--long] [--only NAME,..] [--program FILE] [--late SECONDS]

Each part serves the program on a free port, does its worst beside a canary (a client whose every
answer is checked and timed), and says a line. Without --long the parts take about three minutes in
all; with it the fuzz alone takes half an hour. Ends with status 0 if nothing was wrong, lost or
late.
"""
import argparse
import collections
import contextlib
import random
import re
import resource
import socket
import sys
import tempfile
import time
import traceback

import histories
import served
import waits
from asking import DELETED, END, ERROR, NOT_FOUND, OUT_OF_MEMORY, STORED, ask, get, hit, put
from served import (
    OF_THE_PACKAGE, Client, NotServing, Trouble, comes_true, read_till_closed, read_to_end,
    reset)
from tries import Beside, Standstills

PROGRAM = served.PROGRAM
# The most seconds that six answers to the canary may take.
LATE = 1.0


def serve(*words, **named):
    return served.Server(PROGRAM, *words, **named)


def must(holds, why):
    if not holds:
        raise Trouble(why)


def must_store(client, key, value):
    answer = client.set(key, value)
    must(answer == b"STORED", f"a write of {key} was answered {answer!r}")


def sing(is_over, server):
    """What the canary does: when its rounds began and ended."""
    client, rounds = Client(server), []
    while not is_over.is_set():
        number, began = len(rounds), time.monotonic()
        key, value = b"canary-%d" % (number % 50), b"value-%d" % number
        for wanted, got in (
            (b"STORED", client.set(key, value)),
            (value, client.get(key)),
            (b"STORED", client.set(b"canary-n", b"%d" % number)),
            (b"%d" % (number + 7), client.ask(b"incr canary-n 7")),
            (b"DELETED", client.ask(b"delete " + key)),
            (None, client.get(key)),
        ):
            must(wanted == got, f"in round {number} wanted {wanted!r} and got {got!r}")
        rounds.append((began, time.monotonic()))
        time.sleep(0.005)
    return rounds


@contextlib.contextmanager
def canary(server):
    """A client beside the block that writes, reads, counts and deletes keys of its own. It gives a
    list to which is added what is said of its longest round. It has a process of its own: in a
    thread beside the bad peers it would wait for them too, and that isn't the server's doing."""
    words = []
    with Standstills() as standstills, Beside(sing, server) as singing:
        yield words
    rounds = singing.noted
    for began, ended in rounds:
        took, still = ended - began, standstills.seconds_in(began, ended)
        must(took - still <= LATE, f"a round of the canary took {took:.2f} s, and the machine stood"
             f" still for {still:.2f}")
    longest = max((ended - began for began, ended in rounds), default=0)
    words.append(f"canary: {len(rounds)} rounds, the longest {longest * 1000:.0f} ms")


GOOD = [it + b"\r\n" for it in (
    b"get fuzz-1", b"gets fuzz-1 fuzz-2 fuzz-3", b"set fuzz-1 0 0 5\r\nhello", b"quit", b"",
    b"add fuzz-2 7 100 3\r\nabc", b"replace fuzz-1 0 -1 1\r\nx", b"cas fuzz-1 0 0 2 9\r\nhi",
    b"delete fuzz-2", b"incr fuzz-3 18446744073709551615", b"decr fuzz-3 1 noreply",
    b"set fuzz-3 0 0 1 noreply\r\n5", b"get " + b"k" * 250, b"set fuzz-9 0 0 131073",
    b"set fuzz-9 0 0 4000\r\n" + b"z" * 4000, b"a" * 2047, b"version", b"flush_all 00",
    b"touch fuzz-1 100", b"touch fuzz-2 -1 noreply", b"append fuzz-1 0 0 2\r\n!!",
    b"prepend fuzz-3 9 9 1 noreply\r\n1", b"verbosity 1", b"cache_memlimit 64 noreply",
    b"gat 100 fuzz-1 fuzz-2", b"gats -1 fuzz-2 noreply",
)]


def bad_bytes(chance):
    """Random, mutated, cut and repeated requests. (None flushes: the canary keeps its keys.)"""
    kind = chance.random()
    if kind < 0.15:
        return bytes(chance.randrange(256) for _ in range(chance.randrange(1, 3000)))
    text = bytearray(b"".join(chance.choice(GOOD) for _ in range(chance.randrange(1, 12))))
    if kind < 0.7:
        for _ in range(chance.randrange(1, 6)):
            text[chance.randrange(len(text))] = chance.randrange(256)
    if kind < 0.4:
        del text[chance.randrange(len(text)) :]
    return bytes(text).replace(b"flush_all", b"flush_alt").replace(b"canary", b"canarx")


def pester(peer, chance):
    """Sends bad bytes, and reads some of what came. Gives the bytes sent, and whether the peer
    stays: the server may have closed it, and one in twenty goes by itself."""
    sent = 0
    try:
        with contextlib.suppress(BlockingIOError):
            sent = peer.send(bad_bytes(chance))
        with contextlib.suppress(BlockingIOError):
            return sent, bool(peer.recv(1 << 20)) and chance.random() >= 0.05
    except OSError:
        return sent, False
    return sent, True


def fuzz(is_long):
    seconds, most, chance = *((1800, 1000) if is_long else (60, 300)), random.Random(20260101)
    sent = opened = 0
    peers, settled, until = [], None, time.monotonic() + seconds
    with serve("--workers", "2") as server, canary(server) as sung:
        while time.monotonic() < until:
            while len(peers) < most:
                peers.append(server.connect())
                peers[-1].setblocking(False)
                opened += 1
            for peer in chance.sample(peers, 40):
                count, stays = pester(peer, chance)
                sent += count
                if not stays:
                    peers.remove(peer)
                    peer.close()
            if settled is None and time.monotonic() > until - seconds * 0.75:
                settled = server.kilobytes("VmRSS"), opened
            server.must_run()
        grown = server.kilobytes("VmRSS") - settled[0]
    # (a session that has gone leaves nothing)
    grew = (f"memory grew by {grown} kB with {opened - settled[1]} sessions in three quarters of"
            f" it; {sung[0]}")
    must(grown <= 16 * 1024, grew)
    return f"{sent // 1024} kB of bad bytes, {grew}"


def bad_peers(is_long):
    """Slow, silent, half-closed and reset peers, and many that come and go, beside the canary."""
    storm = 10000 if is_long else 2000
    with serve("--workers", "2") as server, canary(server) as sung:
        must_store(Client(server), b"big", b"b" * 8000)
        for _ in range(20):
            server.connect().sendall(b"get big\r\n" * 2000)
        for _ in range(100):
            server.connect()
        slow = server.connect()
        for byte in put(b"slow", b"abc") + b"get slow\r\n":
            slow.sendall(bytes([byte]))
            time.sleep(0.002)
        ask(slow, b"", STORED)
        for _ in range(storm):
            server.connect().close()
        for text in (b"set cut 0 0 100\r\nabc", b"get big\r\n" * 500, b"get"):
            for _ in range(100):
                peer = server.connect()
                peer.sendall(text)
                reset(peer)
        half_closed = [server.connect(30) for _ in range(20)]
        for peer in half_closed:
            peer.sendall(b"get big\r\n")
            peer.shutdown(socket.SHUT_WR)
        for peer in half_closed:
            got = read_to_end(peer)
            must(got == hit(b"big", b"b" * 8000), f"a half-closed peer got {len(got)} bytes")
        server.must_run()
    said = f"20 that read nothing, 100 silent, {storm} that came and went, 300 reset"
    return f"{said}, 20 half-closed; {sung[0]}"


def refused_session(name):
    """Requests, each with the answers that it may be given if one request for memory is refused."""
    value = b"v" * 480
    return [
        (put(name, value), [STORED]),
        (put(name + b"-n", b"7"), [STORED]),
        (b"incr %s-n 5\r\n" % name, [b"12\r\n", NOT_FOUND]),
        *[(b"get %s\r\n" % name, [hit(name, value), END])] * 50,
        (b"get %s %s-none %s\r\n" % (name, name, name), [hit(name, value, times=2), END]),
        (b"delete %s-n\r\n" % name, [DELETED, NOT_FOUND]),
        (b"nonsense\r\n", [ERROR]),
        (b"quit\r\n", [b""]),
    ]


def check_refused(session, got):
    """Whether the session was served whole, told that memory is out, or cut; else Trouble."""
    was_told = False
    for request, answers in session:
        allowed = [*answers, OUT_OF_MEMORY]
        whole = next(filter(got.startswith, allowed), None)
        if whole is None:
            must(any(it.startswith(got) for it in allowed),
                 f"{request[:20]!r} was answered {got[:60]!r}")
            return "a session cut"
        was_told |= whole != answers[0]
        got = got[len(whole) :]
    must(not got, f"after all answers came {got[:60]!r}")
    return "a session told" if was_told else "sessions whole"


def one_refusal(environment):
    found, words = [], "--sessions 2 --workers 1 --segments 8 --segment-size 4096".split()
    try:
        with serve(*words, environment=environment) as server:
            for session in map(refused_session, (b"a", b"b")):
                got = b""
                with contextlib.suppress(ConnectionError):
                    peer = server.connect(30)
                    peer.sendall(b"".join(request for request, _ in session))
                    got = read_till_closed(peer)
                found.append(check_refused(session, got))
            status, fault = server.process.wait(30), server.errors()
            # (it may have ended with a fault)
            server.stop()
    except NotServing as ended:
        status, fault = ended.status, ended.fault
    if status == 1 and re.fullmatch(r"fault: (out of memory|cannot start a thread)\n", fault):
        return "a fault at the start"
    # (a listener that still runs tells of a session that was cut)
    told = r"(closed (127\.0\.0\.1:\d+|an unknown peer): out of memory\n)?(serving has ended\n)?"
    is_told = re.fullmatch(told, fault)
    is_told = is_told and (not is_told[1] or "a session cut" in found)
    others = [it for it in found if it != "sessions whole"]
    if status != 0 or not is_told or len(others) > 1 and len(set(others)) == 1:
        raise Trouble(f"status {status}, standard error {fault!r}, {' and '.join(found)}")
    return [*others, "sessions whole"][0]


def refused_memory(_):
    """Each request for memory refused in turn: sessions may be cut or told so, none is wrong."""
    ways = collections.Counter()
    with tempfile.TemporaryDirectory() as folder:
        for refusal, environment in served.refusals("REFUSE_NTH", folder):
            try:
                ways[one_refusal(environment)] += 1
            except Trouble as trouble:
                raise Trouble(f"request {refusal} for memory refused: {trouble}") from None
    said = ", ".join(f"{count} with {way}" for way, count in sorted(ways.items()))
    return f"{refusal - 1} requests for memory refused in turn: {said}"


def eight_at_once(server, task):
    """What a task gives that runs eight times at once, each with its number and a client."""
    return served.together(lambda part=part: task(part, Client(server, 60)) for part in range(8))


def value_of(key, size):
    return (b"%d " % key * (size // 2 + 1))[:size]


def large_use(is_long):
    """The segments filled and overwritten three times by eight clients: what is found is what was
    written."""
    segments, size = (1024, 20000) if is_long else (64, 4000)
    writes = 3 * segments * 1048576 // size // 8

    def fill(part, client):
        chance, hits = random.Random(part), 0
        for number in range(writes):
            key = part * 10_000_000 + number
            must_store(client, b"large-%d" % key, value_of(key, size))
            if number % 4 == 0:
                old = part * 10_000_000 + chance.randrange(number + 1)
                value = client.get(b"large-%d" % old)
                must(value in (None, value_of(old, size)), f"key {old} has another value")
                hits += value is not None
        return hits

    words = "--workers", "3", "--segment-size", "1048576", "--segments", str(segments)
    with serve(*words) as server:
        found = sum(eight_at_once(server, fill))
        resident = server.kilobytes("VmRSS")
        # (a 256th of the segments for the marks, at most three slots of 4 bytes an item for the
        # index, and 32 MiB for merges, workers and program)
        most = segments * 1024 * (1 + 1 / 256 + 12 / size) + 32768
        must(resident <= most, f"{resident} kB of memory, and at most {most:.0f} were said")
        return (f"{8 * writes} values of {size} bytes into {segments} MiB, {found} old ones found "
                f"and right, {resident // 1024} MiB of memory")


def shared_counters(is_long):
    """Eight clients count, compare and swap, and add on shared keys: what was acknowledged is what
    is there."""
    # (so few rounds, with at most 200 bytes each, that nothing is evicted from the segments)
    seconds, most = (60, 60_000) if is_long else (10, 30_000)

    def count(part, client):
        """What was added, the cas numbers that won, and how many keys were added."""
        number, won, adds = 0, [], 0
        while time.monotonic() < until and number < most:
            number += 1
            client.ask(b"incr sum %d" % (part + 1))
            value, unique = client.get(b"swapped", b"gets")
            answer = client.set(b"swapped", b"%d" % (int(value) + 1), b"cas", b" %d" % unique)
            must(answer in (b"STORED", b"EXISTS"), f"cas answered {answer!r}")
            won += [unique] * (answer == b"STORED")
            adds += client.set(b"add-%d" % number, b"x", b"add") == b"STORED"
        return number * (part + 1), won, adds

    with serve("--workers", "3", "--segment-size", "1048576", "--segments", "128") as server:
        setup = Client(server)
        for key in (b"sum", b"swapped"):
            setup.set(key, b"0")
        until = time.monotonic() + seconds
        added, won, adds = zip(*eight_at_once(server, count))
        total, swaps = int(setup.get(b"sum")), int(setup.get(b"swapped"))
        added, won, adds = sum(added), sum(won, []), sum(adds)
        must(total == added, f"the counter is {total}, and {added} were acknowledged")
        must(swaps == len(won) == len(set(won)),
             f"{swaps} swaps, {len(won)} acknowledged, {len(set(won))} different cas numbers")
        there = sum(setup.get(b"add-%d" % number) is not None for number in range(1, adds + 2))
        must(there == adds, f"{adds} adds were acknowledged, and {there} keys are there")
        return f"a sum of {total}, {swaps} swaps, {adds} adds, all as acknowledged"


def press(server, chance):
    """A session that makes the server keep what it sent, or its answers, until it goes."""
    peer = server.connect(2)
    half = b"set half 0 0 131072\r\n" + b"h" * 131000
    # (the server may have closed it since memory is out, or reads no more of it)
    with contextlib.suppress(OSError):
        peer.sendall(b"get pressed\r\n" * 5000 if chance.random() < 0.5 else half)
    return peer


def pressed_session(server, number):
    """Whether a session was served to its end; a wrong answer is trouble, out of memory isn't."""
    key, value, got = b"key-%d" % number, b"value-%d" % number, b""
    with contextlib.suppress(OSError), server.connect(10) as peer:
        peer.sendall(put(key, value) + get(key) + b"quit\r\n")
        got = read_till_closed(peer)
    answers = [STORED + hit(key, value), STORED + OUT_OF_MEMORY, OUT_OF_MEMORY + END,
               OUT_OF_MEMORY * 2]
    must(any(it.startswith(got) for it in answers), f"a write and a read were answered {got!r}")
    return got == answers[0]


def little_memory(is_long):
    """A limit on the process's memory (`ulimit -v`) that many sessions run into: no wrong answer,
    and all are served once they have gone."""
    chance, spare, rounds = random.Random(3), 8 << 20, 10 if is_long else 2
    with serve("--workers", "2") as server:
        must_store(Client(server), b"pressed", b"p" * 8000)
        most = server.kilobytes("VmSize") * 1024 + spare
        resource.prlimit(server.process.pid, resource.RLIMIT_AS, (most, most))
        outcomes = []
        for _ in range(rounds):
            peers = [press(server, chance) for _ in range(150)]
            outcomes += [pressed_session(server, len(outcomes) + it) for it in range(50)]
            server.must_run()
            for peer in peers:
                peer.close()

            def is_served():
                outcomes.append(pressed_session(server, len(outcomes)))
                return outcomes[-1]

            must(comes_true(is_served, 30), "nobody is served once those with the memory have gone")
        return (f"{sum(outcomes)} of {len(outcomes)} sessions served beside 150 that held all "
                "memory, the others told so or closed; served again afterwards")


def history(is_long):
    """What eight clients were answered on shared keys falls, for each key, into one order that a
    cache would have; tools/histories.py."""
    with serve("--workers", "3", *OF_THE_PACKAGE, "--segments", "64") as server:
        operations = histories.record(server, 60 if is_long else 5)
    wrong, keys, count, at_once = histories.check(operations)
    must(not wrong, f"no order of a cache has what was answered on {', '.join(wrong[:5])}")
    # (the check itself: one answer made wrong, and no order is found)
    it = next(it for it in operations if it.verb == "incr" and it.answer[0].isdigit())
    changed = it._replace(answer=[str(int(it.answer[0]) + 1000000)])
    of_key = [changed if other is it else other for other in operations if other.key == it.key]
    must(histories.check(of_key)[0] == [it.key], "the check lets a wrong answer pass")
    return (f"{count} operations of 8 clients on {keys} keys, {at_once} of them beside another on"
            " their key: one order for each")


PARTS = {
    # What others wait beside clients that take much: tools/waits.py.
    "fairness": lambda _: waits.fairness(PROGRAM),
    "unread": lambda _: waits.unread(PROGRAM),
    **{it.__name__: it for it in (
        shared_counters, bad_peers, history, little_memory, refused_memory,
        large_use, fuzz)},
}


def main():
    parser = argparse.ArgumentParser(description="Hostile use of a served segcached.")
    parser.add_argument("--long", action="store_true")
    parser.add_argument("--only", default=",".join(PARTS))
    parser.add_argument("--program", default=PROGRAM)
    parser.add_argument("--late", type=float, default=LATE)
    words = parser.parse_args()
    globals().update(PROGRAM=words.program, LATE=words.late)
    _, hard = resource.getrlimit(resource.RLIMIT_NOFILE)
    resource.setrlimit(resource.RLIMIT_NOFILE, (min(hard, 8192), hard))
    failed = 0
    for name in words.only.split(","):
        began = time.monotonic()
        try:
            said = PARTS[name](words.long)
        except Exception as trouble:  # (whatever ended this part, the others are run)
            traceback.print_exc()
            failed += 1
            said = f"FAILED: {type(trouble).__name__} {trouble}"
        print(f"hostile {name}: {said} ({time.monotonic() - began:.0f} s)", flush=True)
    return 1 if failed else 0


if __name__ == "__main__":
    sys.exit(main())
