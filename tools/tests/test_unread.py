"""Large answers: what waits until there is memory, what they cost, and what is given back. Strict
sessions are answered whole, no client that reads is closed, and a lenient one that takes nothing
is, in the end. (test_store_rows.py has the limit of a lenient answer; tools/hostile.py has what
else others wait beside them.)"""
import os
import re
import select
import time

import replays
import tries
from asking import (
    LARGE, OUT_OF_MEMORY, STORED, ask, asks_for, get, hit, is_same, put, seconds_to, write_large)
from script_of import Script
from served import OF_THE_PACKAGE, TUNABLES, comes_true, read_exactly, together
from stats_of import numbers
from test_closings import OF_A_PEER, lines_of
from waits import Beside, waits_beside

# A request for 60 large values, and its answer of 7.9 MB.
MANY, MANY_HITS = get(b"large", 60), hit(b"large", LARGE, times=60)
# How many small requests a client sends a second, and the share of a processor that counts for
# nothing.
RATES, SLACK = (10, 100, 1000), 0.0003
SIZES = ["--workers", "1", "--segment-size", "1048576", "--segments", "64"]


def test_strict_outputs_above_64_mib_are_whole(program):
    script = Script(1)
    sessions = [script.open() for _ in range(24)]
    script.send(1, put(b"large", LARGE, words=b" noreply"))
    for it in sessions:
        script.send(it, MANY)
    words = "--segment-size 1048576 --segments 16 --accept 50"
    found = replays.printed(program, words, script.text().encode())
    given = MANY_HITS.hex().encode()
    assert is_same(found, b"".join(b"0 %d %b\n" % (it, given) for it in sessions))


def comes_whole(stream, count, rate, most):
    """Whether so many bytes come that are read at this rate, in this many seconds."""
    began, read = time.monotonic(), 0
    while read < count and time.monotonic() < began + most:
        time.sleep(0.02)
        due = min(int(rate * (time.monotonic() - began)), count) - read
        if len(read_exactly(stream, due)) < due:
            break
        read += due
    return read == count


def test_clients_that_read_steadily_are_answered_whole(serve, storage):
    server = serve("--lenient", *storage, *SIZES)
    write_large(server)
    streams = [asks_for(server, 60) for _ in range(30)]
    assert all(together(lambda it=it: comes_whole(it, len(MANY_HITS), 4e6, 60) for it in streams))
    assert numbers(server.connect())["closed_unread"] == 0


def waits_until_answered(small, large, seconds):
    """How long the one waited for replies until the other had one, or for so many seconds."""
    waits, until = [seconds_to(small)], time.monotonic() + seconds
    while not select.select([large], [], [], 0.01)[0] and time.monotonic() < until:
        waits.append(seconds_to(small))
    return waits


def beside_stalled(server, count, keys):
    """So many clients that take nothing, one that asks for little, and one that waits."""
    write_large(server)
    stalled = [asks_for(server, keys, 4096) for _ in range(count)]
    small, large = server.connect(), server.connect(30)
    time.sleep(1)
    ask(large, b"get large\r\n", hit(b"large", LARGE))
    large.sendall(MANY)
    return stalled, small, large


def test_a_lenient_client_that_takes_nothing_for_ten_seconds_is_closed_for_one_that_waits(
        serve, storage):
    server, before = serve("--lenient", *storage, *SIZES), time.monotonic()
    _, small, large = beside_stalled(server, 16, 60)
    start = time.monotonic()
    waits = waits_until_answered(small, large, 40)
    assert time.monotonic() - before > 9 and time.monotonic() - start < 30
    assert is_same(read_exactly(large, len(MANY_HITS)), MANY_HITS)
    assert sorted(waits)[len(waits) * 9 // 10] < 0.05
    found = numbers(small)
    assert 1 <= found["closed_unread"] <= 16
    assert found["curr_connections"] == 18 - found["closed_unread"]
    lines = lines_of(server)
    assert lines and all(re.fullmatch(f"{OF_A_PEER}stalled(; .*)?", it) for it in lines)


def test_a_strict_client_that_takes_nothing_is_not_closed(serve):
    """One that waits for memory is answered once the others are gone; what is small, before."""
    stalled, small, large = beside_stalled(serve(*SIZES), 3, 255)
    start = time.monotonic()
    waits_until_answered(small, large, 14)
    assert time.monotonic() - start >= 14
    for it in stalled:
        it.close()
    assert is_same(read_exactly(large, len(MANY_HITS)), MANY_HITS)


def least_shares(servers, rate, seconds=6):
    """The least shares of a processor that servers take in a second of so many requests."""
    streams, shares = [it.connect() for it in servers], []
    for _ in range(seconds):
        before, start = [it.processor_seconds() for it in servers], time.monotonic()
        for count in range(rate):
            # (who is asked second finds the processors warm)
            for it in streams if count % 2 else streams[::-1]:
                seconds_to(it)
            time.sleep(max(0, start + (count + 1) / rate - time.monotonic()))
        took = time.monotonic() - start
        shares.append([(it.processor_seconds() - at) / took for it, at in zip(servers, before)])
    return list(map(min, zip(*shares)))


def test_a_client_that_takes_nothing_costs_no_processor(serve, storage):
    """While a worker has output that a client doesn't take it waits for events as without it. (When
    each event began 8,192 polls, 10, 100 and 1,000 requests a second took 7, 45 and 90 hundredths
    of a processor.)"""
    pairs = {rate: [serve("--lenient", *storage, *SIZES) for _ in range(2)] for rate in RATES}
    for without, beside in pairs.values():
        write_large(without)
        write_large(beside)
        asks_for(beside, 60, 4096)
    time.sleep(0.5)

    def attempt():
        found = together(lambda rate=rate: least_shares(pairs[rate], rate) for rate in RATES)
        is_fine = all(beside <= 1.2 * without + SLACK for without, beside in found)
        return is_fine, f"shares of a processor, without and beside it: {found}"

    tries.in_two_of_three(attempt)


# How long the others may wait on a quiet machine, and how long they wait there if nobody asks for
# much, in seconds; and on a busy machine, so many times as long as if nobody asks for much.
MOST_WAIT, QUIET, ROOM = 0.060, 0.015, 8


def test_a_get_of_sixteen_thousand_large_values_costs_little(serve):
    """Of 1,988 MiB and 7.9 seconds, if all hits were written. (memcached's others wait 45 ms.)"""
    server = serve("--lenient", *SIZES[2:])
    stream = server.connect()
    ask(stream, put(b"k", b"k" * 130_000), STORED)

    def longest_wait(times):
        """Of others, beside so many of these."""
        with Beside(waits_beside, server, False) as waits:
            time.sleep(0.1)
            for _ in range(times):
                ask(stream, get(b"k", 16_000), OUT_OF_MEMORY)
            time.sleep(0.1)
        return waits.noted[1]

    def attempt():
        quiet, waited = longest_wait(0), longest_wait(5)
        return waited <= (MOST_WAIT if quiet <= QUIET else ROOM * quiet), (quiet, waited)

    tries.in_two_of_three(attempt)
    # (one of its 64 segments is resident)
    assert server.kilobytes("VmHWM") < 100 * 1024


def test_a_burst_of_large_replies_is_given_back(serve):
    """With the package's settings of the C library: 60 read three replies of 7 MB at once."""
    words, value = ["--workers", "2", "--segments", "64", *OF_THE_PACKAGE], b"v" * 1_000_000
    server = serve(*words, environment={**os.environ, "GLIBC_TUNABLES": TUNABLES})
    keys = [b"k%d" % number for number in range(7)]
    for key in keys:
        ask(server.connect(), put(key, value), STORED)
    before = server.kilobytes("VmRSS")
    length = 3 * (7 * len(hit(keys[0], value)) - 6 * len(b"END\r\n"))

    def read_all():
        with server.connect(120) as stream:
            stream.sendall(3 * (b"get %b\r\n" % b" ".join(keys)))
            assert len(read_exactly(stream, length)) == length

    together([read_all] * 60)
    assert comes_true(lambda: server.kilobytes("VmRSS") - before <= 48 * 1024, 60)
