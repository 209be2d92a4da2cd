"""`stats` of a served program: counts of all connections beside those that clients count
themselves, gauges beside the clock, the machine and what was done, and what monitors read of it."""
import contextlib
import os
import re
import resource
import struct
import time

import memcache
import pylibmc
import pytest
import served
import tries
from asking import (
    END, LARGE, MISS, STORED, ask, asks_for, flood, get, hit, opened, put, seconds_to, wire,
    write_large)
from model import COUNTED
from pymemcache.client.base import Client
from replays import given
from served import comes_true, ended, read_to_end
from stats_of import by_name, numbers, told, wait_for

MIB = 1 << 20
# What monitors of Debian need of memcached's fields.
NEEDED = {*COUNTED, *"""pid uptime time version pointer_size rusage_user rusage_system
    curr_connections total_connections rejected_connections listen_disabled_num threads bytes_read
    bytes_written limit_maxbytes bytes curr_items evictions reclaimed""".split()}


# ---- counts

# What a client does with keys of its own, before it asks for a cas number, and behind that.
BEFORE = (
    "set A 0 0 1|5|set A 0 0 1 noreply|5|add A 0 0 1 noreply|z|cas A 0 0 1 1000000 noreply|z|"
    "cas B 0 0 1 1 noreply|z|replace B 0 0 1 noreply|z|append A 0 0 1 noreply|0|"
    "prepend B 0 0 1 noreply|z|get A B A|incr A 1 noreply|incr B 1 noreply|decr A 1 noreply|"
    "decr B 1 noreply|touch A 60 noreply|touch B 60 noreply|gat 60 B A B|gats 60 B|")
BEHIND = "cas A 0 0 1 {} noreply|x|delete A noreply|delete A noreply|"
# What is counted of these, by hand.
COUNTS = {"cmd_get": 4, "get_hits": 3, "get_misses": 1, "cmd_set": 9, "total_items": 4,
          "cas_hits": 1, "cas_misses": 1, "cas_badval": 1, "incr_hits": 1, "incr_misses": 1,
          "decr_hits": 1, "decr_misses": 1, "delete_hits": 1, "delete_misses": 1, "cmd_touch": 6,
          "touch_hits": 2, "touch_misses": 4, "cmd_flush": 0, "out_of_memory": 0}
CLIENTS, TURNS = 6, 60


def run(server, number):
    client, names = served.Client(server), {ord("A"): f"a{number}", ord("B"): f"b{number}"}
    shown = f"VALUE a{number} 0 2|50|"
    for _ in range(TURNS):
        answer = f"STORED|{shown}{shown}END|{shown}END|END|"
        ask(client.stream, BEFORE.translate(names), answer)
        _, cas = client.get(b"a%d" % number, b"gets")
        client.stream.sendall(wire(BEHIND.format(cas).translate(names)))
    # (what isn't answered has come before this is)
    ask(client.stream, MISS, END)


@pytest.mark.parametrize("workers", ["1", "3"])
def test_counts_are_those_of_all_connections(serve, workers, storage):
    server = serve("--lenient", "--workers", workers, "--segment-size", "1048576", *storage)
    served.together(lambda it=it: run(server, it) for it in range(CLIENTS))
    stream, misses = server.connect(), CLIENTS + 1
    ask(stream, "flush_all noreply|get none|", END)
    wanted = {name: CLIENTS * TURNS * count for name, count in COUNTS.items()}
    wanted |= {"cmd_flush": 1, "cmd_get": wanted["cmd_get"] + misses,
               "get_misses": wanted["get_misses"] + misses, "threads": int(workers),
               "curr_items": 0}
    assert COUNTS.keys() == set(COUNTED) and wanted.items() <= numbers(stream).items()


def test_counts_stand_first_in_their_order(program):
    """The value of A was written five times."""
    asked = f"{BEFORE}gets A|{BEHIND.format(5)}flush_all noreply|stats|"
    shown = "VALUE a 0 2|50|"
    answer = f"STORED|{shown}{shown}END|{shown}END|END|VALUE a 0 2 5|50|END|"
    counts = COUNTS | {"cmd_flush": 1}
    wanted = wire(answer + "".join(f"STAT {it} {counts[it]}|" for it in COUNTED) + "STAT version ")
    got = given(program, "--lenient", asked.translate({ord("A"): "a", ord("B"): "b"}))
    assert got[: len(wanted)] == wanted


def test_the_longest_merge_is_kept_and_what_is_evicted_counted(serve):
    """Merges of many small items take longer than those of few large ones, which come later."""
    stream, longest = serve("--lenient", "--segments", "8").connect(), [0]
    for turn in range(60):
        size, count = (10, 500) if turn < 40 else (6000, 20)
        keys = (b"key-%d-%d" % (turn, at) for at in range(count))
        sets = b"".join(put(it, b"v" * size, words=b" noreply") for it in keys)
        ask(stream, sets + MISS, END)
        found = numbers(stream)
        longest.append(found["merge_us_max"])
    assert found["merges"] > 10 and longest == sorted(longest)
    assert 0 < longest[-1] < 1_000_000
    assert found["curr_items"] + found["evictions"] == 40 * 500 + 20 * 20


def test_connections_that_are_set_aside_are_counted(serve):
    """A worker has 64 requests on their way at most."""
    stream = serve("--lenient", "--workers", "1").connect()
    ask(stream, MISS * 50, END * 50)
    assert numbers(stream)["conn_yields"] == 0
    ask(stream, MISS * 10_000, END * 10_000)
    assert 100 <= numbers(stream)["conn_yields"] < 10_000


def block(verb, size, words=""):
    return f"{verb} a 0 0 {size}{words}|{'v' * size}|"


# Gauges, what each counts, and what sessions send, between which `~` stands. An item has 24 bytes
# beside key and value, and 8,192 at most.
GAUGES = [
    ("unknown_commands", 2, "nonsense|ms a 1|get|incr a|"),
    ("bad_lines", 2, "nonsense|ms a 1|get|incr a|"),
    ("closed_malformed", 2, "set a 0 0 no|~set a 0 0 1|too long|"),
    ("closed_binary", 1, "\x80binary"),
    # (not what is stored, what isn't for another cause, and what is no storage command)
    ("store_too_large", 1, block("set", 8167) + block("set", 8167, " noreply") + block("add", 1)
     + block("cas", 1, " 0") + f"append b 0 0 1|x|incr b 1|{'x' * 9000}|" + block("set", 8168)),
    # (in each way, as a block, and as one that is dropped as it comes)
    *(("store_too_large", 1, block("set", 8167) + block(*it)) for it in (
        ("add", 8168), ("replace", 8168), ("set", 8168, " noreply"), ("set", 140_000),
        ("set", 140_000, " noreply"), ("append", 1), ("prepend", 1, " noreply"))),
]


@pytest.mark.parametrize("gauge, count, sent", GAUGES, ids=lambda it: str(it)[:20])
def test_a_gauge_counts(serve, gauge, count, sent):
    server = serve("--lenient")
    for text in sent.split("~"):
        with server.connect() as stream:
            stream.sendall(wire(text + "quit|"))
            read_to_end(stream)
    wait_for(server.connect(), **{gauge: count})


def test_lookups_of_expired_items_are_counted(program):
    """Those of items that are alive and of keys that never had one are not."""
    sent = "set a 0 1 1|x|set b 0 0 1|x|get b c|get a|get a b|stats|"
    answers = given(program, "--lenient --exact-ttls --now 1000 --tick 2", sent)
    assert by_name(answers[answers.index(b"STAT ") :])["get_expired"] == "2"


def test_those_that_say_nothing_are_told(serve):
    """(Who asks is closed, too, where this process stands still for a second.)"""
    def attempt():
        server = serve("--lenient", "--workers", "2", "--idle", "1")
        for stream in [server.connect() for _ in range(2)]:
            assert read_to_end(stream) == b""
        with contextlib.suppress(OSError, EOFError), server.connect() as stream:
            return comes_true(lambda: told(stream)["idle_kicks"] == "2"), told(stream)
        return False, "who asked was closed"

    tries.in_two_of_three(attempt)


# ---- the process

def test_clock_and_machine_are_told(serve):
    started = time.monotonic()
    stream = serve("--lenient").connect()
    told(stream)
    since = time.monotonic()
    for pause in (0, 1.2, 1.1):
        time.sleep(pause)
        earliest, least = int(time.time()), int(time.monotonic() - since)
        found = numbers(stream)
        # (the program reads the system's clock once, and then counts on by another clock)
        assert earliest - 1 <= found["time"] <= time.time() + 1
        assert least <= found["uptime"] <= time.monotonic() - started
        assert found["pointer_size"] == 8 * struct.calcsize("P")


def test_each_thread_has_a_name_of_its_own(serve):
    named = {"storage", "listener", *(f"worker {number}" for number in range(8))}
    server = serve("--workers", "8")
    ask(server.connect(), MISS, END)
    assert comes_true(lambda: named < server.threads().keys())
    # (the first thread has the program's name)
    assert len(os.listdir(f"/proc/{server.process.pid}/task")) == len(named) + 1


def test_processor_times_are_told(serve):
    """They are at most 1.1 seconds old, so two seconds after the last work they are those of then,
    which the system tells in user mode and in the system."""
    server = serve("--lenient")
    stream = server.connect()

    def times():
        words = served.read(f"/proc/{server.process.pid}/stat").rpartition(")")[2].split()
        return [int(it) / os.sysconf("SC_CLK_TCK") for it in words[11:13]]

    def has_worked():
        ask(stream, (b"get" + b" k" * 15_000 + b"\r\n") * 200, END * 200)
        return sum(times()) >= 0.1

    assert comes_true(has_worked, 60)
    time.sleep(2)
    found = [told(stream)[name] for name in ("rusage_user", "rusage_system")]
    assert all(re.fullmatch(r"[0-9]+\.[0-9]{6}", it) for it in found)
    assert [float(it) for it in found] == pytest.approx(times(), abs=0.05)


# ---- busy times

def busy_shares(stream):
    """The least and the most share of the next second in which each thread can have been busy."""
    asked = time.monotonic()
    first = numbers(stream)
    began = time.monotonic()
    time.sleep(1)
    ended = time.monotonic()
    second = numbers(stream)
    longest, shortest = time.monotonic() - asked, ended - began
    spent = {it: second[it] - first[it] for it in first if "_busy_us" in it}
    assert min(spent.values()) >= 0
    return {it: (n / 1e6 / longest, n / 1e6 / shortest) for it, n in spent.items()}


# What one client sends again and again, if anything, and what is so of the least and the most
# shares of storage and both workers, of which one is asked for them. (Who waits does so for nine
# tenths. A worker answers lines alone that are none, and a busy machine may keep the client from
# sending enough of them; storage looks each key up.)
BUSY = {
    "a worker": (b"x\r\n" * 100_000, lambda storage, quiet, busy:
                 storage[1] < 0.1 and quiet[1] < 0.1 and busy[0] >= 0.5),
    "storage": (get(b"k", 200) * 1000, lambda storage, quiet, busy:
                quiet[1] < 0.1 and storage[0] >= 0.2),
    "none": (b"", lambda *shares: all(most < 0.1 for _, most in shares)),
}


@pytest.mark.parametrize("requests, is_fine", BUSY.values(), ids=BUSY)
def test_a_busy_thread_is_told_so_and_one_that_waits_is_not(serve, requests, is_fine):
    def attempt():
        server = serve("--lenient", "--workers", "2")
        with server.connect() as stream, server.connect() as other:
            wait_for(stream, curr_connections_0=1, curr_connections_1=1)
            if requests:
                flood(other, requests)
            shares = busy_shares(stream)
        assert shares.keys() == {"storage_busy_us", "worker_busy_us_0", "worker_busy_us_1"}
        found = shares.pop("storage_busy_us"), *sorted(shares.values())
        return is_fine(*found), found

    tries.in_two_of_three(attempt)


def test_storage_is_busy_as_long_as_it_executes(serve, storage):
    """Each request looks up sixteen thousand keys, and comes when all threads wait."""
    stream = serve("--lenient", "--workers", "1", *storage).connect()
    before, took = numbers(stream)["storage_busy_us"], []
    for _ in range(100):
        time.sleep(0.003)
        took.append(seconds_to(stream, get(b"a", 16_000)))
    busy = (numbers(stream)["storage_busy_us"] - before) / 1e6
    assert 2 * sorted(took)[50] < busy <= sum(took) * 1.2, (busy, took)


# ---- connections, and what is read and written

def test_connections_are_told(serve):
    server = serve("--lenient", "--workers", "2")
    stream, *others = opened(server, 7, MISS, END)
    found = wait_for(stream, curr_connections=7, total_connections=7, max_connections=2 * 1024,
                     accepting_conns=1)
    assert int(found["curr_connections_0"]) + int(found["curr_connections_1"]) == 7
    assert "curr_connections_2" not in found
    assert int(found["pid"]) == server.process.pid and found["requests_in_flight"] == "1"
    for it in others[:4]:
        it.close()
    wait_for(stream, curr_connections=3, total_connections=7, rejected_connections=0,
             listen_disabled_num=0, connections_waiting=0, idle_kicks=0)


def test_failed_accepts_are_no_rejected_connections(serve):
    """A process of 64 descriptors can't accept 150 connections, which wait in the system's queue.
    The others go on, and new ones are served once there are some."""
    server = serve("--lenient", limits={resource.RLIMIT_NOFILE: 64})
    stream, *others = opened(server, 1, MISS, END) + opened(server, 150)
    comes_true(lambda: server.descriptors() >= 64)
    # (the next tries come a hundredth of a second after each other)
    time.sleep(0.2)
    found = numbers(stream)
    assert 30 < found["curr_connections"] < 64
    assert (found["rejected_connections"], found["listen_disabled_num"]) == (0, 0)
    for it in others:
        it.close()
    opened(server, 1, MISS, END)
    server.process.kill()
    server.was_stopped = True
    assert "connections can't be accepted" in server.errors()


def test_bytes_are_told(serve):
    sent = put(b"a", b"v" * 100_000) + MISS
    server = serve("--lenient", "--segment-size", "1048576")
    stream = server.connect()
    ask(stream, sent, STORED + END)
    found = numbers(stream)
    # (the answer to this `stats` isn't written yet)
    read, written = len(sent + b"stats\r\n"), len(STORED + END)
    assert (found["bytes_read"], found["bytes_written"]) == (read, written)
    assert (found["input_bytes"], found["bytes"]) == (0, 100_032)
    with server.connect(receive_buffer=65536) as slow:
        slow.sendall(b"get a\r\n" * 120 + b"get unended")
        assert comes_true(lambda: numbers(stream)["output_bytes"] > 1 << 20)
        assert numbers(stream)["output_bytes"] < 12_000_000
    wait_for(stream, output_bytes=0, input_bytes=0, curr_connections=1)
    opened(server, 1, b"get unended")
    wait_for(stream, input_bytes=11)


def test_a_worker_that_never_waits_is_told(serve):
    """It always has output that its client doesn't read. From another client come lines, each wrong
    at its last key, faster than it reads them: so it is never idle either, and storage has nothing
    to do for it."""
    lines = (b"get " + b"k " * 800 + b"k" * 251 + b"\r\n") * 500
    server = serve("--lenient", "--workers", "2", "--segment-size", "1048576")
    stream, flooding = opened(server, 2)
    wait_for(stream, curr_connections_0=1, curr_connections_1=1)
    ask(stream, put(b"a", b"v" * 100_000), STORED)
    for _ in range(2):
        server.connect(receive_buffer=65536).sendall(b"get a\r\n" * 120)
    wait_for(stream, curr_connections_0=2, curr_connections_1=2)
    assert comes_true(lambda: numbers(stream)["output_bytes"] > 2 << 20)

    flood(flooding, lines)
    time.sleep(0.3)
    first = numbers(stream)["bytes_read"]
    time.sleep(0.5)
    # (the other connections read a few bytes)
    assert numbers(stream)["bytes_read"] - first > 10_000


@pytest.mark.parametrize("budget", [None, 16 * MIB])
def test_a_worker_keeps_as_much_output_as_it_is_told(serve, budget):
    """Each of forty clients asks for 7.9 MB and takes none, so its socket takes some four MB. What
    a key takes is known from a client before them."""
    words, budget = ["--output-memory", str(budget)] if budget else [], budget or 64 * MIB
    server = serve("--lenient", "--workers", "1", "--segment-size", "1048576", *words)
    write_large(server)
    stream = server.connect()
    ask(stream, get(b"large", 60), hit(b"large", LARGE, times=60))
    for _ in range(40):
        asks_for(server, 60)
    most, until = 0, time.monotonic() + 5
    while time.monotonic() < until:
        most = max(most, numbers(stream)["output_bytes"])
        time.sleep(0.05)
    assert budget // 4 < most <= budget + 8_000_000


# ---- settings, and what reads all these

def test_settings_are_told(serve):
    """By the names of memcached 1.6, in `stats settings` as in `stats`."""
    server = serve(*"--lenient --workers 2 --connections 100 --segment-size 1048576".split())
    wanted = {"maxbytes": str(64 * MIB), "maxconns": "200", "num_threads": "2", "threads": "2",
              "tcpport": str(server.port), "item_size_max": "131072", "cas_enabled": "yes"}
    stream = server.connect()
    found = wait_for(stream, maxconns=200, segments=64, segment_size=MIB, limit_maxbytes=64 * MIB)
    for line in (b"stats\r\n", b"stats settings\r\n", b"stats settings  \r\n"):
        assert wanted.items() <= told(stream, line).items()
    ask(stream, "version|", f"VERSION {found['version']}|")


def test_clients_and_memcstat_read_what_monitors_need(serve):
    server = serve("--lenient", "--workers", "2")
    ask(server.connect(), "set a 0 0 1|x|get a b|", "STORED|VALUE a 0 1|x|END|")
    address = f"127.0.0.1:{server.port}"
    by_pymemcache = Client(address, timeout=20).stats()
    (_, by_memcache), = memcache.Client([address]).get_stats()
    (_, by_pylibmc), = pylibmc.Client([address]).get_stats()
    _, said, _ = ended("memcstat", f"--servers={address}", text=True)
    by_memcstat = dict(it.strip().split(": ") for it in said.splitlines() if ": " in it)
    # (libmemcached shows some of them alone)
    for found, needed in ((by_pymemcache, NEEDED), (by_memcache, NEEDED), (by_pylibmc, set()),
                          (by_memcstat, set())):
        found = {it if isinstance(it, str) else it.decode(): found[it] for it in found}
        assert needed <= found.keys()
        counts = ("cmd_get", "get_hits", "get_misses", "curr_items", "total_items")
        assert [int(found[it]) for it in counts] == [2, 1, 1, 1, 1]
