"""How long items live: with `--exact-ttls` to the second, by the clock of a replay, and in a served
program, whose clock doesn't jump with the machine's.

A row is worked out from the TTL alone: at a moment and a TTL later the item is gone, and until a
second before it is there. (The waits are in two tests, of five and ten seconds.)
"""
import itertools
import os
import time

import pytest
from asking import END, MISS, NOT_FOUND, STORED, ask, get, hit, put
from replays import must_answer
from served import Client, together, with_faketime
from test_store_rows import IN_PLACE, LENIENT, SMALL, found, key, must_answer_at

EXACT = "--exact-ttls"
LEAST_READ = "--evict least-read"
BY_ALL_WORDS = pytest.mark.parametrize("words", [
    "", LEAST_READ, f"{LENIENT} {IN_PLACE}", f"{LENIENT} {IN_PLACE} {LEAST_READ}"])


@BY_ALL_WORDS
@pytest.mark.parametrize("ttl", [1, 2, 5, 7, 8, 10, 15, 16, 30, 60, 600, 2047, 2048, 5000])
def test_an_item_is_there_until_the_second_before_its_ttl_ends(program, ttl, words):
    """Another item of the same TTL opens the segment five seconds before."""
    shown = f", {999 + ttl} hit 2" * (ttl > 1)
    rows = f"995 other {ttl}, 1000 add {ttl}{shown}, {1000 + ttl} miss"
    must_answer_at(program, f"{EXACT} {words}", rows)


def test_a_ttl_above_97_days_is_kept(program):
    """Twelve million seconds are 139 days. Each request comes after a million more."""
    shown = [("get a|", "VALUE a 0 1|x|END|")] * 11
    rows = [("set a 0 1012000000 1|x|", STORED), *shown, ("get a|", END)]
    must_answer(program, f"--now 1000000000 --tick 1000000 {EXACT}", rows)


@pytest.mark.parametrize("now, seconds", [(2**48 - 21, 20), (2**48 - 20, 16)], ids=["below", "at"])
def test_deadlines_from_2_to_the_48th_on_are_rounded_down(program, now, seconds):
    rows = f"{now} set 20, {now + seconds - 1} hit 1, {now + seconds} miss"
    must_answer_at(program, EXACT, rows)


@BY_ALL_WORDS
@pytest.mark.parametrize("ttl", [5, 60])
def test_a_counter_that_counts_each_second_ends_with_its_ttl(program, ttl, words):
    """As limits do it: it is counted at each request, and added where there is none."""
    rows = []
    for moment in range(1000, 1000 + 4 * (ttl + 1), ttl + 1):
        rows += [(moment, "incr n 1|", NOT_FOUND), (moment + 1, f"add n 0 {ttl} 1|1|", STORED)]
        rows += [(moment + second, "incr n 1|", f"{second}|") for second in range(2, ttl + 1)]
    must_answer_at(program, f"{EXACT} {words}", rows)


EACH_MINUTE = ", ".join(f"{1000 + 60 * minute} touch 1440" for minute in range(1, 41))
EACH_SECOND = ", ".join(f"{1000 + second} add-none 15" for second in range(1, 15))
LIVES = {
    "a session that is touched each minute": f"1000 set 1440, {EACH_MINUTE}, 4839 hit 1, 4840 miss",
    # (so php-memcache locks a session)
    "a lock": f"993 other 15, 1000 add 15, {EACH_SECOND}, 1015 add 15",
    "a touch for longer": "1000 set 60, 1001 touch 60, 1060 hit 1, 1061 miss",
    "a touch for less": "1000 set 60, 1001 touch 9, 1009 hit 1, 1010 miss",
    "a touch for what there is": "1000 set 60, 1001 touch 59, 1059 hit 1, 1060 miss",
    "a write over it": "1000 set 60, 1030 set 60, 1089 hit 2, 1090 miss",
    "a write over it for less": "1000 set 60, 1030 set 5, 1034 hit 2, 1035 miss",
    "a write over it in the last second": "1000 set 60, 1059 set 60, 1118 hit 2, 1119 miss",
    "a touch in the last second": "1000 set 60, 1059 touch 7, 1065 hit 1, 1066 miss",
    "none, and then some":
        "1000 set 60, 1001 touch 0, 1100 hit 1, 1101 touch 8, 1108 hit 1, 1109 miss",
}


@BY_ALL_WORDS
@pytest.mark.parametrize("rows", LIVES.values(), ids=LIVES)
def test_a_ttl_counts_from_the_moment_at_which_it_is_asked_for(program, rows, words):
    if "touch" in rows and LENIENT not in words:
        words += f" {LENIENT}"
    must_answer_at(program, f"{EXACT} {words}", rows)


LARGE = b"v" * 484


@pytest.mark.parametrize("words", ["", LEAST_READ])
def test_items_that_are_written_minutes_apart_share_a_segment(program, words):
    """One of them is written each ten seconds, so each would be in another segment if one took
    items for eight seconds only. The other seven segments have eight lasting items each."""
    timed, lasting = range(101, 151), range(1, 57)
    rows = [(1000 + 10 * turn, put(key(it), b"x", exptime=600), STORED)
            for turn, it in enumerate(timed)]
    rows += [(1500, put(key(it), LARGE), STORED) for it in lasting]
    rows += [(1500, *found(it, b"x")) for it in timed]
    rows += [(1500, *found(it, LARGE)) for it in lasting]
    must_answer_at(program, f"{SMALL} {EXACT} {words}", rows)


@pytest.mark.parametrize("moment, is_freed", [
    (3048, False), (3100, False), (3170, False), (3171, True)])
def test_a_segment_is_freed_when_the_last_of_its_items_has_ended(program, moment, is_freed):
    """Both small items are of one bucket, and stand in one segment; they end at 3,048 and 3,171.
    Seven segments have eight lasting items each. One more finds the first segment free, or has the
    first four of the others merged, of which the newest stay."""
    rows = [(1000, "set a 0 2048 1|x|", STORED), (1001, "set b 0 2170 1|x|", STORED)]
    rows += [(1001 + number, put(key(number), LARGE), STORED) for number in range(1, 57)]
    rows += [(moment, put(key(57), LARGE), STORED), (moment + 1, "get a|", END)]
    rows += [(moment + 2, "get b|", END if moment + 2 >= 3171 else hit(b"b", b"x"))]
    rows += [(moment + 2 + it, *found(it, LARGE if is_freed or it > 24 else None))
             for it in range(1, 58)]
    must_answer_at(program, f"{SMALL} {EXACT}", rows)


def test_a_merge_keeps_each_deadline(program):
    """64 items fill eight segments. The next write has the first two merged, and the newest of
    theirs stay, those of 9 to 16. Each item ends at a second of its own."""
    numbers = range(1, 66)
    rows = [(1087 + it, put(key(it), LARGE, exptime=2060 + it), STORED) for it in numbers]
    rows += [(1152 + it, *found(it, LARGE if it > 8 else None)) for it in numbers]
    for it in (9, 10, 16, 17, 65):
        rows += [(3146 + 2 * it, *found(it, LARGE)), (3147 + 2 * it, *found(it, None))]
    must_answer_at(program, f"{SMALL} {EXACT} {LEAST_READ}", rows)


# ---- of a served program

# When the clocks of served programs begin, in Unix time.
AT = 2_000_000_000


def stepped(serve, folder, *words, **variables):
    """A server of one worker, and what sets its clocks on by seconds beside those that pass."""
    file, offset = f"{folder}/{time.monotonic_ns()}", AT - time.time()

    def step(seconds):
        # (in one step, so that no reading finds half of it)
        with open(f"{file}.new", "w", encoding="ascii") as new:
            new.write(f"{offset + seconds:+.6f}\n")
        os.replace(f"{file}.new", file)

    step(0)
    faked = with_faketime(FAKETIME_TIMESTAMP_FILE=file, FAKETIME_NO_CACHE="1", **variables)
    return serve("--workers", "1", *words, environment=faked), step


def must_live(client, began, key, second, there_before, gone_from):
    """Whether an item is there in this second. (Where this process stood still an answer may come
    too late to show a hit.)"""
    value, passed = client.get(key), time.monotonic() - began
    assert value == b"x" or value is None and second + passed >= there_before, (key, second)
    assert value is None or second < gone_from, (key, second)


@pytest.mark.parametrize("ttl", [1, 2, 5, 8, 15, 30, 60, 600])
def test_items_of_a_served_program_live_as_long_less_at_most_a_second(serve, tmp_path, ttl):
    began, phases = time.monotonic(), {b"k%d" % at: at / 8 for at in range(8)}
    server, step = stepped(serve, tmp_path, EXACT)
    client = Client(server)
    for name, phase in phases.items():
        step(phase)
        assert client.set(name, b"x", exptime=ttl) == b"STORED"
    for second, (name, phase) in itertools.product(range(1, ttl + 1), phases.items()):
        step(second + phase)
        must_live(client, began, name, second, ttl - 1, ttl)


@pytest.mark.parametrize("words", [EXACT, f"{EXACT} {IN_PLACE} {LEAST_READ}"])
def test_a_limit_of_100_a_minute_lets_100_of_300_pass(serve, tmp_path, words):
    """It counts each request in a counter of a minute, which it adds where there is none."""
    server, step = stepped(serve, tmp_path, *words.split())
    client, passed, began = Client(server), 0, time.monotonic()
    for number in range(300):
        step(number * 57 // 300)
        count = client.ask(b"incr n 1")
        if count == b"NOT_FOUND":
            assert client.set(b"n", b"1", b"add", exptime=60) == b"STORED"
            count = b"1"
        passed += int(count) <= 100
    assert passed == 100 or passed > 100 and time.monotonic() - began > 2


DAY, HOUR = 86_400, 3_600

# By keys the exptime, for how many seconds an item is there, and from which second on it is gone. A
# TTL is rounded down, here to 8 or 56 seconds, and one of up to 7 ends with the second.
ROUNDED = {
    b"of-3-unix": (AT + 3, 1, 3), b"of-10": (10, 8, 11), b"of-10-unix": (AT + 10, 8, 11),
    b"of-60": (60, 48, 61), b"of-60-unix": (AT + 60, 48, 61), b"lasting": (0, 1000, 1000),
    b"over": (-1, 0, 0), b"over-unix": (AT - 1, 0, 0),
}


def test_items_are_hits_until_they_expire_and_then_misses(serve, tmp_path):
    began = time.monotonic()
    server, step = stepped(serve, tmp_path)
    client = Client(server)
    for key, (exptime, *_) in ROUNDED.items():
        assert client.set(key, b"x", exptime=exptime) == b"STORED"
    for second in (0, 3, 4, 7, 11, 47, 61):
        step(second)
        for key, (_, *life) in ROUNDED.items():
            must_live(client, began, key, second, *life)


def test_the_clock_is_neither_late_nor_early(serve, tmp_path):
    """A deadline of this second has passed, and one of the next hasn't. A request of the second
    before comes half a second earlier, so a reading that is kept for a second shows. (A machine
    that stood still until then shows nothing.)"""
    began = time.monotonic()
    stream = stepped(serve, tmp_path)[0].connect()
    time.sleep(max(0, began + 0.9 - time.monotonic()))
    ask(stream, MISS, END)
    time.sleep(0.5)
    ask(stream, f"set over 0 {AT + 1} 1|x|get over|", STORED + END)
    stream.sendall(put(b"soon", b"x", exptime=AT + 2) + get(b"soon"))
    assert stream.recv(100) == STORED + hit(b"soon", b"x") or time.monotonic() >= began + 2


def late_ones(rate, server):
    """A client with this rate of requests a second, sets and gets in turn, and in the middle two of
    one kind: how many items it sees after they expired. An item of up to 7 seconds expires within
    one."""
    client, sets, ticks, late = Client(server), [], 5 * rate, 0
    for tick in range(ticks):
        key = b"tick-%d" % tick
        if (tick + (tick >= ticks // 2)) % 2 == 0:
            assert client.set(key, b"x", exptime=7) == b"STORED"
            sets.append((time.monotonic(), key))
        else:
            over = [key for at, key in sets if time.monotonic() - at >= 1]
            late += client.get(over[-1] if over else b"none") is not None
        time.sleep(1.03 / rate)
    return late


def test_an_item_expires_however_few_requests_come(serve):
    """A clock that is read at each eighth request alone shows it for eight seconds more at one
    request a second, and for one at seven."""
    servers = {rate: serve("--workers", "1") for rate in range(1, 8)}
    late = together(lambda it=it: late_ones(*it) for it in servers.items())
    assert late == [0] * 7


def test_a_step_of_the_clock_of_unix_time_by_a_day_changes_no_life(serve, tmp_path):
    """The monotonic clock and all waiting go on as they are."""
    servers = [stepped(serve, tmp_path, FAKETIME_DONT_FAKE_MONOTONIC="1") for _ in range(2)]
    lives = {b"ten-": (10, True), b"hour-": (AT + HOUR, True), b"past-": (AT - HOUR, False)}

    def must_show(server, kind, name, is_there):
        ask(server.connect(), get(kind + name), hit(kind + name, b"x") if is_there else END)

    for (server, step), days in zip(servers, (1, -1)):
        for name, seconds in ((b"before", 0), (b"between", days * DAY), (b"after", 0)):
            step(seconds)
            for kind, (exptime, is_there) in lives.items():
                ask(server.connect(), put(kind + name, b"x", exptime=exptime), STORED)
                must_show(server, kind, name, is_there)
    began = time.monotonic()
    for after, is_there in (0, True), (10.1, False):
        time.sleep(max(0, began + after - time.monotonic()))
        for server, _ in servers:
            for name in (b"before", b"between", b"after"):
                must_show(server, b"ten-", name, is_there)
                must_show(server, b"hour-", name, True)
