"""Items of up to a segment: values of up to 1 MiB, however they come, what is too large, and what
requests hold that stop within their values.

A `set` of a value that doesn't fit takes out the old one, and its session goes on behind it.
"""
import contextlib
import socket
import threading
import time

import pytest
from asking import (
    BAD_BLOCK, END, MISS, NO_NUMBER, STORED, TOO_LARGE, ask, beside, hit, opened, seconds_to)
from replays import given, in_parts
from served import read_to_end
from stats_of import numbers, told, wait_for

SIZES = "--lenient", "--segment-size", "1048576", "--segments", "16", "--max-item-size", "1048512"
# The longest value at a key of one byte: the item has 24 bytes more than both, rounded up to a
# multiple of 8.
LONGEST = 1_048_512 - 24 - 1
# The bytes of large requests for which a worker reserves room, and how many of `BEGUN` have some.
ROOM = 64 * 1024 * 1024
BEGUN = b"set a 0 0 1000000\r\n"
HAVE_ROOM = ROOM // (len(BEGUN) + 1_000_002)


def value_of(length):
    """Bytes that differ from their neighbours, and have the bytes of requests among them."""
    return (b"get a\r\n%06d " * (length // 14 + 1) % tuple(range(length // 14 + 1)))[:length]


def put(verb, key, value, end=b"\r\n"):
    return b"%b %b 7 0 %d\r\n%b%b" % (verb, key, len(value), value, end)


def set_and_get(value):
    return put(b"set", b"b", value) + b"get b\r\n", STORED + hit(b"b", value, 7)


@pytest.mark.parametrize("length", [131_073, 524_288, 1_000_000, LONGEST])
def test_a_large_value_is_stored_read_and_deleted(serve, storage, length):
    value = value_of(length)
    stream = serve(*SIZES, *storage).connect()
    ask(stream, *set_and_get(value))
    ask(stream, put(b"add", b"b", b"x") + put(b"replace", b"b", value[::-1]),
        b"NOT_STORED\r\n" + STORED)
    ask(stream, "get b c b|", hit(b"b", value[::-1], 7, times=2))
    ask(stream, "incr b 1|delete b|get b|", NO_NUMBER + b"DELETED\r\n" + END)
    found = told(stream)
    counts = ("cmd_set", "total_items", "curr_items", "store_too_large")
    assert [found[name] for name in counts] == ["3", "2", "0", "0"]


@pytest.mark.parametrize("verb", [b"append", b"prepend"])
def test_a_value_grows_up_to_the_longest(serve, verb):
    half, rest = value_of(500_000), value_of(LONGEST - 500_000)
    whole = half + rest if verb == b"append" else rest + half
    stream = serve(*SIZES).connect()
    ask(stream, put(b"set", b"a", half) + put(verb, b"a", rest), 2 * STORED)
    ask(stream, put(verb, b"a", b"x") + b"get a\r\n", TOO_LARGE + hit(b"a", whole, 7))


# One byte too many: the item doesn't fit, or the block alone is larger than an item. The largest is
# dropped as it comes.
@pytest.mark.parametrize("length", [LONGEST + 1, 1_048_512, 1_048_513, 2_000_000])
def test_a_set_that_is_too_large_takes_out_the_old_value_and_an_add_leaves_it(serve, length):
    value, stream = value_of(length), serve(*SIZES).connect()
    ask(stream, put(b"set", b"a", b"old") + put(b"add", b"a", value) + b"get a\r\n",
        STORED + TOO_LARGE + hit(b"a", b"old", 7))
    ask(stream, put(b"set", b"a", value) + b"get a\r\n", TOO_LARGE + END)
    assert told(stream)["store_too_large"] == "2"


def test_the_block_of_an_item_has_its_end_and_a_dropped_one_any(serve):
    stream = serve(*SIZES).connect()
    ask(stream, put(b"set", b"a", value_of(1_048_513), b"xy") + b"get a\r\n", TOO_LARGE + END)
    stream.sendall(put(b"set", b"a", value_of(1_000_000), b"xy") + b"get a\r\n")
    assert read_to_end(stream) == BAD_BLOCK


@pytest.mark.parametrize("length", [131_073, LONGEST])
def test_a_large_value_is_the_same_wherever_it_is_cut(program, length):
    """In the line, at the pieces of 16,384 bytes, and in the last bytes."""
    sent, wanted = set_and_get(value_of(length))
    head, whole = sent.index(b"\n") + 1, len(sent) - len(b"get b\r\n")
    places = {1, head - 1, head, head + 1, *range(16_383, 16_386), 65_536, 131_072 + head}
    places |= {262_144, whole // 2, *range(whole - 3, whole)}
    for place in sorted(it for it in places if it < whole):
        assert given(program, " ".join(SIZES), sent[:place], sent[place:]) == wanted, place
    assert given(program, " ".join(SIZES), *in_parts(sent)) == wanted
    assert given(program, " ".join(SIZES), sent[: len(sent) // 2]) == b""


def stopped(server, count, length):
    """So many connections, each of which sends as much of a large value as the server takes."""
    streams = opened(server, count)
    for stream in streams:
        stream.setblocking(False)
        with contextlib.suppress(BlockingIOError):
            stream.sendall(BEGUN + b"z" * length)
    return streams


def kept(stream):
    """The unread input that is told, once no more has come for a while."""
    found = -1
    for _ in range(100):
        last, found = found, numbers(stream)["input_bytes"]
        if found == last > 0:
            return found
        time.sleep(0.2)
    raise AssertionError("more and more input comes")


def test_three_hundred_connections_stop_within_their_values(serve):
    """Those that came first have room. Of the others the first pieces are read. All stay open."""
    server = serve(*SIZES, "--workers", "1")
    stream = server.connect()
    streams = stopped(server, 300, 524_288)
    assert HAVE_ROOM * 524_288 < kept(stream) < HAVE_ROOM * 524_288 + 300 * 65_536
    ask(stream, *set_and_get(value_of(131_072)))
    assert told(stream)["curr_connections"] == "301"
    assert server.kilobytes("VmRSS") < 128 * 1024
    for it in streams:
        it.close()
    # (nothing is left of them, and there is room)
    wait_for(stream, curr_connections=1, input_bytes=0)
    ask(stream, *set_and_get(value_of(LONGEST)))


def test_who_stops_while_others_wait_is_closed(serve):
    """One waits with a large value behind those, which are closed after ten seconds."""
    server, before = serve(*SIZES, "--workers", "1"), time.monotonic()
    stopped(server, HAVE_ROOM + 1, 524_288)
    stream, other = opened(server, 2)
    assert kept(other) < HAVE_ROOM * 524_288 + 65_536
    asked = time.monotonic()
    ask(stream, *set_and_get(value_of(LONGEST)))
    assert time.monotonic() - before > 9 and time.monotonic() - asked < 20
    assert numbers(other)["closed_unread"] >= 2


def send_slowly(streams, text, seconds):
    """Each sends a fiftieth of the text at a time, within so many seconds, and hardly sends ahead:
    what isn't taken then comes later."""
    left, due = dict.fromkeys(streams, text), time.monotonic()
    for stream in streams:
        stream.setsockopt(socket.SOL_SOCKET, socket.SO_SNDBUF, 16_384)
        stream.setblocking(False)
    while left:
        for stream in list(left):
            with contextlib.suppress(BlockingIOError):
                left[stream] = left[stream][stream.send(left[stream][: len(text) // 50 + 1]) :]
            if not left[stream]:
                del left[stream]
        due += seconds / 50
        time.sleep(max(due - time.monotonic(), 0))
    for stream in streams:
        stream.setblocking(True)


def test_who_sends_slowly_is_waited_for(serve):
    """More than have room send their values within twelve seconds each, and all are stored."""
    value, server = value_of(1_000_000), serve(*SIZES, "--workers", "1")
    begun = opened(server, HAVE_ROOM + 14)
    send_slowly(begun, put(b"set", b"a", value), 12)
    for stream in begun:
        ask(stream, b"get a\r\n", STORED + hit(b"a", value, 7))
    assert told(begun[0])["closed_unread"] == "0"


@pytest.fixture(params=[0, 3], ids=["quiet", "busy"])
def server(serve, request):
    """Of one worker, which is never idle for long while others ask as fast as they are answered."""
    server, is_over = serve(*SIZES, "--workers", "1"), threading.Event()

    def ask_on(stream):
        while not is_over.is_set():
            ask(stream, 200 * MISS, 200 * END)

    threads = [beside(ask_on, it) for it in opened(server, request.param)]
    yield server
    is_over.set()
    for thread in threads:
        thread.join()


def test_fifty_slow_clients_take_the_time_of_one(server):
    """Few values come at once, but those that come slowly hold up no others for long."""
    streams, began = opened(server, 50), time.monotonic()
    send_slowly(streams, put(b"set", b"a", value_of(1_000_000)), 1)
    for stream in streams:
        ask(stream, b"", STORED)
    assert time.monotonic() - began < 3


def test_values_that_stop_half_way_hold_up_others_for_a_second_at_most(server):
    stopped(server, HAVE_ROOM - 2, 524_288)
    stream = server.connect()
    # (twice as long on a machine that is busy otherwise)
    assert seconds_to(stream, *set_and_get(value_of(LONGEST))) < 2
    assert seconds_to(stream, *set_and_get(value_of(LONGEST))) < 0.5


# Each connection has room for 262,144 bytes at first. A block that no item may have, as those have
# 8,192 bytes there, takes no memory.
@pytest.mark.parametrize("words, of, most, count, begun, length", [
    (SIZES, "VmData", 400 * 300, 400, BEGUN, 1_000),
    (["--lenient"], "VmRSS", 8192, 200, b"set a 0 0 131072\r\n", 120_000),
    (["--lenient"], "VmRSS", 50 * 262, 50, b"set a 0 0 8388608\r\n", 8_388_609),
], ids=["an item", "none", "the largest that is dropped"])
def test_values_that_have_only_begun_take_little_room(
        serve, words, of, most, count, begun, length):
    server = serve(*words, "--workers", "1")
    stream, = opened(server, 1, MISS, END)
    before = server.kilobytes(of)
    opened(server, count, begun + b"z" * length)
    assert kept(stream) > count * length
    assert server.kilobytes(of) - before < most
