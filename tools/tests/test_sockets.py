"""`segcached serve` over real sockets: bursts, slow and stalled readers, resets, waiting, and how
sessions end: half-closed clients, quitting ones, pieces of exactly a read's size, those that are
read a little longer, and what they leave."""
import concurrent.futures
import contextlib
import signal
import socket
import time

import pytest
import tries
from asking import (
    END, MISS, SET_AND_GET, SET_AND_GET_ANSWER, STORED, TOO_LARGE, ask, ask_set_and_get, beside,
    hit, is_same, opened, put, seconds_to)
from served import comes_true, read_exactly, read_till_closed, read_to_end, reset, together
from stats_of import wait_for

# The most bytes of a session that a worker reads at a time.
PIECE = 16_384
# How long a session that was shut is read, in seconds.
LINGERING = 2


@pytest.mark.parametrize("workers", [1, 2])
def test_a_burst_of_a_thousand_is_served(serve, workers, storage):
    server = serve("--workers", str(workers), *storage)
    streams = {socket.socket(): b"key%d" % number for number in range(1000)}
    for stream in streams:
        stream.setblocking(False)
        stream.connect_ex(("127.0.0.1", server.port))
    for stream, key in streams.items():
        stream.settimeout(20)
        stream.sendall(SET_AND_GET % (key, key))
    for stream, key in streams.items():
        ask(stream, b"", SET_AND_GET_ANSWER % key)
        stream.close()


# (what waits for a reader isn't all that it asked for, 6 and 140 million bytes)
@pytest.mark.parametrize("times, size", [(60_000, 100), (20_000, 7000)])
def test_a_stalled_reader_costs_others_nothing_and_is_served_later(serve, storage, times, size):
    value, server = b"v" * size, serve("--workers", "1", *storage)

    def slowest(key):
        stream, asked = server.connect(), (SET_AND_GET % (key, key), SET_AND_GET_ANSWER % key)
        return max(seconds_to(stream, *asked) for _ in range(200))

    with server.connect(receive_buffer=4096) as stalled:
        ask(stalled, put(b"big", value), STORED)
        sender = beside(stalled.sendall, b"get big\r\n" * times)
        answers = 100 * hit(b"big", value)
        for turn in range(times // 100):
            assert is_same(read_exactly(stalled, len(answers)), answers)
            if turn == 0:
                time.sleep(0.5)
                assert max(together(lambda it=it: slowest(b"%d" % it) for it in range(10))) < 10
                assert server.kilobytes("VmRSS") < 80_000
        sender.join()


def test_a_client_may_close_without_reading(serve):
    server = serve("--workers", "2", "--sessions", "2")
    opened(server, 1, SET_AND_GET % (b"a", b"a"))[0].close()
    second, = opened(server, 1, b"get a\r\nquit\r\n")
    assert read_to_end(second) in (END, hit(b"a", b"x"))
    assert server.process.wait(20) == 0


def test_an_idle_server_takes_no_processor_time(serve, storage):
    server = serve("--workers", "4", *storage)
    ask_set_and_get(server.connect(), b"a")
    time.sleep(0.2)
    before = server.processor_seconds()
    time.sleep(2)
    assert server.processor_seconds() - before <= 0.1


def median_wait_of_newcomers(server):
    """From before they connect to their first answers. (Each finds the worker asleep.)"""
    took = []
    for _ in range(15):
        time.sleep(0.005)
        began = time.monotonic()
        opened(server, 1, MISS, END)[0].close()
        took.append(time.monotonic() - began)
    return sorted(took)[7]


@pytest.mark.parametrize("before", [0, 3000], ids=["at first", "after many"])
def test_threads_that_sleep_are_woken_for_newcomers(serve, storage, before):
    """One that isn't hears of them, or of their requests, a tenth of a second later. So does a
    worker that never reads the bytes by which it is woken, once some hundreds fill its waker."""
    server = serve("--workers", "1", *storage)
    for _ in range(before):
        server.connect().close()
    tries.all_in_time(lambda: median_wait_of_newcomers(server), 0.05)


def is_served_late(serve):
    """Of 74 that wait for a full worker ten are closed. Whether one that comes then waits."""
    server = serve("--lenient", "--workers", "1")
    streams = opened(server, 1024, MISS, END)
    began = time.monotonic()
    opened(server, 74)
    is_in_time = time.monotonic() - began < 1
    found = wait_for(streams[0], rejected_connections=10, curr_connections=1024,
                     connections_waiting=64, accepting_conns=0)
    # (if some come later than a second after others, it is full a second time)
    assert found["listen_disabled_num"] == "1" or not is_in_time
    late, = opened(server, 1, MISS + b"quit\r\n")
    time.sleep(0.2)
    for it in streams[1:101]:
        it.close()
    is_served = is_in_time and read_till_closed(late) == END
    if is_served:
        wait_for(streams[0], rejected_connections=10)
    server.must_run()
    # (else its streams stay open while further tries run)
    server.stop()
    return is_served


def test_after_some_were_closed_others_wait_for_room_again(serve):
    """It would be closed at once if streams went on to be closed. (It waits a second at most.)"""
    tries.in_two_of_three(lambda: (is_served_late(serve), "it was closed, or came too late"))


# ---- how sessions end

@pytest.mark.parametrize("pieces", [1, 2])
def test_a_pipeline_of_exactly_what_is_read_at_a_time_is_answered_and_goes_on(serve, pieces):
    count, rest = divmod(pieces * PIECE, 7)
    requests = b"get a\r\n" * (count - 1) + b"get %b\r\n" % (b"b" * (rest + 1))
    assert len(requests) == pieces * PIECE
    server = serve("--workers", "1")
    for _ in range(20):
        stream, = opened(server, 1, requests, END * count)
        ask(stream, MISS, END)


def test_a_client_that_sends_no_more_gets_all_answers_of_a_process_that_stood_still(serve, storage):
    """Some closed their sending half before the process stopped, some while it stood still. Each
    other one stores, and the rest look up what isn't there."""
    server = serve("--workers", "2", *storage)
    streams = opened(server, 8, MISS, END)

    def send(numbers, first, last):
        for number in numbers:
            form = b"get g%d-%d\r\n" if number % 2 else b"set s%d-%d 0 0 1\r\nx\r\n"
            requests = b"".join(form % (number, at) for at in range(first, last))
            streams[number].sendall(requests)
            if last == 2000:
                streams[number].shutdown(socket.SHUT_WR)

    send(range(4), 0, 2000)
    send(range(4, 8), 0, 1000)
    server.process.send_signal(signal.SIGSTOP)
    send(range(4, 8), 1000, 2000)
    time.sleep(2.2)
    server.process.send_signal(signal.SIGCONT)
    for number, stream in enumerate(streams):
        assert is_same(read_to_end(stream), (END if number % 2 else STORED) * 2000)
    for number in range(0, 8, 2):
        gets = b"".join(b"get s%d-%d\r\n" % (number, at) for at in range(2000))
        shown = b"".join(hit(b"s%d-%d" % (number, at), b"x") for at in range(2000))
        opened(server, 1, gets, shown)


@pytest.mark.parametrize("requests, answers, most", [
    (b"get a\r\n", END, 0.015), (b"get a\r\n" * 20_000, END * 20_000, 20),
    (b"set a 0 0 1 noreply\r\nx\r\n", b"", 0.015), (b"", b"", 0.015), (b"get", b"", 0.015),
    (b"get a\r\nget", END, 0.015),
], ids=["one", "20,000", "one that isn't answered", "none", "half a one", "one and a half"])
def test_a_client_that_sends_no_more_is_closed_with_its_last_answer(
        serve, requests, answers, most):
    """(A timer of 20 milliseconds would be in all of them.)"""
    took, server = [], serve("--workers", "1", "--sessions", "11")
    for _ in range(11):
        stream, = opened(server, 1, requests)
        stream.shutdown(socket.SHUT_WR)
        began = time.monotonic()
        assert read_to_end(stream) == answers
        took.append(time.monotonic() - began)
    assert server.process.wait(20) == 0
    assert min(took) < most


def shut(server):
    stream, = opened(server, 1, b"quit\r\n")
    assert stream.recv(1) == b""
    return stream


def test_each_of_three_hundred_that_quit_and_stay_gets_its_answer_and_nothing_more(serve):
    """A worker drops what still comes from 256 of them at a time; the others are closed at once."""
    streams = opened(serve("--workers", "1"), 300, b"get a\r\nquit\r\n", END)
    for stream in streams:
        # (one that was closed already may be told so)
        with contextlib.suppress(OSError):
            stream.sendall(b"get a\r\nbogus\r\n")
    for stream in streams:
        assert read_till_closed(stream) == b""


def test_each_of_twenty_that_send_too_much_sees_why_it_is_shut(serve):
    """It reads only once it has sent a mebibyte of its block."""
    server = serve("--workers", "2", "--sessions", "20")
    for _ in range(20):
        stream, = opened(server, 1, b"set a 0 0 1048576\r\n" + bytes(1 << 20))
        assert read_to_end(stream) == TOO_LARGE
        stream.close()
    assert server.process.wait(20) == 0


def seconds_held(server):
    """How long a session that quits is held, whose client neither closes nor sends. (It is counted
    before it quits: this process may stand still until the session has gone.)"""
    stream, = opened(server, 1, MISS, END)
    held, began = server.descriptors(), time.monotonic()
    stream.sendall(b"quit\r\n")
    assert read_to_end(stream) == b""
    assert comes_true(lambda: server.descriptors() == held - 1)
    assert time.monotonic() - began > 1
    return time.monotonic() - began


def seconds_of_sending(server):
    """How long one that quits and goes on is read: 16 MiB, and what waits in the system's buffers,
    tens of MB at most, are sent. After two seconds it is closed, however little came."""
    sent, stream, began = 0, shut(server), time.monotonic()
    with contextlib.suppress(ConnectionResetError, BrokenPipeError):
        while sent < 256 << 20:
            sent += stream.send(bytes(1 << 16))
    assert sent < 128 << 20
    return time.monotonic() - began


def seconds_until_closed(server):
    """How long the stream of a session that was shut stays open once its peer has closed it."""
    held, stream = server.descriptors(), shut(server)
    # (until nothing of it is left to be read)
    time.sleep(0.2)
    stream.close()
    began = time.monotonic()
    comes_true(lambda: server.descriptors() <= held)
    return time.monotonic() - began


def seconds_to_send(server):
    """How long a client takes to send bytes that nobody wants, after its session was shut: more
    than the system's buffers hold, and less than is read of it."""
    with contextlib.suppress(OSError):
        return seconds_to(shut(server), bytes(14 << 20), b"")
    return float("inf")


@pytest.mark.parametrize("took, most", [
    (seconds_held, LINGERING + 0.4), (seconds_of_sending, LINGERING + 0.4),
    (seconds_until_closed, LINGERING / 2), (seconds_to_send, LINGERING)])
def test_a_session_that_was_shut_is_read_for_two_seconds(serve, took, most):
    server = serve("--workers", "1")
    opened(server, 1, MISS, END)
    tries.all_in_time(lambda: took(server), most)


def test_at_most_256_sessions_that_were_shut_are_read(serve):
    """Of more the oldest one is closed at once. (The last one may count beside 256 for a moment. A
    try that takes long says nothing.)"""
    for _ in range(10):
        server, most = serve("--workers", "1"), 0
        opened(server, 1, MISS, END)
        held, began = server.descriptors(), time.monotonic()
        for _ in range(300):
            shut(server)
            most = max(most, server.descriptors() - held)
        if time.monotonic() - began < LINGERING:
            break
    assert most in (256, 257)


def come_and_go(port, count, at_once=40):
    """Opens and ends sessions in each way, from several addresses, since the ports of one are used
    up: those of 127.0.0.2 and so on are this machine's as well."""
    sent = b"get a\r\n", b"get a\r\n", b"get a\r\nquit\r\n", b"get a\r\nget"
    for number in range(0, count, at_once):
        own = f"127.0.0.{2 + number // at_once % 40}", 0
        streams = [socket.create_connection(("127.0.0.1", port), None, own) for _ in range(at_once)]
        for at, stream in enumerate(streams):
            stream.sendall(sent[at % 4])
        for at, stream in enumerate(streams):
            assert stream.recv(5) == END
            (reset if at % 2 else socket.socket.close)(stream)


def test_sessions_that_came_and_went_leave_no_memory(serve):
    """With 16 bytes for each of 150,000 it would be 2.4 MB, and with 32 for the silent 4.8 MB."""
    servers, resident = [serve("--workers", "1", *it) for it in ([], ["--idle", "86400"])], []
    # (the first ones take what is kept for later ones)
    for count in (20_000, 150_000):
        with concurrent.futures.ProcessPoolExecutor(2) as pool:
            list(pool.map(come_and_go, [it.port for it in servers], [count] * 2))
        time.sleep(0.2)
        resident.append([server.kilobytes("VmRSS") for server in servers])
    assert max(after - before for before, after in zip(*resident)) <= 512
