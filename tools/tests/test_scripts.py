"""`segcached replay`: faults of scripts and of files, several workers, ports with faults, scripts
of 16 MB, and requests that are handed over in batches: what is printed, how long it takes, and how
much memory.

Each large one ends within SECONDS, which is many times what it takes on a quiet machine and far
below what it takes if the port walks over all events for each one. Sessions that are opened and say
nothing take at most MEGABYTES.
"""
import itertools
import os
import subprocess

import pytest
from asking import (
    DELETED, END, SET_AND_GET, SET_AND_GET_ANSWER, STORED, get, hit, is_same, put, wire)
from replays import ended, given, in_parts, printed
from script_of import Script

LARGEST = 16_777_216
SECONDS, MEGABYTES = 30, 750


def fault(text):
    """How a replay ends that prints nothing."""
    return 1, b"", b"fault: %b\n" % text


FAULTS = {
    b"line 1: not a script line": [
        b"open 0 1 \n", b"open 0 0\n", b"open 00 1\n", b"open 10000000000 1\n",
        b"open 0 18446744073709551616\n", b"open 0 1\r\n", b"close 0 1\n", b"\n" * LARGEST],
    b"line 2: not a script line": [
        b"open 0 1\n\nopen 0 1", *(b"open 0 1\nsend 0 1 %b\n" % it for it in (b"6", b"", b"6g"))],
    b"line 1: worker out of range": [b"open 1 1\n", b"send 9999999999 1 61\n"],
    b"line 2: session number not above the last": [b"open 0 2\nopen 0 2\n"],
    b"line 3: session number not above the last": [b"open 0 2\ngone 0 2\nopen 0 1\n"],
    b"line 1: session not open": [b"send 0 1 61\n"],
    b"line 3: session not open": [
        b"open 0 1\ngone 0 1\nsend 0 1 61\n", b"open 0 1\ngone 0 1\ngone 0 1\n"],
    b"script too large": [b"\n" * (LARGEST + 1)],
}


@pytest.mark.parametrize("text", FAULTS, ids=bytes.decode)
def test_faults_of_scripts(program, text):
    for script in FAULTS[text]:
        assert ended(program, script=script) == fault(text), script[:60]


@pytest.mark.parametrize("file, shown", [("a\nb", b"a\\nb"), (".", b".")], ids=["none", "a folder"])
def test_a_file_that_cannot_be_read_is_a_fault(program, tmp_path, file, shown):
    assert ended(program, file=file, cwd=tmp_path) == fault(b"cannot read " + shown)


def digits(text):
    return wire(text).hex().encode()


# What a session sends that stores and reads the key `a`, and what it is given.
SENT, GIVEN = SET_AND_GET % (b"a", b"a"), SET_AND_GET_ANSWER % b"a"


def line(session, answers, worker=0):
    """What is printed of a session."""
    return b"%d %d %b\n" % (worker, session, answers.hex().encode() or b"-")


def in_pieces(sent, form):
    """A session whose bytes come one at a time, each by such a line."""
    return b"open 0 1\n" + b"".join(form % byte for byte in sent)


def test_pieces_of_a_byte_and_sessions_without_bytes(program):
    assert printed(program, "", in_pieces(SENT, b"send 0 1 %02X\n")) == (
        b"0 1 53544f5245440d0a56414c55452061203020310d0a780d0a454e440d0a\n")
    assert printed(program, "", b"") == b""
    assert printed(program, "", b"open 0 7") == b"0 7 -\n"


def test_a_later_session_reads_what_an_earlier_one_stored(program):
    """The earlier one goes, and so is given a beginning of its output."""
    script = b"open 0 1\nsend 0 1 %b\ngone 0 1\nopen 0 2\nsend 0 2 %b\n" % (
        digits("set a 0 0 1|x|"), digits("get a|"))
    first, _, second = printed(program, "", script).partition(b"\n")
    assert first == b"0 1 -" or line(1, STORED).startswith(first)
    assert second == line(2, hit(b"a", b"x"))


@pytest.mark.parametrize("keys, workers", [(b"ab", 2), (b"ab", 8), (b"abcdefgh", 8)])
def test_several_workers(program, keys, workers):
    script, wanted = b"", b""
    for worker, key in enumerate(b"%c" % it for it in keys):
        sent = digits(SET_AND_GET % (key, key))
        script = b"open %d 5\nsend %d 5 %b\n" % (worker, worker, sent) + script
        wanted += line(5, SET_AND_GET_ANSWER % key, worker)
    assert printed(program, f"--workers {workers}", script) == wanted


@pytest.mark.parametrize("words, wanted", [
    ("--accept 1", digits(GIVEN)), ("--accept 1 --fail-give 3", b"5354"), ("--fail-give 1", b"-"),
], ids=["a byte at a time", "gone after two bytes", "gone before the first"])
def test_faults_of_ports(program, words, wanted):
    script = b"open 0 1\nsend 0 1 %b\n" % digits(SENT)
    assert printed(program, words, script) == b"0 1 %b\n" % wanted


def test_a_peer_that_goes_was_given_a_beginning_of_the_whole_output(program):
    for count in range(len(SENT)):
        script = in_pieces(SENT[:count], b"send 0 1 %02x\n") + b"gone 0 1\n"
        found = printed(program, "", script).rstrip(b"\n")
        assert found == b"0 1 -" or line(1, GIVEN).startswith(found), count


def opened_sessions():
    """As many as there is room for, of which none is sent anything."""
    script = b"".join(b"open 0 %d\n" % session for session in range(1, 1_200_000))[:LARGEST]
    script = script[: script.rindex(b"\n") + 1]
    return script, b"".join(line(it, b"") for it in range(1, script.count(b"\n") + 1))


def in_turn(*requests):
    """Sessions that are sent a request each, again and again, as often as there is room."""
    head = b"".join(b"open 0 %d\n" % session for session, _ in enumerate(requests, 1))
    sends = b"".join(b"send 0 %d %b\n" % (session, digits(it))
                     for session, it in enumerate(requests, 1))
    times = (LARGEST - len(head)) // len(sends)
    answers = [END * times * (it == GET) for it in requests]
    return head + sends * times, b"".join(map(line, itertools.count(1), answers))


def one_behind_the_other():
    script, wanted = in_turn(GET, GET)
    return b"".join(sorted(script.splitlines(True))), wanted


GET, QUIET = "get a|", "set b 0 0 1 noreply|x|"
# By names, scripts with what they print, and how many bytes a port takes at a time.
LARGE = {
    "sessions that say nothing": (opened_sessions, None),
    "one session": (lambda: in_turn(GET), None),
    "one session, byte by byte": (lambda: in_turn(GET), 1),
    "two of which one is quiet": (lambda: in_turn(GET, QUIET), 2),
    "two in turn": (lambda: in_turn(GET, GET), None),
    "two in turn, byte by byte": (lambda: in_turn(GET, GET), 1),
    "one behind the other": (one_behind_the_other, 1),
}


@pytest.mark.parametrize("made, accept", LARGE.values(), ids=LARGE)
def test_a_large_script_is_replayed_in_little_time(program, tmp_path, made, accept):
    """(`wait4` tells the most kilobytes that were resident. A run that is late is killed.)"""
    (script, wanted), file, out = made(), tmp_path / "script", tmp_path / "printed"
    file.write_bytes(script)
    words = ["timeout", "-s", "KILL", str(SECONDS), program, "replay", file]
    with open(out, "wb") as printed_to:
        words += ["--accept", str(accept)] * bool(accept)
        process = subprocess.Popen(words, stdout=printed_to)
        _, status, usage = os.wait4(process.pid, 0)
        process.returncode = os.waitstatus_to_exitcode(status)
    is_right = out.read_bytes() == wanted
    for it in (file, out):
        it.unlink()
    assert process.returncode == 0 and is_right
    assert usage.ru_maxrss <= MEGABYTES * 1000 or made is not opened_sessions


# ---- batches

# How many requests there are, of which each session sends some at a time, and how many writes.
REQUESTS, AT_A_TIME, SETS = 2_000, 64, 40_000


def asked(worker, place):
    """The request of a worker at this place, with its answer: five after each other are of one of
    its seven keys, which no other worker uses."""
    key, first = b"%c%d" % (b"abcdefgh"[worker], place // 5 % 7), place // 5 * 5
    number, count = b"%d" % (first % 10), b"%d" % (first % 10 + first + 2)
    return (
        (put(key, number, flags=7), STORED), (get(key), hit(key, number, 7)),
        (b"incr %b %d\r\n" % (key, place), count + b"\r\n"), (get(key), hit(key, count, 7)),
        (b"delete %b\r\n" % key, DELETED),
    )[place % 5]


@pytest.mark.parametrize("workers", range(1, 9))
def test_each_worker_is_given_the_answers_to_its_requests(program, workers):
    each = REQUESTS // workers
    talks = [[asked(worker, place) for place in range(each)] for worker in range(workers)]
    script = Script(workers)
    sessions = [script.open() for _ in talks]
    for at in range(0, each, AT_A_TIME):
        for session, talk in zip(sessions, talks):
            script.send(session, b"".join(request for request, _ in talk[at : at + AT_A_TIME]))
    wanted = b"".join(line(worker + 1, b"".join(answer for _, answer in talk), worker)
                      for worker, talk in enumerate(talks))
    assert printed(program, f"--workers {workers}", script.text().encode()) == wanted


@pytest.mark.parametrize("evict", ["oldest", "least-read"])
def test_each_set_is_stored_while_segments_are_merged(program, evict):
    # (these look random)
    keys = ((number * 0x9E3779B97F4A7C15 % 2**64).to_bytes(8, "little") for number in range(SETS))
    sets = b"".join(put(key.hex()[:8].encode(), b"v" * 100) for key in keys)
    words = f"--evict {evict} --segment-size 65536 --segments 64"
    assert is_same(given(program, words, *in_parts(sets)), STORED * SETS)
