"""Rows of the store, each sent by one session of a replay, and answered so byte for byte.

The answers are worked out from the protocol and from the rules of segments (docs/OPERATIONS.md): a
list of what is there stands beside the longer ones. `|` ends a line.
"""
import itertools
import random

import asking
import pytest
from asking import END, NOT_FOUND, OUT_OF_MEMORY, STORED, get, hit, hits
from replays import must_answer

SMALL = "--segment-size 4096 --segments 8"
LENIENT, IN_PLACE = "--lenient", "--update-in-place"


def put(key, exptime, value, flags=0):
    return asking.put(key, value, flags=flags, exptime=exptime)


# By the words of timed rows what is sent, and what is given. The item has the flags 7, and behind
# `hit` stands its cas number.
WORDS = {
    "set": ("set a 7 {} 1|x|", "STORED|"), "other": ("set other 0 {} 1|x|", "STORED|"),
    "add": ("add a 7 {} 1|x|", "STORED|"), "add-none": ("add a 7 {} 1|x|", "NOT_STORED|"),
    "touch": ("touch a {}|", "TOUCHED|"), "touch-none": ("touch a {}|", "NOT_FOUND|"),
    "hit": ("gets a|", "VALUE a 7 1 {}|x|END|"), "miss": ("gets a|", "END|"),
}


def timed(text):
    """Rows of such words, with the moment before each and the TTL or the cas number behind it."""
    last = 0
    for moment, word, *number in map(str.split, text.split(",")):
        request, answer = WORDS[word]
        assert int(moment) > last, text
        last = int(moment)
        yield last, request.format(*number), answer.format(*number)


def must_answer_at(program, words, rows):
    """Each request is given its answer at its moment: in each second between two of these rows, or
    timed ones, a miss is asked for."""
    rows = [*timed(rows)] if isinstance(rows, str) else rows
    now, all_rows = rows[0][0], []
    for moment, request, answer in rows:
        all_rows += [("get none|", END)] * (moment - now) + [(request, answer)]
        now = moment + 1
    must_answer(program, f"--now {rows[0][0]} --tick 1 {words}", all_rows)


@pytest.mark.parametrize("last", [("incr n 1|", NOT_FOUND), ("get n|", END)],
                         ids=["counted", "shown"])
@pytest.mark.parametrize("words, before, seconds", [
    (IN_PLACE, 0, 56), (IN_PLACE, 7, 49), (IN_PLACE, 8, 56), ("", 0, 8), ("", 7, 8)])
def test_a_counter_that_counts_each_second_ends_with_its_segment(
        program, words, before, seconds, last):
    """A segment takes items of 60 seconds for 8 seconds, and its items live for 56; another item
    was set so long before the counter. Each counter that is written anew has the seconds that are
    left, rounded down to a multiple of 8."""
    other = [(1000 - before, "set other 0 60 1|x|", STORED)] if before else []
    counts = [(1000 + second, "incr n 1|", f"{second}|") for second in range(1, seconds)]
    rows = other + [(1000, "set n 7 60 1|0|", STORED), *counts, (1000 + seconds, *last)]
    must_answer_at(program, f"{LENIENT} {words}", rows)


TOUCHES = {
    "an item of 60 seconds ends at 1,056, and may stay until 1,072 is asked for":
        "1000 set 60, 1001 touch 60, 1011 touch 60, 1055 hit 1, 1056 miss",
    "written anew at 1,012 it ends at 1,068":
        "1000 set 60, 1012 touch 60, 1067 hit 1, 1068 miss",
    "an item of 1,440 seconds may stay while at most 180 of them are missing":
        "1000 set 1440, 1180 touch 1440, 2439 hit 1, 2440 miss, "
        "3000 set 1440, 3181 touch 1440, 4620 hit 2, 4621 miss",
    "an item that is to end sooner doesn't stay":
        "1000 set 60, 1001 touch 9, 1008 hit 1, 1009 miss",
    "nor is it touched after its new end":
        "1000 set 60, 1001 touch 9, 1008 hit 1, 1009 touch-none 60",
    "one that is to have no deadline doesn't stay, until it is to end at once":
        "1010 set 60, 1011 touch 0, 9999 touch -1, 10000 miss",
}


@pytest.mark.parametrize("rows", TOUCHES.values(), ids=TOUCHES)
def test_a_touch_leaves_an_item_or_writes_it_anew(program, rows):
    must_answer_at(program, LENIENT, rows)


def key(number):
    return b"k%03d" % number


def found(number, value):
    return get(key(number)), END if value is None else hit(key(number), value)


def test_a_flush_makes_room(program):
    """64 items fill all segments, and are all forgotten: the next one is found alone."""
    *rows, last = [(put(key(number), 0, b"v" * 476), STORED) for number in range(1, 66)]
    rows += [("flush_all|", "OK|"), last, ("get k064 k065|", hit(b"k065", b"v" * 476))]
    must_answer(program, SMALL, rows)


@pytest.mark.parametrize("writes, others, forgotten", [
    (49, {}, 0), (64, {7: 236, 0: 228}, 0), (65, {7: 236, 0: 228}, 23)])
def test_where_segments_are_filled_worst_one_item_too_many_forgets_the_oldest(
        program, writes, others, forgotten):
    """49 items of 512 bytes are the 25,088 bytes of the bound. Eight items leave 504 bytes of a
    segment: six of 512 bytes, 264 and 256. After 64 of them each of eight segments has no room for
    another of 512. The 65th makes the first four be merged: the newest of theirs stay, 4,096 bytes
    at most."""
    values = {it: b"v" * others.get(it % 8, 484) for it in range(1, writes + 1)}
    rows = [(put(key(it), 0, value), STORED) for it, value in values.items()]
    rows += [found(it, None if it <= forgotten else value) for it, value in values.items()]
    must_answer(program, SMALL, rows)


def deleted(there, number):
    value, there[number] = there[number], None
    return b"delete %b\r\n" % key(number), NOT_FOUND if value is None else "DELETED|"


def random_rows(below, keys, longest, left):
    """In turns random values of at most a length are written, over others too, looked up and
    deleted, as long as what is written is within what is left; then all that is there is found."""
    there = dict.fromkeys(range(keys))
    for turn in range(max(5000, 9 * keys)):
        number, kind = below(keys), below(8)
        if kind == 0:
            yield deleted(there, number)
        elif kind == 1:
            yield found(number, there[number])
        else:
            value = b"%c" % (97 + turn % 26) * below(longest + 1)
            left -= (24 + len(key(number)) + len(value) + 7) // 8 * 8
            if left < 0:
                break
            yield put(key(number), 0, value), STORED
            there[number] = value
    yield from itertools.starmap(found, there.items())


# (the last ones are the largest item, if it isn't an eighth of a segment, and the number of keys)
@pytest.mark.parametrize("segment_size, segments, longest, largest, keys", [
    (4096, 8, 484, None, 150), (4096, 8, 100, None, 150), (4096, 9, 0, None, 150),
    (4096, 23, 484, None, 150), (8192, 8, 996, None, 150), (16384, 11, 2020, None, 150),
    (65536, 8, 8164, None, 150), (4096, 64, 2020, 2048, 150), (65536, 11, 50_000, 50_032, 150),
    (1_048_576, 12, 524_256, 524_288, 150), (1_048_576, 8, 5, None, 10_000),
])
def test_all_that_is_written_within_the_bound_is_found(
        program, segment_size, segments, longest, largest, keys):
    bound = (segments - 1) * (segment_size - (largest or segment_size // 8))
    rows = random_rows(random.Random(segment_size ^ longest).randrange, keys, longest, bound)
    words = f"--segment-size {segment_size} --segments {segments}"
    words += f" --max-item-size {largest}" * bool(largest)
    # (strictly a data block has 131,072 bytes at most)
    must_answer(program, words + f" {LENIENT}" * (longest > 131_072), rows)


LARGE = "--segment-size 1048576 --segments 8"
# The most bytes of all hits of one lenient answer, as they are shown, without the `END` after them.
MOST_ANSWER = 8_388_608


@pytest.mark.parametrize("verb", [b"get", b"gets"])
@pytest.mark.parametrize("dialect, count, length", [
    *itertools.product([LENIENT], (1, 2, 20, 200, 1000), (1, 100, 10_000, 100_000)),
    # (128 hits of 65,536 bytes, as `gets` and as `get` shows them)
    *itertools.product([LENIENT, ""], [128], (65_515, 65_517)),
    # (as many keys as a lenient line has, and a hundred large values)
    (LENIENT, 16_000, 1), (LENIENT, 100, 50_000),
    # (33 MB, as a strict answer has no limit)
    ("", 257, 131_000),
])
def test_memory_is_out_for_no_reply_within_the_limit(program, dialect, count, length, verb):
    """So many hits, and the same with one that is a byte longer; after that a hit is shown."""
    value = b"v" * length
    one, other = (hits(*it, cas=cas if verb == b"gets" else None)
                  for cas, it in enumerate(((b"a", value), (b"b", value + b"v")), 1))
    rows = [(put(b"a", 0, value), STORED), (put(b"b", 0, value + b"v"), STORED)]
    for keys, shown in (count * b" a", count * one), (
            (count - 1) * b" a" + b" b", (count - 1) * one + other), (b" a", one):
        is_out = dialect and len(shown) > MOST_ANSWER
        rows.append((verb + keys + b"\r\n", OUT_OF_MEMORY if is_out else shown + END))
    must_answer(program, f"{LARGE} {dialect}", rows)
