"""Random requests, replayed by the program and answered by a model of lists that forgets by the
same rules.

Each answer is the same byte for byte, and a `stats` is told what the model counted. Long runs over
small pools give back, merge and clear all the time, and a tick between requests lets entries
expire. Short ones are chosen by hypothesis, which shortens what fails. Some of either kind are in
the lenient dialect, with spaces before the ends of lines, and with what that dialect alone takes;
the long ones in the strict dialect have such requests too, which are refused. Half evict the least
read segment, half change values in place, and some of each kind keep deadlines to the second.
"""
import concurrent.futures
import random

import replays
from hypothesis import given, settings
from hypothesis import strategies as st
from model import JOINS, LOCAL, SHOWN_AND_TOUCHED, STORES, Cache, refused

FIRST_MOMENT = 1000


def spelled(cache, requests, tick):
    """Of each request its bytes and its answer. The clock ticks for those that the cache executes.
    Leniently there are none to two spaces before the end of each line."""
    executed = 0
    for at, request in enumerate(requests):
        moment = FIRST_MOMENT + tick * executed
        if wanted := refused(cache, request):
            sent, _ = Cache(4096, 8).answer(request, moment)
        else:
            sent, wanted = cache.answer(request, moment)
            executed += request[0] not in LOCAL
        yield sent.replace(b"\r\n", b" " * (at % 3) * cache.is_lenient + b"\r\n", 1), wanted


def must_be_answered_as(program, cache, requests, tick):
    """One session is answered as the model answers that sends these requests to a store of its
    sizes and with its options."""
    words = f"--segment-size {cache.segment_size} --segments {cache.segments} --tick {tick}"
    words += f" --now {FIRST_MOMENT}" + " --lenient" * cache.is_lenient
    words += f" --max-item-size {cache.largest}" * (cache.largest != cache.segment_size // 8)
    words += " --evict least-read" * cache.is_least_read + " --exact-ttls" * cache.is_exact
    words += " --update-in-place" * cache.is_in_place
    replays.must_answer(program, words, spelled(cache, requests, tick))


# ---- long runs

def random_lenient_request(chance, key, ttls):
    """One without data that is lenient; most are touches, half of which show what they touch."""
    others = (b"delete", key, b"0"), (b"version",), (b"verbosity", b"1"), (b"stats",)
    keys = [key, b"key0", key][: chance.randrange(1, 4)]
    shown = chance.choice(SHOWN_AND_TOUCHED), chance.choice(ttls), keys
    return chance.choice((*others, *[(b"touch", key, chance.choice(ttls)), shown] * 3))


def random_request(chance, keys, ttls, longest):
    """A request over so many keys, some of them asked for more often, with a shorter value."""
    key = b"key%d" % min(chance.randrange(keys), chance.randrange(keys))
    kind = chance.random()
    if kind < 0.4:
        asked = [key] + [b"key%d" % chance.randrange(keys) for _ in range(chance.randrange(3))]
        return b"gets" if chance.random() < 0.3 else b"get", asked
    if kind < 0.9:
        verb = chance.choice((b"set", b"set", b"set", *STORES))
        number = chance.randrange(10 ** chance.randrange(1, 21))
        size = chance.randrange(chance.choice((20, 200, longest)))
        value = b"%d" % number if chance.random() < 0.2 else b"v" * size
        unique = None if chance.random() < 0.7 else chance.randrange(1000)
        return verb, key, chance.randrange(2**32), chance.choice(ttls), value, unique
    if kind < 0.95:
        if chance.random() < 0.5:
            return random_lenient_request(chance, key, ttls)
        return b"delete", key
    if kind < 0.9995:
        amount = chance.randrange(2 ** chance.randrange(1, 65))
        return chance.choice((b"incr", b"decr")), key, amount
    return b"flush_all", chance.choice((0, 20))


# segment size, segments, the largest item if it isn't an eighth, tick, how many keys, TTLs that are
# asked for, whether it is lenient
RUNS = (
    (4096, 8, None, 0, 600, (0,), False),
    (4096, 8, None, 1, 90, (0, 0, 5, 20, 60, 100, 300, -1), True),
    (4096, 9, None, 3, 90, (0, 16, 24, 40, 2047, 2048, 5000, 40000, 600000, 9000000), False),
    (8192, 8, None, 0, 900, (0, 0, 8, 30), True),
    (4096, 23, None, 1, 1500, (0, 0, 0, 50, 200, 400), False),
    (4096, 16, 4032, 1, 60, (0, 0, 20, 100), True),
    (8192, 9, 3000, 0, 90, (0, 0, 0, 30, 400), False),
)
# (a script has at most 16 MiB, and large values are in the way)
REQUESTS, REQUESTS_WITH_LARGE_ITEMS = 40_000, 10_000


def long_run(program, number):
    """How often the model merged, cleared and gave back segments."""
    *sizes, largest, tick, keys, ttls, is_lenient = RUNS[number % len(RUNS)]
    options = number % 2 == 1, number // 2 % 2 == 1, number % 3 == 1
    chance, cache = random.Random(number), Cache(*sizes, largest, is_lenient, *options)
    count = REQUESTS_WITH_LARGE_ITEMS if largest else REQUESTS
    # (strictly the block of a refused `append` is read as a line, which has at most 2,048 bytes)
    longest = min(largest or 500, 4032 if is_lenient else 2000)
    requests = [random_request(chance, keys, ttls, longest) for _ in range(count)]
    must_be_answered_as(program, cache, [*requests, (b"stats",)], tick)
    return [cache.counts[it] for it in ("merges", "segments_cleared", "segments_emptied")]


def test_long_runs_are_answered_as_by_the_model(program, request):
    runs = range(request.config.getoption("--model-runs"))
    with concurrent.futures.ProcessPoolExecutor() as processes:
        counts = list(processes.map(long_run, [program] * len(runs), runs))
    assert min(map(sum, zip(*counts))) >= 100


# ---- short ones

def keys_from(first, count):
    return [b"key%d" % number for number in range(first, first + count)]


def writes(first, count, size, exptime):
    """Writes of this number of keys in a row, which fill a small pool."""
    return [(b"set", key, 0, exptime, b"v" * size, None) for key in keys_from(first, count)]


def reads(first, count):
    """One `get` of this number of keys in a row: what merges keep is what was read more often."""
    return [(b"get", keys_from(first, count))]


ALL_KEYS = 240
KEYS = st.sampled_from(keys_from(0, 8))
SOME_KEYS = st.lists(KEYS, min_size=1, max_size=4)
FIRSTS, COUNTS = st.integers(0, ALL_KEYS // 2), st.integers(1, ALL_KEYS // 2)
FEW_EXPTIMES = st.sampled_from([0, 20, 300])
EXPTIMES = st.integers(-2, 2**31) | st.sampled_from(
    [0, 0, 0, 1, 5, 8, 16, 20, 60, 100, 300, 2047, 2048, 5000, 40000, 600000, 9000000, -1])
NUMBERS = st.integers(0, 2**64 - 1)
LONG_VALUES = (st.integers(0, 490) | st.integers(0, 4100)).map(lambda size: b"v" * size)
VALUES = st.one_of(NUMBERS.map(lambda it: b"%d" % it), LONG_VALUES, st.binary(max_size=24))
ONE_REQUEST = st.one_of(
    st.tuples(st.sampled_from([b"get", b"gets"]), SOME_KEYS),
    st.tuples(st.sampled_from([b"set", *STORES]), KEYS, st.integers(0, 2**32 - 1), EXPTIMES, VALUES,
              st.none() | st.integers(0, 40)),
    st.tuples(st.just(b"delete"), KEYS) | st.tuples(st.just(b"delete"), KEYS, st.just(b"0")),
    st.tuples(st.sampled_from([b"incr", b"decr"]), KEYS, NUMBERS),
    st.tuples(st.just(b"touch"), KEYS, EXPTIMES),
    st.tuples(st.sampled_from(SHOWN_AND_TOUCHED), EXPTIMES, SOME_KEYS),
    st.tuples(st.just(b"flush_all"), st.sampled_from([0, 1, 20])),
).map(lambda it: [it])
PARTS = st.one_of(
    ONE_REQUEST,
    st.builds(reads, FIRSTS, COUNTS),
    # (a key counts 127 reads at most)
    st.builds(lambda it, count: [(b"get", [it] * count)], KEYS, st.integers(1, 200)),
    st.builds(writes, FIRSTS, COUNTS, st.integers(100, 480), FEW_EXPTIMES | EXPTIMES),
    st.builds(writes, FIRSTS, st.integers(1, 20), st.integers(500, 4000), FEW_EXPTIMES),
)
# (a list with a least length, so that many are long, which is shortened all the same if one fails)
SCRIPTS = st.integers(0, 30).flatmap(lambda least: st.lists(PARTS, min_size=least, max_size=40))
SIZES = st.sampled_from([
    (4096, 8, None), (4096, 9, None), (8192, 8, None), (4096, 23, None), (4096, 8, 4032),
    (4096, 9, 2056), (8192, 16, 3000)])


@settings(max_examples=100)
@given(SIZES, st.sampled_from([0, 1, 3, 40]), SCRIPTS, st.tuples(*[st.booleans()] * 4))
def test_any_requests_are_answered_as_by_the_model(program, sizes, tick, parts, options):
    """The last ones show all that is left. (Strictly the block of a refused `append` is read as a
    line, and may be one.)"""
    cache, requests = Cache(*sizes, *options), [*sum(parts, []), *reads(0, ALL_KEYS), (b"stats",)]
    if not cache.is_lenient:
        requests = [it for it in requests if it[0] not in JOINS]
    must_be_answered_as(program, cache, requests, tick)
