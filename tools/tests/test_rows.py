"""The worked rows of the protocol: what one session sends, and what it is given, by `segcached
replay` and over a socket, in both dialects. Those of evictions stand in test_evictions.py.

All values stand here as they were worked out by hand from the protocol. `|` ends a line.
"""
import time

import pytest
from asking import ask, wire
from model import VERSION
from replays import given
from served import read_to_end

BAD, ERROR = "CLIENT_ERROR bad command line format|", "ERROR|"
TOO_LARGE, TOO_LONG = "SERVER_ERROR object too large for cache|", "CLIENT_ERROR line too long|"
BAD_BLOCK = "CLIENT_ERROR bad data chunk|"
NO_NUMBER = "CLIENT_ERROR cannot increment or decrement non-numeric value|"
# Is behind the answers of a session that was closed.
CLOSED = "~"
HIT = "VALUE a 0 1|x|END|"
BROKEN = ERROR + TOO_LONG + CLOSED
LONG_KEY = "k" * 250
# The most bytes of a block, of which 131,047 are a value; and a block of 200,000 bytes, which may
# have those of requests.
BLOCK, LARGE = "z" * 131_072, "get a|b|" * 20_000
LONGEST = BLOCK[25:]
BINARY_GET = "\x80\0\0\1" + "\0" * 7 + "\1" + "\0" * 12 + "a"


def get_of(count):
    """A `get` of this number of keys of 24 bytes."""
    return "get" + "".join(f" key-{number:020}" for number in range(count)) + "|"


def get_of_long(count, rest):
    """A `get` of this number of long keys, and one with the rest of the bytes."""
    return "get" + f" {LONG_KEY}" * count + f" {'k' * rest}|"


# What a session sends and what it is given: in both dialects, or leniently and strictly (None where
# a row is of the other dialect alone).
ANSWERS = {
    "set a 0 0 1|x|get a|": "STORED|VALUE a 0 1|x|END|",
    "set a 0 0 7|get b||get a|": "STORED|VALUE a 0 7|get b||END|",
    "set a 0 0 0||gets a b|": "STORED|VALUE a 0 0 1||END|",
    "set a 0 0 0||cas a 0 0 1 1|y|cas a 0 0 1 1|z|cas b 0 0 1 1|w|":
        "STORED|STORED|EXISTS|NOT_FOUND|",
    "set n 0 0 1|3|decr n 5|": "STORED|0|",
    "incr a 1|decr a 1|": "NOT_FOUND|NOT_FOUND|",
    "add a 0 0 1|x|add a 0 0 1|y|replace b 0 0 1|y|replace a 7 0 1|z|get a a|":
        "STORED|NOT_STORED|NOT_STORED|STORED|VALUE a 7 1|z|VALUE a 7 1|z|END|",
    "set a 0 0 1|x|delete a|delete a|get a|": "STORED|DELETED|NOT_FOUND|END|",
    "set a 0 0 1|x|flush_all|get a|set a 0 0 1|y|gets a|":
        "STORED|OK|END|STORED|VALUE a 0 1 2|y|END|",
    "foo||get a|foo|": "ERROR|ERROR|END|ERROR|",
    "set a 0 0 1 noreply|x|set a 0 0 1|y|quit|get a|": "STORED|" + CLOSED,
    "set a 0 0 2|xyz|get a|get a|": BAD_BLOCK + CLOSED,
    "set a 0 0 1|x\ry": BAD_BLOCK + CLOSED,
    "set a 0 0 1 noreply|xyz|": BAD_BLOCK + CLOSED,
    "set a 0 -1 1|x|get a|set b 0 0 1|x|gets b|": "STORED|END|STORED|VALUE b 0 1 1|x|END|",
    "set a 00 0 1|get a|": BAD + CLOSED,
    "get  a|get a\nget a|get a|": BAD + BAD + "END|",
    "POST / HTTP/1.1|Host: cache||set http 0 0 1|x|": 3 * ERROR + "STORED|",
    # (numbers, lines and blocks that are faulty or at their limits)
    "set a 4294967295 0 1|x|get a|": "STORED|VALUE a 4294967295 1|x|END|",
    "set a 4294967296 0 1|get a|": BAD + CLOSED,
    "set a 0 10000000000 1|get a|": BAD + CLOSED,
    "set a 0 -0 1|get a|": BAD + CLOSED,
    "set a 0 0 10000000000|get a|": BAD + CLOSED,
    "set a 0 9999999999 1|x|get a|": "STORED|" + HIT,
    "set a 0 0 9999999999|get a|": TOO_LARGE + CLOSED,
    "incr a 18446744073709551615|incr a 18446744073709551616|": "NOT_FOUND|" + BAD,
    "get| get a|GET a|": BAD + ERROR + ERROR,
    "set n 0 0 20|00000000000000000007|incr n 1|get n|": "STORED|8|VALUE n 0 1|8|END|",
    **{f"set n 0 0 {len(value)}|{value}|incr n 1|": "STORED|" + answer for value, answer in {
        "0" * 19 + "5": "6|", "18446744073709551615": "0|", "18446744073709551616": NO_NUMBER,
        "0" * 20 + "5": NO_NUMBER, "x": NO_NUMBER, "5 ": NO_NUMBER, " 5": NO_NUMBER,
        "+5": NO_NUMBER, "-5": NO_NUMBER, "": NO_NUMBER}.items()},
    "set " + "k" * 251 + " 0 0 1|get a|": BAD + CLOSED,
    f"set {LONG_KEY} 0 0 1|x|get {LONG_KEY}k|get {LONG_KEY}|":
        f"STORED|{BAD}VALUE {LONG_KEY} 0 1|x|END|",
    "a" * 2046 + "|": ERROR,
    "a" * 2047 + "|get a|": (ERROR + "END|", TOO_LONG + CLOSED),
    "a" * 2048 + "get a|": (ERROR, TOO_LONG + CLOSED),
    get_of(50) + get_of(80): "END|END|",
    get_of(82): ("END|", TOO_LONG + CLOSED),
    get_of_long(8, 34): "END|",
    get_of_long(8, 36): ("END|", TOO_LONG + CLOSED),
    get_of_long(130, 132): ("END|", TOO_LONG + CLOSED),
    get_of_long(130, 134): TOO_LONG + CLOSED,
    "stats|": (None, ERROR),
    # (cas numbers: one that is joined has a new one, and one that is touched keeps its own)
    "set a 7 0 1|x|touch a 100000|touch a 20|gets a|": (
        "STORED|TOUCHED|TOUCHED|VALUE a 7 1 1|x|END|", None),
    "set a 7 0 1|x|append a 0 0 1|y|gets a|cas a 0 0 1 1|z|get a|": (
        "STORED|STORED|VALUE a 7 2 2|xy|END|EXISTS|VALUE a 7 2|xy|END|", None),
    "set a 7 0 1|x|gats 100000 a|gats 20 a|gats 20 a|gat 20 a|cas a 0 0 1 1|z|": (
        "STORED|" + 3 * "VALUE a 7 1 1|x|END|" + "VALUE a 7 1|x|END|STORED|", None),
}

# The same behind `set a 0 0 1` and an x, which is stored.
AFTER_A_SET = {
    # (spaces before the end of a line, and elsewhere)
    "get a |get a   |gets a b |": (HIT + HIT + "VALUE a 0 1 1|x|END|", BAD * 3),
    "delete a |flush_all |": ("DELETED|OK|", BAD * 2),
    "flush_all 0 noreply |get a|": ("END|", BAD + HIT),
    "quit |get a|": (CLOSED, BAD + HIT),
    "set a 0 0 1 |y|": ("STORED|", BAD + CLOSED),
    "set a 0 0 1 noreply |y|get a|": ("VALUE a 0 1|y|END|", BAD + CLOSED),
    "set a 0 0 2|x |get a|": "STORED|VALUE a 0 2|x |END|",
    "get |get  |   |get  a|get  a | get a|": BAD + BAD + ERROR + BAD + BAD + ERROR,
    "gets a b noreply|get \xc3\xa4|get a\x7f|": "VALUE a 0 1 1|x|END|END|" + BAD,
    "cas a 0 0 1 18446744073709551615|y|": "EXISTS|",
    "ms a 2 F0|hi|": ERROR * 2,
    "cas a 0 0 1 18446744073709551616|y|": BAD + CLOSED,
    "delete 0|delete a 0 0|decr a 01|get a|": "NOT_FOUND|" + BAD * 2 + HIT,
    # (touches)
    "touch a 60|get a|": ("TOUCHED|" + HIT, ERROR + HIT),
    "touch a 60 noreply|touch b 60 noreply|touch b 60|get a|": (
        "NOT_FOUND|" + HIT, ERROR * 3 + HIT),
    "touch a 0|get a|touch a -1|get a|": (
        "TOUCHED|" + HIT + "TOUCHED|END|", 2 * (ERROR + HIT)),
    "set a 0 60 1|x|touch a 0|touch a -1|get a|": (
        "STORED|TOUCHED|TOUCHED|END|", "STORED|" + ERROR + ERROR + HIT),
    "touch a 4294967295|get a|": ("TOUCHED|END|", ERROR + HIT),
    "touch a|touch a soon|touch a 10000000000|get a|": (BAD * 3 + HIT, ERROR * 3 + HIT),
    "gat 100 a|get a|gat 0 a|get a|": (4 * HIT, 2 * (ERROR + HIT)),
    "gat 100 b a b a|get a|": ("VALUE a 0 1|x|" + HIT + HIT, ERROR + HIT),
    "gats 5 a b|gats -1 b a|get a|": (2 * "VALUE a 0 1 1|x|END|" + "END|", 2 * ERROR + HIT),
    "gat 100 b|gat 100 b noreply|get a|": ("END|END|" + HIT, ERROR * 2 + HIT),
    "gat -1 a b|get a|": (HIT + "END|", ERROR + HIT),
    "gat 4294967295 a|get a|": (HIT + "END|", ERROR + HIT),
    f"gat 60|gats|gat a 60|gats soon a|gat 5  a|gat 5 {LONG_KEY}k|get a|": (
        BAD * 6 + HIT, ERROR * 6 + HIT),
    # (values that are joined: strictly a block is a line)
    "append a 0 0 5|get a|get a|": ("STORED|VALUE a 0 6|xget a|END|", ERROR + HIT + HIT),
    "append a 7 -1 1|y|gets a|": (
        "STORED|VALUE a 0 2 2|xy|END|", ERROR + ERROR + "VALUE a 0 1 1|x|END|"),
    "append a 0 0 1 noreply|y|get a|": ("VALUE a 0 2|xy|END|", ERROR + ERROR + HIT),
    "prepend a 0 0 5|get b|get a|": ("STORED|VALUE a 0 6|get bx|END|", ERROR + "END|" + HIT),
    "prepend a 4294967295 -1 1|y|get a|": ("STORED|VALUE a 0 2|yx|END|", ERROR + ERROR + HIT),
    "prepend a 0 0 1 noreply|y|get a|": ("VALUE a 0 2|yx|END|", ERROR + ERROR + HIT),
    "append a 0 0 0||get a|": ("STORED|" + HIT, ERROR + ERROR + HIT),
    "append b 0 0 0||append b 0 0 1|x|prepend b 0 0 1|x|get b|": (
        3 * "NOT_STORED|" + "END|", 6 * ERROR + "END|"),
    "append a 0 0 6|get b||": (BAD_BLOCK + CLOSED, ERROR + "END|" + ERROR),
    "prepend a 0 0 6|get b||": (BAD_BLOCK + CLOSED, ERROR + "END|" + ERROR),
    "get a|append a 0 0 1|y|get b|": (HIT + "STORED|END|", HIT + ERROR + ERROR + "END|"),
    "set n 0 0 1|9|append n 0 0 1|9|incr n 1|": (
        "STORED|STORED|100|", "STORED|" + ERROR + ERROR + "10|"),
    "append a 0 0 1|xyz|get b|": (BAD_BLOCK + CLOSED, ERROR + ERROR + "END|"),
    "append a 0 0|get b|": (BAD + CLOSED, ERROR + "END|"),
    "prepend a 4294967296 0 1|y|": (BAD + CLOSED, ERROR + ERROR),
    # (lines that change nothing, and those that tell nothing)
    "version|verbosity 1|get a|": (VERSION.decode() + "OK|" + HIT, ERROR * 2 + HIT),
    "version 1 |get a|": (VERSION.decode() + HIT, ERROR + HIT),
    "verbosity 1 noreply|cache_memlimit 64 noreply|get a|": (HIT, ERROR * 2 + HIT),
    "stats items|stats slabs |stats settings all|stats sizes|": ("END|" * 4, ERROR * 4),
    "stats reset|stats resets|lru_crawler metadump all|": (BAD + "END|END|", ERROR * 3),
    "cache_memlimit 64|lru_crawler enable|stat|STATS|get a|": ERROR * 4 + HIT,
    "delete a 1|delete a 00|get a|": BAD * 2 + HIT,
    "delete a 0|get a|delete b 0|": ("DELETED|END|NOT_FOUND|", BAD + HIT + BAD),
    "delete a 0 noreply|get a|": ("END|", BAD + HIT),
    # (exptimes of 32 bits)
    "set a 0 4294967295 1|y|get a|": ("STORED|END|", "STORED|VALUE a 0 1|y|END|"),
    "set a 0 2147483648 1|y|get a|": ("STORED|END|", "STORED|VALUE a 0 1|y|END|"),
    "set a 0 2147483647 1|y|get a|": "STORED|VALUE a 0 1|y|END|",
    "add b 0 4294967295 1|y|get b|": ("STORED|END|", "STORED|VALUE b 0 1|y|END|"),
    # (items and blocks that are too large, and the largest)
    f"set a 0 0 131047|{LONGEST}|get a|": f"STORED|VALUE a 0 131047|{LONGEST}|END|",
    f"set a 0 0 131048|{LONGEST}z|get a|": (TOO_LARGE + "END|", TOO_LARGE + HIT),
    f"set a 0 0 131048 noreply|{LONGEST}z|get a|": ("END|", HIT),
    f"set a 0 0 131072|{BLOCK}|get a|": (TOO_LARGE + "END|", TOO_LARGE + HIT),
    f"replace a 0 0 131048|{LONGEST}z|get a|": TOO_LARGE + HIT,
    f"append b 0 0 131048|{LONGEST}z|get b|": (TOO_LARGE + "END|", BROKEN),
    f"append a 0 0 131072|{BLOCK}|get a|": (TOO_LARGE + HIT, BROKEN),
    f"append a 0 0 131073|{BLOCK}z|get a|": (TOO_LARGE + HIT, BROKEN),
    f"set a 0 0 131073|{BLOCK}zzzget a|": (TOO_LARGE + "END|", TOO_LARGE + CLOSED),
    f"set a 0 0 200000|{LARGE}|get a|": (TOO_LARGE + "END|", TOO_LARGE + CLOSED),
    f"set a 0 0 200000 noreply|{LARGE}|get a|": ("END|", TOO_LARGE + CLOSED),
    f"set a 0 0 200000|{LARGE}xyget a|": (TOO_LARGE + "END|", TOO_LARGE + CLOSED),
    f"set b 0 0 200000|{LARGE}|get b a|": (TOO_LARGE + HIT, TOO_LARGE + CLOSED),
    f"add a 0 0 200000|{LARGE}|get a|": (TOO_LARGE + HIT, TOO_LARGE + CLOSED),
    f"replace a 0 0 200000|{LARGE}|get a|": (TOO_LARGE + HIT, TOO_LARGE + CLOSED),
    f"cas a 0 0 200000 1|{LARGE}|get a|": (TOO_LARGE + HIT, TOO_LARGE + CLOSED),
    "get a|" + 2 * f"add b 0 0 200000|{LARGE}|get b|": (
        HIT + 2 * (TOO_LARGE + "END|"), HIT + TOO_LARGE + CLOSED),
    "set a 0 0 8388609|get b|": TOO_LARGE + CLOSED,
    "append a 0 0 9999999999 noreply|get b|": (TOO_LARGE + CLOSED, ERROR + "END|"),
    # (the longest lines)
    "a" * 32_766 + "|get a|": (ERROR + HIT, TOO_LONG + CLOSED),
    "a" * 32_767 + "|get a|": TOO_LONG + CLOSED,
    "a" * 32_768 + "get a|": TOO_LONG + CLOSED,
    "a" * 32_765 + "  |get a|": TOO_LONG + CLOSED,
    # (the binary protocol)
    BINARY_GET: (CLOSED, None),
    "get a|\x80\x0b" + "\0" * 22: (HIT + CLOSED, None),
}
# (a script has no room for it)
OF_SOCKETS = {f"set a 0 0 1|x|set a 0 0 8388608|{64 * BLOCK}|get a|": (
    "STORED|" + TOO_LARGE + "END|", "STORED|" + TOO_LARGE + CLOSED)}


def rows_of(*tables):
    """Of each dialect's options, what is sent and what is given."""
    for words, place in ("--lenient", 0), ("", 1):
        for prefix, begins, table in tables:
            for sent, answers in table.items():
                answer = answers if isinstance(answers, str) else answers[place]
                if answer is not None:
                    yield words, prefix + sent, begins + answer


BOTH_TABLES = ("", "", ANSWERS), ("set a 0 0 1|x|", "STORED|", AFTER_A_SET)
SIZES = "--segment-size 1048576 "


@pytest.mark.parametrize("words", ["--lenient", ""], ids=["lenient", "strict"])
def test_answers_to_sessions(program, words):
    """Behind each row a miss is asked for."""
    for of_words, sent, answer in rows_of(*BOTH_TABLES):
        if of_words == words:
            wanted = answer.removesuffix(CLOSED) + "END|" * (not answer.endswith(CLOSED))
            assert given(program, SIZES + words, sent + "get none|") == wire(wanted), sent[:60]


@pytest.mark.parametrize("piece", [1 << 20, 7], ids=["whole", "in pieces"])
@pytest.mark.parametrize("words, sent, answer", rows_of(*BOTH_TABLES, ("", "", OF_SOCKETS)),
                         ids=lambda it: it[:40])
def test_answers_over_a_socket(serve, words, sent, answer, piece):
    stream, sent = serve(*SIZES.split(), *words.split()).connect(), wire(sent)
    # (what is long comes in longer pieces)
    step = piece if len(sent) < 1000 else piece * 9000
    for at in range(0, len(sent), step):
        stream.sendall(sent[at : at + step])
        time.sleep(0.002 * (piece == 7))
    if answer.endswith(CLOSED):
        assert read_to_end(stream) == wire(answer[:-1])
    else:
        ask(stream, "get none|", answer + "END|")


@pytest.mark.parametrize("words", ["--lenient", ""], ids=["lenient", "strict"])
@pytest.mark.parametrize("sent", ["get a", "set a 0 0 1|x\r", BINARY_GET])
def test_what_is_not_whole_is_not_answered(program, sent, words):
    assert given(program, words, sent) == b""


# ---- with other options

ABC = "set a 0 16 1|w|set b 0 16 1|x|set c 0 16 1|y|set d 0 16 1|z|"
ALL = "VALUE a 0 1|w|VALUE b 0 1|x|VALUE c 0 1|y|VALUE d 0 1|z|END|"
COUNTING = ("set n 7 60 1|5|get n|incr n 1|incr n 1|incr n 1|incr n 3|incr n 88|get n|decr n 90|"
            "gets n|get n|get n|")
TO_99, NINE = "STORED|VALUE n 7 1|5|END|6|7|8|11|99|VALUE n 7 2|99|END|", "VALUE n 7 1|9|END|"
A_MINUTE, X = "set a 0 60 1|x|", "x" * 8166
SET_N, HIT_OF_N, TWO = "set n 0 16 1|x|", "VALUE n 0 1|x|END|", "VALUE n 0 1|2|END|"
# By the words what a session sends, and what it is given. A deadline is that of the segment: the
# life asked for cut down to a multiple of 8 seconds, from the moment at which the segment was
# opened; with `least-read` from the last multiple of 4 before, unless the life is shorter than 8.
BY_WORDS = {
    "--now 1000 --tick 5": {
        "set a 0 5 1|x|get a|": "STORED|END|",
        "set a 0 6 1|x|get a|": "STORED|END|",
        "set a 0 0 1|x|flush_all 10|get a|get a|": "STORED|OK|VALUE a 0 1|x|END|END|",
        "set a 0 0 1|x|flush_all 5|set b 0 0 1|y|get a b|": "STORED|OK|STORED|VALUE b 0 1|y|END|",
        "set a 0 0 1|x|flush_all 10|flush_all 20|get a|": "STORED|OK|OK|VALUE a 0 1|x|END|",
        "flush_all 00|flush_all -1|flush_all 10000000000|flush_all 10 noreply|": BAD * 3,
    },
    "--now 2592000 --tick 1": {
        "set a 0 2592000 1|x|get a|": "STORED|" + HIT,
        "set a 0 2592001 1|x|get a|": "STORED|END|",
    },
    "--now 18446744073709551615 --tick 18446744073709551615": {
        "set a 0 0 1|x|get a|": "STORED|" + HIT,
    },
    # (a `flush_all` takes a delay and no moment: this one comes in some fifty years)
    "--now 1795737600 --tick 1": {
        "set a 0 0 1|x|flush_all 1795737600|get a|": "STORED|OK|" + HIT,
    },
    "--now 1000 --tick 15": {"set a 0 16 1|x|get a|": "STORED|" + HIT},
    "--now 1000 --tick 16": {"set a 0 16 1|x|get a|": "STORED|END|"},
    "--now 1000 --tick 0": {"set a 0 5 1|x|get a|": "STORED|" + HIT},
    "--now 1000 --tick 1": {"set a 0 5 1|x|get a|": "STORED|END|"},
    "--now 1000 --tick 3": {
        ABC + 3 * "get a b c d|": 4 * "STORED|" + ALL + ALL + "VALUE d 0 1|z|END|",
        "set n 0 16 1|1|incr n 1|get n|get n|get n|": "STORED|2|" + TWO + TWO + "END|",
    },
    "--now 1003 --tick 5": {SET_N + 3 * "get n|": "STORED|" + 3 * HIT_OF_N},
    "--now 1003 --tick 5 --evict least-read": {
        SET_N + 3 * "get n|": "STORED|" + 2 * HIT_OF_N + "END|"},
    "--now 1003 --evict least-read": {"set n 0 7 1|x|get n|": "STORED|" + HIT_OF_N},
    # (a counter of 60 seconds is shown or counted each five seconds, and an item joined each
    # second, where they stand or anew)
    "--tick 5 --update-in-place": {COUNTING: TO_99 + "9|VALUE n 7 1 7|9|END|" + 2 * NINE},
    "--tick 5": {COUNTING: TO_99 + "NOT_FOUND|" + 3 * "END|"},
    "--tick 1 --lenient --update-in-place": {
        A_MINUTE + 56 * "append a 0 0 0||": 56 * "STORED|" + "NOT_STORED|"},
    "--tick 1 --lenient": {A_MINUTE + 8 * "append a 0 0 0||": 8 * "STORED|" + "NOT_STORED|"},
    **{f"--tick 1 --lenient --exact-ttls {it}": {
        A_MINUTE + 60 * "append a 0 0 1|y|": 60 * "STORED|" + "NOT_STORED|"}
       for it in ("", "--update-in-place", "--update-in-place --evict least-read")},
    # (an item has at most 8,192 bytes: a value of 8,167 at a key of one)
    "--lenient": {
        f"set a 0 0 8166|{X}|append a 0 0 1|y|append a 0 0 1|z|prepend a 0 0 1|z|"
        "append a 0 0 0||get a|":
            f"STORED|STORED|{2 * TOO_LARGE}STORED|VALUE a 0 8167|{X}y|END|"},
    "": {"set a 0 0 131073|get b|": TOO_LARGE},
    "--segment-size 1048576 --max-item-size 1048512": {
        f"set a 0 0 131072|{BLOCK}|get a|": f"STORED|VALUE a 0 131072|{BLOCK}|END|",
        f"set a 0 0 131073|{BLOCK}z|get a|": TOO_LARGE,
    },
    "--segment-size 4096 --segments 8": {
        "set a 0 0 487|" + "x" * 487 + "|": "STORED|",
        "set a 0 0 488|" + "x" * 488 + "|get b|": TOO_LARGE + "END|",
        "set a 0 0 131073|get b|": TOO_LARGE,
    },
}


@pytest.mark.parametrize("words", BY_WORDS)
def test_answers_with_other_options(program, words):
    rows = BY_WORDS[words]
    assert {it: given(program, words, it) for it in rows} == {it: wire(rows[it]) for it in rows}
