"""The words of the program: what shows help, what is refused with status 2, and the text that names
a number out of its range; and its end where it can't print. (A server that starts is killed, which
is a failure.)"""
import pytest
from served import ended


@pytest.mark.parametrize("words", [
    "--help", "-h", "help", "replay --help", "help replay", "--version"])
def test_help_is_printed(program, words):
    status, out, said = ended(program, *words.split())
    assert status == 0 and out.endswith(b"\n") and said == b""


SERVE = "serve --listen 127.0.0.1:0"
BAD = ["", "replay", "replay a b", "serve", "serve --listen", b"replay \xff"]
BAD += [f"replay a {it}" for it in (
    "--segment-size 4095", "--segment-size 1048577", "--segments 7", "--segments 65537",
    "--max-item-size 511", "--now -1", "--now x", "--tick 18446744073709551616", "--nothing",
    "--workers 0", "--workers 9", "--accept 0", "--accept 65537", "--fail-give 0", "--fail-give x",
    "--lenient yes", "--evict newest", "--storage main", "--storage Workers", "--exact-ttls 1",
    "--spin 1", "--output-memory 67108864",
)]
BAD += [f"{SERVE} {it}" for it in (
    "--max-item-size 1048513", "--evict", "--storage", "--lenient=yes", "--update-in-place=yes",
    "--exact-ttls=yes", "--spin -1", "--spin 1000001", "--connections 0", "--connections 65537",
    "--workers 1 --output-memory 4194303", "--output-memory 1099511627777", "--idle 0",
    "--idle 4294967296", "--sessions 0", "--workers 9", "--workers 0", "--segments 7",
)]


@pytest.mark.parametrize("words", BAD)
def test_bad_words_have_status_2_and_print_nothing(program, words):
    status, out, said = ended(program, *words.split())
    assert (status, out) == (2, b"") and said


# Words with a number out of its range or a value that the option doesn't have, and the text that
# names it. (A sum of output memory is for two workers, unless it is told otherwise.)
NAMED = {
    "replay a --workers 9": "'9' for '--workers <COUNT>': 9 is not in 1..=8\n",
    f"{SERVE} --segments 7": "'7' for '--segments <COUNT>': 7 is not in 8..=65536\n",
    f"{SERVE} --spin 1000001":
        "'1000001' for '--spin <MICROSECONDS>': 1000001 is not in 0..=1000000\n",
    f"{SERVE} --output-memory 4194303":
        "'4194303' for '--output-memory <BYTES>': 4194303 is not in 4194304..=1099511627776\n",
    **{f"{SERVE} {others}--output-memory {least - 1}":
       f"'{least - 1}' for '--output-memory <BYTES>': {least - 1} is less than 4194304 for each of "
       f"{workers} workers\n"
       for others, workers, least in (("", 2, 8_388_608), ("--workers 8 ", 8, 33_554_432))},
    "replay a --storage main": "'main' for '--storage <THREADS>'\n"
                               "  [possible values: thread, workers]\n",
}


@pytest.mark.parametrize("words", NAMED)
def test_a_value_that_an_option_does_not_have_is_named(program, words):
    status, out, said = ended(program, *words.split())
    wanted = f"error: invalid value {NAMED[words]}".encode()
    # (more may stand behind the values that there are)
    is_named = said == wanted or said.startswith(wanted) and b"[possible values" in said
    assert (status, out) == (2, b"") and is_named


# By faults, sizes that don't fit each other.
SIZES = {
    b"bad geometry": ["--segment-size 5000"],
    b"the largest item does not fit a segment": [
        "--segment-size 4096 --max-item-size 4033", "--segment-size 65536 --max-item-size 65473",
        "--segment-size 65536 --max-item-size 1048512"],
}


# (they are told before a bad address)
@pytest.mark.parametrize("words, status", [
    (SERVE, 2), ("serve --listen nothing", 2), ("replay /dev/null", 1)])
def test_sizes_that_do_not_fit_are_told(program, words, status):
    for fault, sizes in SIZES.items():
        for size in sizes:
            said = b"fault: %b\n" % fault
            assert ended(program, *words.split(), *size.split()) == (status, b"", said)


@pytest.mark.parametrize("words", [SERVE, "replay /dev/stdin"])
def test_where_it_cannot_print_it_ends(program, words):
    with open("/dev/full", "wb") as full:
        status, _, said = ended(program, *words.split(), input=b"open 0 1\n", stdout=full)
    # (a server says first how it serves)
    lines = [it for it in said.splitlines() if not it.startswith(b"segcached: ")]
    assert (status, lines) == (1, [b"fault: cannot write"])
