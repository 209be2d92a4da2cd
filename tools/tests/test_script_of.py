"""tools/script_of.py beside the program: scripts of text and of a recording are answered as the
protocol says, and which lines of a client the program refuses, by which error."""
import re
import signal
import socket
import subprocess
import sys

import pytest
import script_of
from asking import BAD_LINE, ERROR, SET_AND_GET, SET_AND_GET_ANSWER, put, wire
from replays import printed
from script_of import BINARY, TOO_LARGE
from served import TOP, read_to_end
from test_rows import BOTH_TABLES, CLOSED, NO_NUMBER, rows_of

TOOL = [sys.executable, f"{TOP}/tools/script_of.py"]
# The requests of two sessions, and what memcached's protocol says that they are answered.
REQUESTS = b"set a 7 0 3\r\n\x00\xff\n\r\nget a b\r\nadd a 0 0 1\r\nx\r\nquit\r\n"
ANSWERS = b"STORED\r\nVALUE a 7 3\r\n\x00\xff\n\r\nEND\r\nNOT_STORED\r\n"
LATER_REQUESTS = b"incr n 5\r\nset n 0 0 2\r\n37\r\nincr n 5\r\nnonsense\r\nget a\r\n"
LATER_ANSWERS = b"NOT_FOUND\r\nSTORED\r\n42\r\nERROR\r\nVALUE a 7 3\r\n\x00\xff\n\r\nEND\r\n"


def run(*words, data=None):
    ran = subprocess.run([*TOOL, *words], input=data, capture_output=True, check=True, timeout=60)
    return ran.stdout


def test_text_becomes_a_script_and_its_answers_are_shown_as_text(program):
    script = run("text", "-", data=b"set a 0 0 1\nx\r\nget a\n")
    assert script == b"open 0 1\nsend 0 1 73657420612030203020310d0a780d0a67657420610d0a\n"
    shown = run("show", data=printed(program, "", script))
    lines = b"".join(b"    %b\\r\\n\n" % it for it in (b"STORED", b"VALUE a 0 1", b"x", b"END"))
    assert shown == b"worker 0, session 1:\n" + lines


def test_bytes_are_sent_as_they_are_and_sessions_go_to_the_workers_in_turn(program, tmp_path):
    (raw := tmp_path / "raw").write_bytes(REQUESTS)
    script = run("text", "--bytes", raw)
    assert printed(program, "", script) == b"0 1 %b\n" % ANSWERS.hex().encode()
    two = run("text", "--workers", "2", raw, raw)
    assert re.findall(rb"^open (.*)", two, re.MULTILINE) == [b"0 1", b"1 2"]


def said_by_proxy(server, words, sessions):
    """What the tool prints as a proxy through which these sessions with their answers go."""
    words = [*TOOL, *words, "--to", f"127.0.0.1:{server.port}"]
    with subprocess.Popen(words, stdout=subprocess.PIPE, stderr=subprocess.PIPE) as proxy:
        port = int(proxy.stderr.readline().rpartition(b":")[2])
        try:
            for requests, answers in sessions:
                with socket.create_connection(("127.0.0.1", port), 30) as peer:
                    peer.sendall(requests)
                    peer.shutdown(socket.SHUT_WR)
                    assert read_to_end(peer) == answers
            proxy.send_signal(signal.SIGINT)
            return proxy.communicate(timeout=60)[0]
        finally:
            proxy.kill()


def test_a_recording_that_is_replayed_is_answered_as_it_was(program, serve, tmp_path):
    script = said_by_proxy(serve("--workers", "1"),
                           ["record", "--answers", str(tmp_path / "answers")],
                           [(REQUESTS, ANSWERS), (LATER_REQUESTS, LATER_ANSWERS)])
    answers = b"0 1 %b\n0 2 %b\n" % (ANSWERS.hex().encode(), LATER_ANSWERS.hex().encode())
    assert printed(program, "", script) == answers == (tmp_path / "answers").read_bytes()


# ---- what is refused

ERRORS = ("ERROR", "CLIENT_ERROR", "SERVER_ERROR")


def cut(*pieces):
    """The lines that come in these pieces, each with its block's length and whether that ends."""
    asked = []
    cutter = script_of.Cutter(lambda line, why=None, *block: asked.append(why or (line, *block)))
    for piece in pieces:
        cutter.send(piece)
    return asked


def refused(program, words, asked):
    options = ["--segment-size", "1048576", *words]
    return [why for why in script_of.refusals(program, options, asked) if why]


# Rows whose refusals aren't what they are answered: those of too large blocks, of which the tool
# tells with `noreply` too; of others that the program doesn't read as such; and what goes on behind
# the line for which a session is closed.
OTHERS = re.compile(r"[0-9]{6} noreply|ms a 2")


@pytest.mark.parametrize("words", ["--lenient", ""], ids=["lenient", "strict"])
def test_a_line_is_refused_for_its_reason(program, words):
    count = 0
    for of_words, sent, answer in rows_of(*BOTH_TABLES):
        asked = cut(wire(sent))
        is_cut = answer.endswith(CLOSED) and (len(asked) != 1 or sent.startswith("set a 0 0 1|x"))
        is_other = OTHERS.search(sent) or "pend " in sent and not words or answer == CLOSED
        if of_words == words and not is_cut and not is_other:
            # (what an `incr` finds is no fault of its line)
            told = answer.replace(NO_NUMBER, "").split("|")
            wanted = [wire(it) for it in told if it.startswith(ERRORS)]
            assert refused(program, words.split(), asked) == wanted, sent[:60]
            count += 1
    assert count > 60


@pytest.mark.parametrize("sent, why", [
    ("set a 0 0 1|xyz", "CLIENT_ERROR bad data chunk"), ("append a 0 0 5|get  |", "ERROR"),
    ("ms a 2 F0|hi|", "ERROR"), ("get a\n", "CLIENT_ERROR bad command line format")])
def test_a_line_is_refused_with_its_block(program, sent, why):
    assert refused(program, [], cut(wire(sent))) == [wire(why)]


def test_a_stream_is_cut_the_same_however_it_comes():
    lines = [wire(sent) for words, sent, answer in rows_of(*BOTH_TABLES)
             if words and not answer.endswith(CLOSED) and len(sent) < 3000]
    stream = b"".join(lines)
    assert cut(stream) == cut(*(stream[at : at + 1] for at in range(len(stream))))
    assert len(cut(stream)) == sum(len(cut(it)) for it in lines) > 200


LARGE = b"set a 0 0 200000 noreply\r\n" + bytes(200_000) + b"\r\nget a\r\n"


# What a client sends, the options of the server to be, how many lines that is, and by which errors
# some are refused.
@pytest.mark.parametrize("sent, options, lines, errors", [
    ("set a 0 0 7|get  ||incr a 1|", [], 2, []),
    (LARGE, [], 2, [TOO_LARGE]),
    (LARGE, ["--max-item-size", "1048512"], 2, []),
    (put(b"a", bytes(131_048), words=b" noreply") + b"get a\r\n", [], 2, [TOO_LARGE]),
    ("mg a v|get a\n", [], 2, [ERROR.rstrip(), BAD_LINE.rstrip()]),
    ("stats |cache_memlimit 64 noreply|", [], 2, []),
    (b"\x80\x00\x00\x01" + bytes(20) + b"\r\n", [], 1, [BINARY]),
], ids=lambda it: str(it)[:20])
def test_what_a_client_sent_is_counted(program, tmp_path, sent, options, lines, errors):
    (tmp_path / "sent").write_bytes(wire(sent))
    words = "refused", "--program", program, "--lenient", *options, tmp_path / "sent"
    first, *said = run(*words).decode().splitlines()
    assert first == f"{len(errors)} refused of {lines} lines"
    assert all(any(f" {it.decode()}; the first: " in line for line in said) for it in errors)


def test_the_proxy_counts_what_passes_through_it(program, serve):
    session = SET_AND_GET % (b"a", b"a") + b"version\r\nquit\r\n", SET_AND_GET_ANSWER % b"a" + ERROR
    words = ["refused", "--program", program]
    said = said_by_proxy(serve("--workers", "1"), words, [session] * 2).splitlines()
    assert said == [b"2 refused of 8 lines",
                    b"         2  version    ERROR; the first: version\\r\\n"]
