"""What an operator is told of connections that are closed: the peer, the reason and the line, and
never a value."""
import os
import re
import resource
import time

import pytest
from asking import END, MISS, beside, opened
from served import read_to_end

MALFORMED = 'malformed storage line: "set a 0 0 no"'
OF_A_PEER = r"closed 127\.0\.0\.1:[0-9]+: "


def send_and_lose(server, sent):
    """Waits until the server has closed the connection. It returns what the other end is called."""
    with server.connect() as stream:
        stream.sendall(sent)
        read_to_end(stream)
        return "a Unix socket" if server.path else "{}:{}".format(*stream.getsockname())


def lines_of(server, seconds=2.5):
    """What is written to standard error until then, without the line of the options."""
    time.sleep(seconds)
    os.set_blocking(server.process.stderr.fileno(), False)
    said = server.process.stderr.read() or ""
    return [it for it in said.splitlines() if not it.startswith("segcached: ")]


# What is sent, further options, and the reason that is told, if one is.
ENDS = {
    "malformed": (b"set a 0 0 no\r\nget b\r\n", "", MALFORMED),
    "another length": (
        b"set a 0 0 5\r\nsecret\r\n", "", 'data block of another length: "set a 0 0 5"'),
    "too large": (b"set a 0 0 9000000\r\nsecret", "", 'data block too large: "set a 0 0 9000000"'),
    "too long": (b"get " + b"k" * 40_000, "", 'line too long: "get ' + "k" * 60 + '"'),
    "binary": (
        b"\x80\x01\x00\x06\x08\x00\x00\x00\x00\x00\x00\x10" + b"\x00" * 12 + b"secret", "",
        r'binary protocol: "\x80\x01\x00\x06\x08\x00\x00\x00\x00\x00\x00\x10'
        + r"\x00" * 12 + '"'),
    "a line of bytes": (b'set "a\\\x01\xff 0 0 x\r\n', "",
                        r'malformed storage line: "set \"a\\\x01\xff 0 0 x"'),
    "what came before and behind the line": (
        b"set k 0 0 6\r\nsecret\r\nget k\r\nset a 0 0 no\r\nsecret\r\n", "", MALFORMED),
    "idle": (b"", "--idle 1", "idle"),
    "a path": (b"set a 0 0 no\r\n", "", MALFORMED),
    "quit": (b"quit\r\n", "", None),
    "quit behind an error": (b"nonsense\r\nquit\r\n", "", None),
    "quiet": (b"set a 0 0 no\r\n", "--quiet", None),
}


@pytest.mark.parametrize("name", ENDS)
def test_each_reason_is_told_with_the_line(serve, tmp_path, name):
    sent, words, reason = ENDS[name]
    listen = f"unix:{tmp_path}/cache" if name == "a path" else "127.0.0.1:0"
    server = serve("--lenient", *words.split(), listen=listen)
    peer = send_and_lose(server, sent)
    opened(server, 1, MISS, END)[0].close()
    assert lines_of(server) == ([f"closed {peer}: {reason}"] if reason else [])


def test_one_for_which_there_is_no_memory_is_told(serve):
    """Values grow until the process may have no more memory, which threads take at one place."""
    words = "--lenient --workers 1 --segment-size 1048576 --max-item-size 1048512".split()
    one_place = {**os.environ, "GLIBC_TUNABLES": "glibc.malloc.arena_max=1"}
    server = serve(*words, environment=one_place)
    opened(server, 1, MISS, END)
    most = server.kilobytes("VmSize") * 1024 + (4 << 20)
    resource.prlimit(server.process.pid, resource.RLIMIT_AS, (most, most))
    for stream in opened(server, 40):
        beside(stream.sendall, b"set a 0 0 1000000\r\n" + b"v" * 500_000)
    lines = [it for it in lines_of(server) if it.startswith("closed ")]
    form = OF_A_PEER + "out of memory(; [0-9]+ more for this)?"
    assert lines and all(re.fullmatch(form, it) for it in lines), lines


def test_of_each_reason_one_line_is_told_in_a_second_and_the_others_are_counted(serve):
    server, since = serve("--lenient", "--workers", "2"), time.monotonic()
    for _ in range(50):
        send_and_lose(server, b"set a 0 0 no\r\n")
        send_and_lose(server, b"\x80")
    lines = lines_of(server)
    took = time.monotonic() - since
    malformed = [it for it in lines if "malformed storage line" in it]
    assert len(lines) - len(malformed) <= took + 1 and 1 <= len(malformed) <= took + 1
    more = [re.search(r"; ([0-9]+) more for this$", it) for it in malformed]
    assert len(malformed) + sum(int(found[1]) for found in more if found) == 50
