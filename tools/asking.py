"""Requests with the answers that the protocol gives them: for the tests and hostile use."""
import contextlib
import threading
import time

STORED, NOT_STORED, END, ERROR = b"STORED\r\n", b"NOT_STORED\r\n", b"END\r\n", b"ERROR\r\n"
NOT_FOUND, DELETED, TOUCHED = b"NOT_FOUND\r\n", b"DELETED\r\n", b"TOUCHED\r\n"
BAD_LINE, TOO_LONG = b"CLIENT_ERROR bad command line format\r\n", b"CLIENT_ERROR line too long\r\n"
BAD_BLOCK = b"CLIENT_ERROR bad data chunk\r\n"
NO_NUMBER = b"CLIENT_ERROR cannot increment or decrement non-numeric value\r\n"
TOO_LARGE = b"SERVER_ERROR object too large for cache\r\n"
OUT_OF_MEMORY = b"SERVER_ERROR out of memory\r\n"
SET_AND_GET = b"set %b 0 0 1\r\nx\r\nget %b\r\n"
SET_AND_GET_ANSWER = b"STORED\r\nVALUE %b 0 1\r\nx\r\nEND\r\n"
MISS = b"get none\r\n"


def wire(text):
    """The bytes of a text in which `|` ends a line; bytes as they are."""
    return text.replace("|", "\r\n").encode("latin-1") if isinstance(text, str) else text


def ask(stream, request, answer):
    """Sends a request and gets its answer, each in bytes or as a text for `wire`."""
    answer = wire(answer)
    stream.sendall(wire(request))
    got = b""
    # (another answer may be a shorter one, which nothing follows)
    while len(got) < len(answer) and answer.startswith(got):
        piece = stream.recv(len(answer) - len(got))
        if not piece:
            break
        got += piece
    assert got == answer


def ask_set_and_get(stream, key):
    ask(stream, SET_AND_GET % (key, key), SET_AND_GET_ANSWER % key)


def seconds_to(stream, request=MISS, answer=END):
    began = time.monotonic()
    ask(stream, request, answer)
    return time.monotonic() - began


def opened(server, count, request=b"", answer=b""):
    """This many connections: each has sent the request, and then each is answered."""
    streams = [server.connect() for _ in range(count)]
    for text, wanted in ((request, b""), (b"", answer)):
        for stream in streams:
            ask(stream, text, wanted)
    return streams


def put(key, value, verb=b"set", flags=0, exptime=0, words=b""):
    return b"%b %b %d %d %d%b\r\n%b\r\n" % (verb, key, flags, exptime, len(value), words, value)


def get(key, times=1):
    return b"get" + b" %b" % key * times + b"\r\n"


def hits(key, value, flags=0, cas=None, times=1):
    """This many hits of a key, as they are shown."""
    unique = b"" if cas is None else b" %d" % cas
    return b"VALUE %b %d %d%b\r\n%b\r\n" % (key, flags, len(value), unique, value) * times


def hit(key, value, flags=0, cas=None, times=1):
    return hits(key, value, flags, cas, times) + END


def is_same(got, wanted):
    """Whether they are, of bytes that are too many to be shown where they differ."""
    return got == wanted


def beside(call, *given):
    """Calls it in a thread of its own, until its stream is closed."""
    def run():
        with contextlib.suppress(OSError):
            call(*given)

    thread = threading.Thread(target=run, daemon=True)
    thread.start()
    return thread


def flood(stream, requests):
    """Sends requests faster than they are answered, and reads the answers, until it is closed."""
    def repeat(call, given):
        while call(given) != b"":
            pass

    beside(repeat, stream.sendall, requests)
    beside(repeat, stream.recv, 1 << 20)
    time.sleep(0.2)


# ---- clients that read nothing

LARGE = b"v" * 131_000


def write_large(server):
    with server.connect() as stream:
        ask(stream, put(b"large", LARGE), STORED)


def asks_for(server, keys, receive_buffer=65_536):
    """A client that has asked once for this many large values, and has read nothing."""
    stream = server.connect(receive_buffer=receive_buffer)
    stream.sendall(get(b"large", keys))
    return stream
