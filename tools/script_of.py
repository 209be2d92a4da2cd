#!/usr/bin/env python3
"""Makes scripts for `segcached replay`, shows what it printed, and says what of a client's traffic
segcached would refuse.

    tools/script_of.py text [--workers N] [--bytes] FILE ..
    tools/script_of.py record --to ADDR [--listen ADDR] [--workers N] [--sessions N]
                              [--answers FILE]
    tools/script_of.py show [FILE]
    tools/script_of.py refused --to ADDR [--listen ADDR] [--sessions N] [OPTION ..]
    tools/script_of.py refused [OPTION ..] FILE ..

`text` prints a script in which each FILE is a session (`-` is standard input). A line feed of a
file is sent as the end of a line of the protocol, CR LF, unless a CR stands before it already; with
--bytes the bytes are sent as they are. Sessions are numbered from 1, and go to the workers in turn.

`record` is a proxy: what its clients send goes to the server at --to, and the answers back. When it
is interrupted, or when --sessions have come and gone, it prints the script of what was sent, in the
order in which it came. --answers writes what each session was answered, as `segcached replay`
prints it. `show` reads what that printed, and prints each session's answers as text.

`refused` is the same proxy, in front of memcached: it keeps no script, but has a segcached
(--program, or the one to which this tool belongs) answer each line, and at its end prints those
that were refused, by command and reply, with their count and the first of each. Of a FILE, which
has the bytes that a client sent, it says the same. Its OPTIONs are those of the server to be:
--lenient, --segment-size B and --max-item-size I.
"""
import argparse
import asyncio
import collections
import concurrent.futures
import contextlib
import pathlib
import re
import signal
import socket
import subprocess
import sys

MOST_BYTES = 16_777_216
PIECE = 16_384


class Trouble(Exception):
    """What ends the tool with a line on standard error."""


class Script:
    def __init__(self, workers):
        self.workers, self.lines, self.length, self.newest = workers, [], 0, 0

    def worker_of(self, session):
        return (session - 1) % self.workers

    def add(self, line):
        self.length += len(line) + 1
        if self.length > MOST_BYTES:
            raise Trouble(f"the script would have more than {MOST_BYTES:,} bytes")
        self.lines.append(line)

    def open(self):
        self.newest += 1
        self.add(f"open {self.worker_of(self.newest)} {self.newest}")
        return self.newest

    def send(self, session, data):
        for at in range(0, len(data), PIECE):
            self.add(f"send {self.worker_of(session)} {session} {data[at : at + PIECE].hex()}")

    def text(self):
        return "".join(f"{line}\n" for line in self.lines)


def read_file(name):
    return sys.stdin.buffer.read() if name == "-" else pathlib.Path(name).read_bytes()


def shown(data):
    return data.decode("latin-1").encode("unicode_escape").decode("ascii")


def run_text(words):
    script = Script(words.workers)
    for name in words.files:
        data = read_file(name)
        if not words.bytes:
            data = data.replace(b"\r\n", b"\n").replace(b"\n", b"\r\n")
        script.send(script.open(), data)
    sys.stdout.write(script.text())


def address(text):
    host, colon, port = text.rpartition(":")
    if not colon or not port.isdigit():
        raise argparse.ArgumentTypeError(f"{text} isn't an address and a port, as 127.0.0.1:11211")
    return host.strip("[]"), int(port)


class Proxy:
    """A proxy in front of a server. `observe` gives, for each session, what is called with the
    bytes that its client sends, and with those that it is answered."""

    def __init__(self, words, observe):
        self.words, self.observe, self.begun, self.ended = words, observe, 0, 0

    async def run(self):
        """Ends when it is interrupted, when all sessions have come and gone, or with a fault."""
        self.is_over, self.trouble = asyncio.Event(), None
        for number in (signal.SIGINT, signal.SIGTERM):
            asyncio.get_running_loop().add_signal_handler(number, self.is_over.set)
        listening = socket.create_server(self.words.listen, backlog=128)
        self.listener = await asyncio.start_server(self.serve, sock=listening)
        host, port = listening.getsockname()[:2]
        print(f"recording on {host}:{port}", file=sys.stderr, flush=True)
        await self.is_over.wait()
        if self.trouble:
            raise self.trouble

    async def serve(self, requests, client):
        """One session, in both directions."""
        self.begun += 1
        if self.begun == self.words.sessions:
            self.listener.close()
        try:
            sent, answered = self.observe()
            opening = asyncio.open_connection(*self.words.to)
            answers, server = await asyncio.wait_for(opening, 10)
            await asyncio.gather(self.pass_on(requests, server, sent),
                                 self.pass_on(answers, client, answered))
            server.close()
        except (Trouble, OSError) as trouble:
            self.trouble = trouble
        client.close()
        self.ended += 1
        if self.trouble or self.ended == self.words.sessions:
            self.is_over.set()

    async def pass_on(self, source, target, keep):
        with contextlib.suppress(OSError):
            while data := await source.read(PIECE):
                keep(data)
                target.write(data)
                await target.drain()
        with contextlib.suppress(OSError):
            target.write_eof()


def run_record(words):
    script, answers = Script(words.workers), {}

    def observe():
        session = script.open()
        answers[session] = bytearray()
        return lambda data: script.send(session, data), answers[session].extend

    asyncio.run(Proxy(words, observe).run())
    sys.stdout.write(script.text())
    if words.answers:
        # (by worker and then session, as `segcached replay` prints them)
        rows = sorted((script.worker_of(it), it, answers[it].hex() or "-") for it in answers)
        pathlib.Path(words.answers).write_text("".join("%d %d %s\n" % it for it in rows))


# ---- what is refused

# Of each command with a data block, at which place of the line the block's length stands.
LENGTHS = dict.fromkeys((b"set", b"add", b"replace", b"append", b"prepend", b"cas"), 4) | {b"ms": 2}
# memcached closes a session whose line is longer.
MOST_LINE = 1_048_576
# A longer block isn't sent to the program: the line alone, or silence, says that it is too large.
# (no item has more bytes than a segment)
MOST_BLOCK = 1_048_578
# How many lines, and bytes, are answered in one replay.
LINES_AT_ONCE, BYTES_AT_ONCE = 5_000, 4_000_000
TOO_LARGE, BINARY = b"SERVER_ERROR object too large for cache", b"(the binary protocol)"
# Errors that depend on what is stored, and not on the line.
OF_VALUES = (b"CLIENT_ERROR cannot increment or decrement non-numeric value",
             b"SERVER_ERROR out of memory")


def block_length(line):
    """How many bytes of data memcached reads after a line, with the end of the data."""
    words = line.split() or [b""]
    place = LENGTHS.get(words[0], 0)
    is_given = 0 < place < len(words) and words[place].isdigit()
    return int(words[place]) + 2 if is_given else 0


class Cutter:
    """What one client sends, cut into lines with their blocks as memcached cuts it."""

    def __init__(self, keep):
        self.keep, self.unread, self.is_open, self.is_new = keep, bytearray(), True, True

    def send(self, data):
        self.unread += data
        while self.is_open and self.unread and self.take():
            self.is_new = False

    def take(self):
        """Takes a line with its block, if it is there whole."""
        if self.is_new and self.unread[0] in (0x80, 0x81):
            self.is_open = False
            self.keep(b"", BINARY)
            return True
        end = self.unread.find(b"\n") + 1
        line = bytes(self.unread[:end])
        length = block_length(line)
        if not end or len(self.unread) < end + length:
            self.is_open = len(self.unread) <= MOST_LINE + length
            return False
        has_end = self.unread[end + length - 2 : end + length] == b"\r\n"
        del self.unread[: end + length]
        self.keep(line, None, length, has_end)
        return True


def question(line, length, has_end):
    """What the program is sent for a line: it suppresses no reply, and its data are zeros."""
    if not line.endswith(b"\r\n"):
        return line + b"\r\n"
    if not length:
        return line
    line = re.sub(rb" noreply *\r\n$", b"\r\n", line)
    block = bytes(length - 2) + (b"\r\n" if has_end else b"xx")
    return line + (block if length <= MOST_BLOCK else b"")


def refusals(program, words, asked):
    """For each line, with its block's length and whether that ends as it says, the error by which
    the program refuses it, or None."""
    script = Script(1)
    for it in asked:
        script.send(script.open(), question(*it))
    ran = subprocess.run([program, "replay", "/dev/stdin", *words], input=script.text().encode(),
                         capture_output=True, check=False)
    if ran.returncode:
        raise Trouble(ran.stderr.decode(errors="replace").strip())
    for (_, length, _), answer in zip(asked, ran.stdout.split(b"\n")):
        given = bytes.fromhex(answer.split(b" ")[2].decode().replace("-", "")).split(b"\r\n")
        errors = [it for it in given if re.match(rb"(ERROR|CLIENT_ERROR|SERVER_ERROR)\b", it)]
        if length > MOST_BLOCK and given == [b""]:
            errors = [TOO_LARGE]
        yield next((it for it in errors if it not in OF_VALUES), None)


class Refusals:
    """Counts what is refused, of all sessions together, in one thread of its own."""

    def __init__(self, program, words):
        self.program, self.words, self.lines, self.asked, self.size = program, words, 0, [], 0
        self.counts, self.firsts = collections.Counter(), {}
        self.pool, self.counted = concurrent.futures.ThreadPoolExecutor(1), []

    def keep(self, line, why=None, length=0, has_end=True):
        """Keeps a line to be asked about, or counts one for which the program isn't asked."""
        self.lines += 1
        if why:
            self.counted.append(self.pool.submit(self.count, line, why))
            return
        self.asked.append((line, length, has_end))
        self.size += len(line) + min(length, MOST_BLOCK)
        if len(self.asked) >= LINES_AT_ONCE or self.size >= BYTES_AT_ONCE:
            self.ask()

    def ask(self):
        self.counted.append(self.pool.submit(self.count_refused, self.asked))
        self.asked, self.size = [], 0

    def count_refused(self, asked):
        for (line, *_), why in zip(asked, refusals(self.program, self.words, asked)):
            if why:
                self.count(line, why)

    def count(self, line, why):
        kind = line.split(b" ")[0].strip()[:20].decode("latin-1"), why.decode()
        self.counts[kind] += 1
        self.firsts.setdefault(kind, line)

    def text(self):
        self.ask()
        for it in self.counted:
            it.result()
        rows = [f"{sum(self.counts.values()):,} refused of {self.lines:,} lines\n"]
        for (word, why), count in self.counts.most_common():
            first = shown(self.firsts[word, why][:60])
            rows.append(f"{count:10,}  {word:10} {why}; the first: {first}\n")
        return "".join(rows)


def run_refused(words):
    # (the program of the repository or of the installation to which this tool belongs, or of the
    # path)
    here = pathlib.Path(__file__).resolve().parent
    places = here / "../crates/segcached/out/segcached", here / "../../../../bin/segcached"
    program = words.program or str(next(filter(pathlib.Path.exists, places), "segcached"))
    options = ["--segment-size", str(words.segment_size), *["--lenient"] * words.lenient]
    if words.max_item_size:
        options += ["--max-item-size", str(words.max_item_size)]
    refused = Refusals(program, options)
    if words.to:
        # (what a client is answered says nothing here)
        observe = lambda: (Cutter(refused.keep).send, lambda _: None)
        asyncio.run(Proxy(words, observe).run())
    for name in words.files:
        Cutter(refused.keep).send(read_file(name))
    sys.stdout.write(refused.text())


def run_show(words):
    for line in read_file(words.file).decode("ascii", "replace").splitlines():
        try:
            worker, session, digits = line.split(" ")
            data = bytes.fromhex("" if digits == "-" else digits)
        except ValueError:
            raise Trouble(f"not a line of `segcached replay`: {line[:60]}") from None
        print(f"worker {worker}, session {session}:")
        for piece in data.splitlines(keepends=True):
            print(f"    {shown(piece)}")


def read_words():
    parser = argparse.ArgumentParser(
        description=__doc__, formatter_class=argparse.RawDescriptionHelpFormatter)
    kinds = parser.add_subparsers(dest="kind", required=True)
    text, record, show, refused = map(kinds.add_parser, ("text", "record", "show", "refused"))
    text.add_argument("files", nargs="+", metavar="FILE")
    text.add_argument("--bytes", action="store_true")
    record.add_argument("--answers", metavar="FILE")
    show.add_argument("file", nargs="?", default="-", metavar="FILE")
    refused.add_argument("files", nargs="*", metavar="FILE")
    refused.add_argument("--segment-size", type=int, default=1_048_576, metavar="B")
    refused.add_argument("--max-item-size", type=int, metavar="I")
    refused.add_argument("--lenient", action="store_true")
    refused.add_argument("--program")
    for kind in (record, refused):
        kind.add_argument("--to", type=address, required=kind is record)
        kind.add_argument("--listen", type=address, default=("127.0.0.1", 0))
        kind.add_argument("--sessions", type=int)
    for kind in (text, record):
        kind.add_argument("--workers", type=int, default=1, choices=range(1, 9))
    words = parser.parse_args()
    if words.kind == "refused" and bool(words.to) == bool(words.files):
        refused.error("give --to, or files")
    return words


def main():
    words = read_words()
    try:
        globals()[f"run_{words.kind}"](words)
    except (Trouble, OSError) as trouble:
        sys.exit(f"script_of: {trouble}")


if __name__ == "__main__":
    main()
