"""Starts and stops a served program, and tells what it takes: for the tests, hostile use and the
benchmark.

    with Server(PROGRAM, "--workers", "1") as server, server.connect() as stream:
        stream.sendall(b"get a\r\n")

A server listens on a free port of 127.0.0.1 unless it is told another address, and is ended with
the block.
"""
import concurrent.futures
import contextlib
import glob
import itertools
import os
import re
import resource
import signal
import socket
import struct
import subprocess
import time

from prove import PROGRAM, TOP, read  # (the tests have the program from here)


def version():
    text = read(f"{TOP}/crates/proto/src/version.rt")
    return re.search(r'"(\d+\.\d+\.\d+)"', text)[1]


def words_of(file, name):
    """The words of a file's line NAME=WORDS."""
    return re.search(rf"^{name}=(.*)$", read(f"{TOP}/{file}"), re.MULTILINE)[1].split()


# What the package sets: its options, those with the sizes of segments and items, and the C
# library's settings.
OPTIONS = words_of("packaging/segcached.default", "OPTIONS")
LOCAL = words_of("packaging/segcached.local", "LOCAL")
SIZES = ("--segment-size", "--max-item-size")
OF_THE_PACKAGE = [*OPTIONS, *(it for name in SIZES for it in (name, LOCAL[LOCAL.index(name) + 1]))]
TUNABLES = words_of("packaging/systemd/segcached.service", "Environment=GLIBC_TUNABLES")[0]


class Trouble(Exception):
    """What must not happen did."""


class Gone(Trouble, EOFError):
    """The other end went away."""


class NotServing(Trouble):
    """The program ended in place of serving: with this status and these words on standard error."""

    def __init__(self, status, fault):
        super().__init__(f"the program ended with status {status}, and wrote {fault!r}")
        self.status, self.fault = status, fault


class Process:
    """A process that is ended with the block that uses it, and may listen at an address."""

    path, host, port = None, "127.0.0.1", 0

    def __init__(self, words, environment=None, limits=None, stderr=subprocess.PIPE):
        def begin():
            # (what runs these may ignore them, as a shell's background does, and so would a child)
            for number in (signal.SIGHUP, signal.SIGINT):
                signal.signal(number, signal.SIG_DFL)
            for what, most in (limits or {}).items():
                resource.setrlimit(what, (most, most))

        self.process = subprocess.Popen(words, stdout=subprocess.PIPE, stderr=stderr, text=True,
                                        env=environment, preexec_fn=begin)
        self.was_stopped, self.streams = False, []

    def connect(self, seconds=20, receive_buffer=None):
        """A connection whose calls wait for at most this number of seconds. It ends with the
        process, if not before."""
        of_tcp = socket.AF_INET6 if ":" in self.host else socket.AF_INET
        stream = socket.socket(socket.AF_UNIX if self.path else of_tcp)
        self.streams = [it for it in self.streams if it.fileno() >= 0] + [stream]
        if receive_buffer:
            stream.setsockopt(socket.SOL_SOCKET, socket.SO_RCVBUF, receive_buffer)
        stream.settimeout(seconds)
        stream.connect(self.path or (self.host, self.port))
        return stream

    def stop(self):
        self.was_stopped = True
        for it in self.streams:
            it.close()
        self.process.kill()
        self.process.wait()
        for pipe in (self.process.stdout, self.process.stderr):
            if pipe:
                pipe.close()

    def __enter__(self):
        return self

    def __exit__(self, *_):
        self.stop()

    def errors(self):
        """What it wrote to standard error, if that is our pipe, without a server's first lines."""
        said = self.process.stderr.read() if self.process.stderr else ""
        return re.sub(r"\A(segcached: (--listen|takes|warning:) .*\n)+", "", said)

    def kilobytes(self, what):
        """A line of the process's status: VmRSS is what is resident."""
        return int(re.search(rf"{what}:\s+(\d+)", read(f"/proc/{self.process.pid}/status"))[1])

    def threads(self):
        """The number of each of its threads, by its name."""
        folder = f"/proc/{self.process.pid}/task"
        return {read(f"{folder}/{it}/comm").strip(): int(it) for it in os.listdir(folder)}

    def descriptors(self):
        """How many it has open, but for those of /proc, where it looks for its own times."""
        folder, count = f"/proc/{self.process.pid}/fd", 0
        for it in os.listdir(folder):
            with contextlib.suppress(FileNotFoundError):
                count += not os.readlink(f"{folder}/{it}").startswith("/proc/")
        return count

    def sleeps(self, thread):
        """How often one of its threads has gone to sleep."""
        text = read(f"/proc/{thread}/status")
        return int(re.search(r"\nvoluntary_ctxt_switches:\s+(\d+)", text)[1])

    def processor_seconds(self):
        """What all its threads have run (the kernel counts nanoseconds there, ticks elsewhere)."""
        folder = f"/proc/{self.process.pid}/task"
        return sum(int(read(f"{folder}/{it}/schedstat").split()[0])
                   for it in os.listdir(folder)) / 1e9


class Server(Process):
    """`segcached serve` with these words, which a command may start that has others before it."""

    def __init__(self, program, *words, listen="127.0.0.1:0", under=(), **how):
        super().__init__([*under, program, "serve", "--listen", listen, *words], **how)
        self.first_line = self.process.stdout.readline()
        found = re.fullmatch(r"listening on (?:unix:(.+)|(.+):([1-9][0-9]*))\n", self.first_line)
        if not found:
            if self.first_line:
                self.process.kill()
            status, fault = self.process.wait(30), self.errors()
            self.stop()
            raise NotServing(status, self.first_line + fault)
        self.path, self.host = found[1], (found[2] or "").strip("[]")
        self.port = int(found[3] or 0)

    def probe(self):
        """The command of the probe that the package has."""
        where = [f"unix:{self.path}"] if self.path else [self.host, str(self.port)]
        return [f"{TOP}/packaging/examples/probe.sh", *where]

    def must_run(self):
        if self.process.poll() is not None:
            status = self.process.returncode
            raise Trouble(f"the server ended with status {status}: {self.errors()}")

    def __exit__(self, *_):
        try:
            # (one with a number of sessions to accept ends by itself)
            if not self.was_stopped and self.process.poll() != 0:
                self.must_run()
        finally:
            self.stop()


class Client:
    def __init__(self, server, seconds=10):
        self.stream = server.connect(seconds)
        self.answers = self.stream.makefile("rb")

    def line(self):
        line = self.answers.readline()
        if not line.endswith(b"\r\n"):
            raise Gone(f"the server went away after {line!r}")
        return line[:-2]

    def ask(self, text):
        self.stream.sendall(text + b"\r\n")
        return self.line()

    def set(self, key, value, verb=b"set", tail=b"", exptime=0):
        return self.ask(b"%s %s 0 %d %d%s\r\n%s" % (verb, key, exptime, len(value), tail, value))

    def get(self, key, verb=b"get"):
        """The value, for `gets` and `gats` with the cas number; None if there is none."""
        head = self.ask(b"%s %s" % (verb, key)).split(b" ")
        if head == [b"END"]:
            return None
        value, end = self.answers.read(int(head[3]) + 2), self.line()
        if head[:2] != [b"VALUE", key] or value[-2:] != b"\r\n" or end != b"END":
            raise Trouble(f"{verb} of {key} was answered {head}, and {end!r} after the value")
        return (value[:-2], int(head[4])) if verb.split()[0] in (b"gets", b"gats") else value[:-2]


class OnPort(Process):
    """Another program, whose words say its port: it listens there when this returns."""

    def __init__(self, port, words, environment=None):
        super().__init__(words, environment)
        self.port = port

        def listens():
            with contextlib.suppress(OSError):
                self.connect(1).close()
                return True

        if not comes_true(listens, 20):
            self.stop()
            raise Trouble(f"{words[0]} doesn't listen on port {port}")


class Memcached(OnPort):
    """Debian's memcached, with so many threads and MiB."""

    def __init__(self, threads=4, megabytes=64, environment=None):
        port = free_port()
        words = f"memcached -u nobody -l 127.0.0.1 -c 4096 -p {port} -t {threads} -m {megabytes}"
        super().__init__(port, words.split(), environment)


def ended(*words, seconds=60, **how):
    how = {"stdout": subprocess.PIPE, "stderr": subprocess.PIPE, **how}
    done = subprocess.run(words, timeout=seconds, check=False, **how)
    return done.returncode, done.stdout, done.stderr


def compiled(name, folder, *words):
    """Compiles a C file of tools into a folder with these words of gcc: gives the path."""
    made, source = f"{folder}/{name}", f"{TOP}/tools/{name}.c"
    subprocess.run(["gcc", "-O2", "-Wall", "-Wextra", "-o", made, source, *words], check=True)
    return made


def refusals(kind, folder):
    """Numbers, each with the environment of a run in which the request with that number is refused:
    for memory by REFUSE_NTH, for a thread by REFUSE_THREAD. In the last run there is none."""
    shim, note = compiled("refuse_nth", folder, "-shared", "-fPIC", "-ldl"), f"{folder}/refused"
    for number in itertools.count(1):
        variables = {"LD_PRELOAD": shim, kind: str(number), "REFUSED_FILE": note}
        yield number, {**os.environ, **variables}
        if not os.path.exists(note):
            return
        os.remove(note)


def with_faketime(**variables):
    library = glob.glob("/usr/lib/*/faketime/libfaketimeMT.so.1")[0]
    return {**os.environ, "LD_PRELOAD": library, **variables}


def free_port():
    with socket.socket() as it:
        it.bind(("127.0.0.1", 0))
        return it.getsockname()[1]


def install(*packages):
    if subprocess.run(["dpkg", "-s", *packages], capture_output=True, check=False).returncode:
        for words in (["update"], ["install", "-y", "--no-install-recommends", *packages]):
            quiet = {**os.environ, "DEBIAN_FRONTEND": "noninteractive"}
            subprocess.run(["apt-get", *words], check=True, stdout=subprocess.DEVNULL, env=quiet)


def comes_true(holds, seconds=10):
    """Whether this holds before so many seconds are over."""
    until = time.monotonic() + seconds
    while not (is_true := holds()) and time.monotonic() < until:
        time.sleep(0.02)
    return is_true


def together(calls):
    """What these calls give, each in a thread of its own; raises what the first one raised."""
    calls = list(calls)
    with concurrent.futures.ThreadPoolExecutor(len(calls)) as pool:
        return [it.result() for it in [pool.submit(call) for call in calls]]


def read_exactly(stream, count):
    """This number of bytes, or those up to the end."""
    parts = []
    while count > 0:
        part = stream.recv(min(count, 1 << 20))
        if not part:
            break
        parts.append(part)
        count -= len(part)
    return b"".join(parts)


def read_to_end(stream):
    return read_exactly(stream, 1 << 60)


def read_till_closed(stream):
    """All that comes until the stream is closed, by a reset too."""
    got = bytearray()
    with contextlib.suppress(ConnectionResetError):
        while part := stream.recv(1 << 16):
            got += part
    return bytes(got)


def reset(stream):
    """Closes at once, so that the peer is told of a reset."""
    stream.setsockopt(socket.SOL_SOCKET, socket.SO_LINGER, struct.pack("ii", 1, 0))
    stream.close()
