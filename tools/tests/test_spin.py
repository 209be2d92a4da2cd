"""`serve --spin`: for how long threads look for work before they sleep. (All waits take six
seconds.)

A thread that looks for work is running or waits for a processor, and one that sleeps isn't and
doesn't, however busy the machine is.
"""
import contextlib
import ctypes
import os
import time

import pytest
import tries
from asking import END, ask
from served import read

THREADS = "storage", "worker 0"
SPIN = 0.6
# The seconds between two looks at what a thread does.
EVERY = 0.005

# Of ptrace(2) and waitpid(2).
SEIZE, INTERRUPT, DETACH = 0x4206, 0x4207, 17
ALL_KINDS = 0x40000000


def trace(request, thread):
    call = ctypes.CDLL(None, use_errno=True).ptrace
    call.argtypes = [ctypes.c_long, ctypes.c_long, ctypes.c_void_p, ctypes.c_void_p]
    if call(request, thread, None, None):
        raise OSError(ctypes.get_errno(), "ptrace")


@contextlib.contextmanager
def stopped(thread):
    """A thread that stands still, while the others of its process go on."""
    trace(SEIZE, thread)
    trace(INTERRUPT, thread)
    os.waitpid(thread, ALL_KINDS)
    try:
        yield
    finally:
        trace(DETACH, thread)


def runs(thread):
    """Whether a thread is running, or waits for a processor."""
    return read(f"/proc/{thread}/stat").rpartition(")")[2].split()[0] == "R"


def shares(server, seconds):
    """In which share of looks during the next seconds each of two threads runs."""
    threads, looks, found = server.threads(), 0, dict.fromkeys(THREADS, 0)
    until = time.monotonic() + seconds
    while time.monotonic() < until:
        looks += 1
        for name in THREADS:
            found[name] += runs(threads[name])
        time.sleep(EVERY)
    return {name: count / looks for name, count in found.items()}


def test_storage_and_a_worker_look_for_work_after_each_request_and_then_sleep(serve):
    server = serve("--workers", "1", "--spin", str(int(SPIN * 1e6)))

    def attempt():
        found = []
        for _ in range(2):
            ask(stream, b"get a\r\n", END)
            looking = shares(server, SPIN - 0.1)
            # (each counts its time from when it first found nothing)
            time.sleep(0.4)
            found.append((looking, shares(server, SPIN)))
        return all(min(looking.values()) > 0.7 and max(sleeping.values()) < 0.3
                   for looking, sleeping in found), found

    with server.connect() as stream:
        tries.in_two_of_three(attempt)


@pytest.mark.parametrize("words, spins", [
    (["--spin", "1000000"], True), (["--spin", "0"], False), ([], False),
], ids=["spin", "spin 0", "none"])
def test_a_worker_that_waits_for_an_answer_looks_for_it(serve, words, spins):
    """It runs, or, once it has looked for long, sleeps for a millisecond between two looks. One
    that doesn't look sleeps for 100."""
    server = serve("--workers", "1", *words)

    def attempt():
        with stopped(threads["storage"]):
            stream.sendall(b"get a\r\n")
            before = server.sleeps(threads["worker 0"])
            share = shares(server, SPIN)["worker 0"]
            count = server.sleeps(threads["worker 0"]) - before
        assert stream.recv(5) == END
        is_fine = share > 0.5 or count > 40 if spins else share < 0.3 and count < 20
        return is_fine, (share, count)

    with server.connect() as stream:
        ask(stream, b"get a\r\n", END)
        threads = server.threads()
        tries.in_two_of_three(attempt)
