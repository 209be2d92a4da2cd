#!/usr/bin/env python3
"""What `make run` does: shows a script of two requests and what segcached answers, and then talks
to a served socket.

    tools/run.py

If nothing is proved yet, the script first runs on a build that is checked as it runs (`rt try`),
which takes a minute. Meanwhile the proofs begin, of which there is a line for each crate. At the
end the proved program replays the script and serves. What was proved is kept: an interrupt loses
none of it, and if all is kept the proved program runs at once.

A run from nothing leaves the line that docs/GATE.md has of it in out/run_times.
"""
import contextlib
import os
import resource
import signal
import subprocess
import sys
import time

import prove
from served import Server, read_to_end

SCRIPT = "scripts/first.script"
REQUESTS = b"set a 0 0 1\r\nx\r\nget a\r\n"
QUIT = b"quit\r\n"
ANSWERS = b"STORED\r\nVALUE a 0 1\r\nx\r\nEND\r\n"
CRATE = "crates/segcached"
TRY = ["rt", "try", "--data", f"first.script=../../{SCRIPT}", "--", "replay", "first.script"]
# What a run from nothing took.
TIMES = "out/run_times"


def say(text=""):
    print(text, flush=True)


def show(text):
    say("".join(f"    {line}\n" for line in text.splitlines())[:-1])


def spelled(bytes_):
    return bytes_.decode().replace("\r", "\\r").replace("\n", "\\n")


@contextlib.contextmanager
def started(words, **how):
    """A process that is asked to end and is waited for, however the block ends."""
    with subprocess.Popen(words, stdin=subprocess.DEVNULL, **how) as process:
        try:
            yield process
        finally:
            process.terminate()


def show_answers(given):
    """Shows these bytes, and ends with status 1 if they aren't what the protocol says."""
    show(given.decode())
    if given != ANSWERS:
        sys.exit("segcached: that is not what the protocol says")


def show_replay(printed):
    say(f"{printed.rstrip()}\n\nWorker 0 gave session 1 these bytes:")
    show_answers(bytes.fromhex(printed.split()[-1]) if printed.split() else b"")
    say()


def try_and_prove():
    """Runs the script on a build that is checked as it runs, and shows how the proofs go on. (They
    begin beside it: all crates wait for the first one.)"""
    began = time.monotonic()
    with started([sys.executable, "tools/prove.py"]) as proving:
        say("The first answer comes from a build that isn't proved yet and is checked as it runs;"
            f" it takes a minute to start.\n$ cd {CRATE} && {' '.join(TRY)}")
        to = {"stdout": subprocess.PIPE, "stderr": subprocess.PIPE, "text": True}
        with started(TRY, cwd=CRATE, **to) as tried:
            printed, said = tried.communicate()
        if tried.returncode:
            sys.exit(f"{said}segcached: the script did not run")
        show_replay(printed)
        say("This build is checked as it runs, and not proved yet.\n")
        first = time.monotonic() - began
        proving.wait()
    if proving.returncode:
        sys.exit("segcached: not all of it is proved")
    if " is kept: " in prove.read(f"{prove.PROGRAM}.log"):
        return
    # What a run from nothing took, with the processor time of all that ran below this process.
    used, spelled_out = resource.getrusage(resource.RUSAGE_CHILDREN), prove.minutes_and_seconds
    line = (f"make run: the first reply after {spelled_out(first)}, the proved program after"
            f" {spelled_out(time.monotonic() - began)},"
            f" {(used.ru_utime + used.ru_stime) / 60:.0f} processor minutes")
    prove.write(TIMES, f"{time.strftime('%Y-%m-%d %H:%M UTC', time.gmtime())}, {line}\n")
    say(f"{line}.")


def serve():
    say("$ segcached serve --listen 127.0.0.1:0")
    with Server(prove.PROGRAM, stderr=None) as server, server.connect() as client:
        say(server.first_line.rstrip())
        say(f"A client sends {spelled(REQUESTS + QUIT)} to {server.host}:{server.port}, and reads:")
        client.sendall(REQUESTS + QUIT)
        show_answers(read_to_end(client))


def end(number, _):
    for it in prove.ENDS:
        signal.signal(it, signal.SIG_IGN)
    sys.exit(128 + number)


def main():
    for it in prove.ENDS:
        signal.signal(it, end)
    os.chdir(prove.TOP)
    prove.stop_where_lacking(prove.lacks_kit())
    is_kept = prove.is_kept()
    if not is_kept:
        prove.stop_where_lacking(prove.lacks_memory())
    say(f"The script {SCRIPT}:")
    show(prove.read(SCRIPT))
    say(f"It opens session 1 and sends: {spelled(REQUESTS)}\n")
    if not is_kept:
        try_and_prove()
        say()
    say(f"$ segcached replay {SCRIPT}")
    show_replay(subprocess.check_output([prove.PROGRAM, "replay", SCRIPT], text=True))
    serve()


if __name__ == "__main__":
    main()
