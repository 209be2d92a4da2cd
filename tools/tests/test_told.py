"""What docs/OPERATIONS.md says of a served program, and docs/INSTALL.md of TLS. (The rows of
docs/CLIENTS.md stand in test_rows.py.)"""
import os
import re
import select
import signal
import ssl
import subprocess
import textwrap
import threading
import time

import pytest
import served
from asking import END, SET_AND_GET, SET_AND_GET_ANSWER, STORED, ask, opened, put

PACKAGING = f"{served.TOP}/packaging"
PORT = "127.0.0.1:0"


def stop(number):
    """Stops a process: it returns once all threads have stopped, which takes a moment."""
    os.kill(number, signal.SIGSTOP)
    os.waitid(os.P_PID, number, os.WSTOPPED)


@pytest.mark.parametrize("listen", [PORT, "unix:{}"], ids=["port", "path"])
def test_the_probe_says_whether_it_answers(program, listen, tmp_path):
    """A stopped process takes connections, and doesn't answer."""
    with served.Server(program, listen=listen.format(tmp_path / "cache")) as server:
        probe = server.probe()
        assert subprocess.run(probe).returncode == 0
        stop(server.process.pid)
        stream, = opened(server, 1, b"get health\r\n")
        assert not select.select([stream], [], [], 0.3)[0]
        assert subprocess.run(probe).returncode != 0
        server.process.send_signal(signal.SIGCONT)
        ask(stream, put(b"health", b"x"), END + STORED)
        assert subprocess.run(probe).returncode == 0
    assert subprocess.run(probe).returncode != 0


@pytest.mark.parametrize("listen", [
    ["127.0.0.1:{0}"], ["[::]:{0}"], ["unix:{1}"], ["unix:{1}", "127.0.0.1:{0}"],
], ids=["port", "all addresses", "path", "path and port"])
def test_in_a_container_the_probe_finds_process_1(serve, apart, listen, tmp_path):
    command, port = apart("--pid", "--mount-proc", "--fork", "--kill-child"), served.free_port()
    first, *others = (it.format(port, tmp_path / "cache") for it in listen)
    server = serve(*(f"--listen={it}" for it in others), listen=first, under=command)
    number = server.process.pid
    child = served.read(f"/proc/{number}/task/{number}/children").strip()
    inside = ["nsenter", "--target", child, "--pid", "--mount", server.probe()[0]]
    assert subprocess.run(inside).returncode == 0
    # (one that is stopped answers nobody)
    os.kill(int(child), signal.SIGSTOP)
    assert subprocess.run(inside).returncode != 0


def is_ready(server, *words):
    """How the script that the units wait for ends, which is given the options and the process."""
    process = {**os.environ, "MAINPID": str(server.process.pid)}
    ran = subprocess.run([f"{PACKAGING}/ready.sh", *words], env=process, timeout=20)
    return ran.returncode == 0


@pytest.mark.parametrize("listen", [PORT, "0.0.0.0:0", "[::1]:0", "[::]:0", "unix:{}"])
def test_a_service_counts_as_started_once_it_answers(serve, listen, tmp_path):
    server = serve(listen=listen.format(tmp_path / "cache"))
    address = server.first_line.split()[-1]
    assert is_ready(server, "--lenient", "--listen", address, "--workers", "2")
    assert is_ready(server, f"--listen={address}")
    stop(server.process.pid)
    goes_on = threading.Timer(0.5, server.process.send_signal, [signal.SIGCONT])
    began = time.monotonic()
    goes_on.start()
    assert is_ready(server, "--listen", address) and time.monotonic() - began > 0.4
    goes_on.join()


def test_a_service_that_has_ended_is_not_started_where_another_server_has_its_port(program, serve):
    address = f"127.0.0.1:{serve().port}"
    with served.Process([program, "serve", "--listen", address]) as second:
        assert second.process.wait(10) == 3
        assert not is_ready(second, "--listen", address)


def test_a_taken_port_is_seen_before_a_start(serve, tmp_path):
    taken = [f"{PACKAGING}/taken.sh", "--workers", "2", "--listen"]
    address = f"127.0.0.1:{serve().port}"
    # (of several addresses it is the first of TCP, and of paths alone the first one)
    path = serve(listen=f"unix:{tmp_path}/cache").first_line.split()[-1]
    for words, found in (
        (address, address), (f"{path} --listen unix:/run/none", path),
        (f"unix:/run/none --listen={address} --listen 127.0.0.1:1", address),
        (f"{PORT} --listen {path}", path),
    ):
        assert served.ended(*taken, *words.split(), text=True) == (0, f"{found}\n", "")
    for free in ("unix:/run/none", f"127.0.0.1:{served.free_port()}", PORT):
        assert served.ended(*taken, free)[0] == 1


def must_end(server, number):
    server.process.send_signal(number)
    assert server.process.wait(1) == -number
    server.was_stopped = True


@pytest.mark.parametrize("file", ["systemd/segcached.service", "examples/Containerfile"])
def test_started_as_a_service_it_ignores_what_nobody_expects_to_end_it(serve, file):
    """By the words before the program in a unit or a container file."""
    form = r"(/usr/bin/env)\W+(--ignore-signal=[A-Z0-9,]+)\W+/usr/(?:local/)?bin/segcached\b"
    server = serve(under=re.search(form, served.read(f"{PACKAGING}/{file}")).groups())
    for number in (signal.SIGHUP, signal.SIGUSR1, signal.SIGUSR2):
        server.process.send_signal(number)
    ask(server.connect(), "get a|", END)
    must_end(server, signal.SIGTERM)


@pytest.mark.parametrize("number", [signal.SIGHUP, signal.SIGINT, signal.SIGTERM])
def test_a_signal_ends_it_at_once(serve, number):
    must_end(serve(), number)


TAKES = "segcached: takes about {} MiB of memory at most"
WARNS = "segcached: warning: its control group may have {} MiB, so the kernel may kill it"
MIB = 1 << 20
OF_THE_PACKAGE = [*served.OF_THE_PACKAGE, "--segments", "64"]


def said(program, words, under=()):
    with served.Server(program, *words, under=under) as server:
        server.process.kill()
        server.was_stopped = True
        return server.process.stderr.read().splitlines()[1:]


def most(workers, connections, segments, segment_size, values, reply, output=64):
    """The sum in MiB, rounded up, with so much output of each worker. (A slot of the index is for
    an item of 32 bytes in half of the room.)"""
    slots = 1 << (segments * segment_size // 16 - 1).bit_length()
    store = segments * segment_size * 257 // 256 + 11 * segment_size + slots * 4
    worker = connections * (1024 + 262_144 + 16_384) + (52 + values + 3 * (output + reply)) * MIB
    return -(-(store + workers * worker + 16 * MIB) // MIB)


@pytest.mark.parametrize("words, wanted", [
    (OF_THE_PACKAGE, 1924),
    ([*OF_THE_PACKAGE, "--output-memory", "16777216"], 1588),
    ([], most(2, 1024, 64, 65536, 160, 128)),
    ("--lenient --workers 8 --connections 65536 --segment-size 4096".split(),
     most(8, 65536, 64, 4096, 40, 8)),
    (["--workers", "3", "--output-memory", str(24 * MIB)], most(3, 1024, 64, 65536, 160, 128, 8)),
    (["--output-memory", str(1 << 40)], most(2, 1024, 64, 65536, 160, 128, 1 << 19)),
], ids=["the package", "with little output", "no options", "many connections", "a budget for three",
        "the most output"])
def test_the_sum_is_told(program, words, wanted):
    assert said(program, words)[0] == TAKES.format(wanted)


GROUP = """
set -e
mount -t tmpfs none /sys/fs/cgroup
group=$(sed -n 's/^0:://p' /proc/self/cgroup)
mkdir -p "/sys/fs/cgroup$group"
echo "$0" >/sys/fs/cgroup/memory.max
echo max >"/sys/fs/cgroup$group/memory.current"
exec "$@"
"""


@pytest.mark.parametrize("limit, warning", [
    (600 * MIB, [WARNS.format(600)]), (1924 * MIB, []), ("max", [])])
def test_a_control_group_with_less_is_warned_of(program, apart, limit, warning):
    """The system's files of limits are replaced for the server alone."""
    group = apart("--mount", "sh", "-c", GROUP, str(limit))
    assert said(program, OF_THE_PACKAGE, group) == [TAKES.format(1924), *warning]


def lines_of(language, word):
    """The block of this language in docs/INSTALL.md that has this word."""
    text = served.read(f"{served.TOP}/docs/INSTALL.md")
    blocks = re.findall(rf"^ *```{language}\n(.*?)^ *```", text, re.MULTILINE | re.DOTALL)
    return textwrap.dedent(next(it for it in blocks if word in it))


def test_a_client_over_tls_is_answered(serve, tmp_path):
    """By stunnel, with the lines of the page, as its unit runs it: not in the background."""
    try:
        served.install("stunnel4")
    except subprocess.CalledProcessError:
        pytest.skip("stunnel can't be installed")
    port, certificate, file = served.free_port(), tmp_path / "segcached.crt", tmp_path / "conf"
    os.chmod(tmp_path, 0o755)
    making, written = (lines_of(*it).replace("/etc/stunnel", str(tmp_path))
                       for it in (("sh", "openssl"), ("text", "[segcached]")))
    subprocess.run(["sh", "-e", "-c", making], check=True, capture_output=True)
    written = re.sub(r"accept = .*", f"accept = 127.0.0.1:{port}", written)
    written = re.sub(r"connect = .*", f"connect = 127.0.0.1:{serve().port}", written)
    file.write_text(re.sub(r"set[ug]id = .*\n", "", written) if os.getuid() else written)
    with served.OnPort(port, ["/usr/bin/stunnel4", str(file)]) as tunnel:
        context = ssl.create_default_context(cafile=str(certificate))
        with context.wrap_socket(tunnel.connect(), server_hostname="cache.example") as stream:
            stream.sendall(SET_AND_GET % (b"a", b"a") + b"quit\r\n")
            assert served.read_to_end(stream) == SET_AND_GET_ANSWER % b"a"
        assert tunnel.process.poll() is None
