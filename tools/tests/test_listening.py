"""Where `segcached serve` listens: its first lines, its end after a number of sessions, several
addresses, sockets at paths, and each refusal in its words."""
import contextlib
import os
import re
import resource
import select
import socket
import stat
import subprocess
import time

import pytest
import served
import tries
from asking import END, SET_AND_GET, SET_AND_GET_ANSWER, ask, ask_set_and_get, opened
from pymemcache.client.base import Client
from served import ended, read_to_end
from stats_of import told, wait_for

PORT, ASKED = "127.0.0.1:0", b"get a\r\n"
LIMIT = resource.RLIMIT_NOFILE


def close(streams):
    for stream in streams:
        stream.close()


def must_be_served(streams):
    for stream in streams:
        assert read_to_end(stream) == END
        stream.close()


@pytest.mark.parametrize("host", ["127.0.0.1", "[::1]"])
def test_it_prints_its_real_port_and_ends_after_its_sessions(serve, host):
    server = serve("--sessions", "2", listen=f"{host}:0")
    assert re.fullmatch(rf"listening on {re.escape(host)}:[1-9][0-9]*\n", server.first_line)
    for stream, key in zip(opened(server, 2), (b"a", b"b")):
        stream.sendall(SET_AND_GET % (key, key) + b"quit\r\n")
        assert read_to_end(stream) == SET_AND_GET_ANSWER % key
    close(server.streams)
    assert server.process.wait(20) == 0


@pytest.mark.parametrize("words, in_force", [
    ("", "--workers 2 --segment-size 65536 --segments 64"),
    ("--segments 9 --quiet --lenient --spin 0 --storage workers --update-in-place --exact-ttls"
     " --idle 60 --sessions 3 --connections 65536 --output-memory 16777216 --segment-size 4096"
     " --workers 3",
     "--workers 3 --segment-size 4096 --segments 9 --connections 65536 --output-memory 16777216"
     " --sessions 3 --idle 60 --spin 0 --storage workers --quiet --exact-ttls --lenient"
     " --update-in-place"),
], ids=["the least options", "all options"])
def test_it_says_on_standard_error_first_which_options_are_in_force(serve, words, in_force):
    errors = serve(*words.split()).process.stderr
    assert select.select([errors], [], [], 10)[0]
    assert errors.readline() == f"segcached: --listen {PORT} {in_force}\n"


def test_with_few_descriptors_it_serves_all_of_its_sessions_and_then_ends(serve):
    """Later ones are accepted once the first ones have gone. One that waits doesn't count."""
    server = serve("--workers", "1", "--sessions", "200", limits={LIMIT: 40})
    for _ in range(4):
        must_be_served(opened(server, 50, ASKED + b"quit\r\n"))
    assert server.process.wait(20) == 0


def test_those_that_wait_for_a_full_worker_are_served_after_the_last_one_was_accepted(serve):
    server = serve("--workers", "1", "--sessions", "1060")
    first, waiting = opened(server, 1024, ASKED, END), opened(server, 36, ASKED + b"quit\r\n")
    time.sleep(0.3)
    close(first)
    must_be_served(waiting)
    assert server.process.wait(20) == 0


# ---- while its workers are full

TOO_MANY = b"ERROR Too many open connections\r\n"
# How many connections one worker serves, how many wait for it, and how many probes get in beside.
SERVED, WAITING, PROBES = 1024, 64, 4


def filled(serve, *words, listen=PORT):
    """A server whose worker serves all that it can, and these connections."""
    server = serve("--workers", "1", *words, listen=listen)
    return server, opened(server, SERVED, ASKED, END)


@pytest.fixture(params=[PORT, "unix:{}/cache"], ids=["port", "path"])
def full(serve, request, tmp_path):
    return filled(serve, "--lenient", listen=request.param.format(tmp_path))[0]


def are_silent(streams):
    """Whether nothing comes of these for a while. (`select` takes no descriptor above 1,023.)"""
    poll = select.poll()
    for stream in streams:
        poll.register(stream, select.POLLIN)
    return not poll.poll(300)


@pytest.mark.parametrize("words", [["--lenient"], []], ids=["lenient", "strict"])
def test_one_for_which_there_is_no_room_is_told_so(serve, words):
    """Also one that has sent a request already. Those that wait are served in their turn."""
    server, streams = filled(serve, *words)
    waiting = opened(server, WAITING)

    def time_until_refused():
        refused = opened(server, 5) + opened(server, 5, ASKED * 100)
        began = time.monotonic()
        assert [read_to_end(stream) for stream in refused] == [TOO_MANY] * 10
        return time.monotonic() - began

    tries.all_in_time(time_until_refused, 3)
    for stream in waiting:
        stream.sendall(ASKED)
    assert are_silent(waiting)
    ask_set_and_get(streams[WAITING], b"b")
    close(streams[:WAITING])
    for stream in waiting:
        ask(stream, b"", END)


@pytest.mark.parametrize("request_line, answer", [
    ("get health|", END), ("version|", b"VERSION "), ("stats|", b"STAT "),
], ids=["get health", "version", "stats"])
def test_probes_get_in_while_it_is_full(full, request_line, answer):
    """Once all places are taken a further one gets in when one of the probes has gone."""
    # (they connect, and ask later)
    *probes, last = opened(full, PROBES + 1)
    time.sleep(0.2)
    for stream in probes:
        ask(stream, request_line, answer)
    ask(last, request_line, b"")
    assert are_silent([last])
    probes[0].close()
    ask(last, b"", answer)


def test_another_request_gets_in_no_sooner(full):
    opened(full, WAITING)
    stream, = opened(full, 1, b"get healt\r\nstats\r\nget health\r\n")
    assert read_to_end(stream) == TOO_MANY


def test_the_probe_passes_a_full_server(full):
    """Also while connections beyond those that wait come without end."""
    for count in (WAITING, 300):
        opened(full, count)
        assert subprocess.run(full.probe(), timeout=20).returncode == 0


@pytest.mark.parametrize("connections, workers", [(3, 1), (3, 2), (3000, 1)])
def test_a_worker_serves_as_many_connections_as_it_is_told(serve, connections, workers):
    server = serve("--connections", str(connections), "--workers", str(workers))
    streams = opened(server, connections * workers, ASKED, END)
    ask_set_and_get(streams[0], b"b")
    waiting, = opened(server, 1, ASKED)
    assert are_silent([waiting])
    streams[-1].close()
    ask(waiting, b"", END)


def test_standard_error_that_nobody_reads_stops_nothing(program):
    """What it has to say there, of connections that it can't accept too, finds a full pipe."""
    reading, writing = os.pipe()
    os.set_blocking(writing, False)
    with contextlib.suppress(BlockingIOError):
        while True:
            os.write(writing, bytes(4096))
    os.set_blocking(writing, True)
    with served.Server(program, limits={LIMIT: 40}, stderr=writing) as server:
        for _ in range(2):
            streams = opened(server, 60)
            time.sleep(0.2)
            close(streams)
        ask(server.connect(), ASKED, END)
    os.close(reading)
    os.close(writing)


# ---- several addresses, and paths

@pytest.fixture
def path(tmp_path):
    return str(tmp_path / "cache.sock")


def test_all_addresses_show_one_cache(serve, path):
    """All those of IPv6 are those of IPv4 too."""
    words = "--listen", f"unix:{path}", "--listen", "127.0.0.2:0", "--lenient"
    server = serve(*words, listen="[::]:0")
    ask(server.connect(), "set a 0 0 1|x|", "STORED|")
    server.host = "127.0.0.1"
    ask(server.connect(), ASKED, "VALUE a 0 1|x|END|")
    server.path = path
    other = server.connect()
    ask(other, ASKED, "VALUE a 0 1|x|END|")
    assert int(wait_for(other, curr_connections=3)["tcpport"]) == server.port


def test_eight_addresses_are_taken_and_no_more(serve, program, tmp_path):
    paths = [str(tmp_path / f"{number}") for number in range(8)]
    words = [word for it in paths[1:] for word in ("--listen", f"unix:{it}")]
    server = serve(*words, listen=f"unix:{paths[0]}")
    for it in paths:
        server.path = it
        ask(server.connect(), ASKED, END)
    status, _, said = ended(program, "serve", "--listen", PORT, *words, "--listen", "unix:/9")
    assert status == 2 and b"--listen may be given 8 times at most" in said


def test_a_path_alone_is_told_as_it_is(serve, path):
    server = serve("--lenient", listen=f"unix:{path}")
    assert server.first_line == f"listening on unix:{path}\n"
    stream = server.connect()
    ask_set_and_get(stream, b"a")
    assert told(stream)["tcpport"] == "0"
    client = Client(path, timeout=20)
    assert client.set("a", b"x") and client.get("a") == b"x" and client.incr("none", 1) is None


def test_the_file_has_the_mode_and_replaces_an_old_socket(serve, path):
    """(A server is killed, so its file stays.)"""
    for words, mode in ([], 0o700), (["--socket-mode=0660"], 0o660), (["--socket-mode=777"], 0o777):
        server = serve(*words, listen=f"unix:{path}")
        ask(server.connect(), ASKED, END)
        server.stop()
        found = os.stat(path).st_mode
        assert stat.S_ISSOCK(found) and stat.S_IMODE(found) == mode


@pytest.mark.parametrize("mode", ["1000", "8", "", "-1", "0o7"])
def test_other_modes_are_refused(program, path, mode):
    words = "serve", "--listen", f"unix:{path}", f"--socket-mode={mode}"
    status, out, said = ended(program, *words)
    assert (status, out) == (2, b"") and b"--socket-mode" in said and not os.path.exists(path)


# ---- where it can't listen

def must_not_listen(program, address, cause, status=3, words=(), under=()):
    """Status 2 is for wrong options, 3 for a taken address. A line feed is shown as `\\n`."""
    shown = address.replace("\n", "\\n")
    said = f"fault: cannot listen on {shown}: {cause}\n".encode()
    found = ended(*under, program, "serve", *words, "--listen", address)
    assert found == (status, b"", said)


# (those of other machines are of networks for examples, which no machine has)
REFUSED = {
    ("not an IP address and a port", 2): (
        "nothing", "localhost:0", "127.0.0.1", "127.0.0.1:", "127.0.0.1:x", "127.0.0.1:65536",
        "127.0.0.256:0", "127.0.0.1:0 ", ":0", "[::1:0", "", "127.0.0.1\n:0"),
    ("the address is not of this machine", 3): ("192.0.2.1:0", "[2001:db8::1]:0"),
    ("a socket's path has 1 to 107 bytes", 2): ("unix:", "unix:/" + "x" * 107),
    ("there is no such folder", 3): ("unix:/none/a",),
}


@pytest.mark.parametrize("address, cause, status", [
    (address, *why) for why, addresses in REFUSED.items() for address in addresses])
def test_an_address_that_cannot_be_is_refused(program, address, cause, status):
    must_not_listen(program, address, cause, status)


def test_a_port_that_another_server_or_program_has_is_refused(program, serve, path):
    """It is named where it stands behind another address, too."""
    with socket.create_server(("127.0.0.1", 0)) as other:
        for port in (serve().port, other.getsockname()[1]):
            for words in ([], ["--listen", f"unix:{path}"]):
                must_not_listen(program, f"127.0.0.1:{port}", "the port is taken", words=words)


def test_what_stands_at_a_path_stays(serve, program, path, tmp_path):
    server, file, link = serve(listen=f"unix:{path}"), tmp_path / "file", tmp_path / "link"
    must_not_listen(program, f"unix:{path}", "another program listens there")
    ask(server.connect(), ASKED, END)
    file.write_text("kept", encoding="ascii")
    link.symlink_to(file)
    for it in (file, link, tmp_path):
        must_not_listen(program, f"unix:{it}", "a file stands there that is no socket")
    assert file.read_text(encoding="ascii") == "kept" and link.is_symlink()


def test_a_port_that_it_may_not_use_is_refused(program):
    if int(served.read("/proc/sys/net/ipv4/ip_unprivileged_port_start")) < 2:
        pytest.skip("anybody may use any port here")
    under = [] if os.geteuid() else ["setpriv", "--bounding-set", "-net_bind_service"]
    must_not_listen(program, "127.0.0.1:1", "permission denied", under=under)


# (three are the standard streams; the listener has a socket and its poll, and each of two workers a
# poll and a pair of sockets)
@pytest.mark.parametrize("descriptors", range(4, 11))
def test_without_descriptors_for_all_that_listens_it_is_refused(program, descriptors):
    under = ["prlimit", f"--nofile={descriptors}"]
    must_not_listen(program, PORT, "too few descriptors", under=under)
