"""`serve --lenient` with what clients write beyond the strict protocol. (The rows of both dialects
stand in test_rows.py.)

If a `touch` with `noreply` were answered, each later answer of a connection that clients share
would belong to the request before it. Real clients would then return other keys' values.
"""
import collections
import concurrent.futures
import random
import signal
import socket
import time

import memcache
import pylibmc
import pytest
import served
import tries
from asking import END, STORED, ask, get, hit, hits, put
from model import VERSION
from pymemcache.client.base import Client
from pymemcache.exceptions import MemcacheServerError
from pymemcache.serde import pickle_serde
from served import read_to_end
from test_three_caches import twemproxy

BLOCK = b"z" * 131_072


@pytest.fixture(scope="module")
def server(program):
    with served.Server(program, "--lenient", "--segment-size", "1048576") as it:
        yield it


def test_a_touch_and_a_gat_of_many_keys_change_their_lives(server):
    """TTLs are rounded down by up to two widths of 8 seconds, so one of 8 lasts for 1 to 8. The
    keys far apart are the last ones of a long line."""
    far = [b"far-%d" % number for number in range(2000)]
    shown = [hits(key, b"x") for key in far]
    with server.connect() as stream:
        ask(stream, "set a 0 0 1|x|set b 0 9 1|y|touch a 8|touch b 100|",
            "STORED|STORED|TOUCHED|TOUCHED|")
        for key in far:
            stream.sendall(put(key, b"x", exptime=8, words=b" noreply"))
        ask(stream, b"gat 100 %b\r\n" % b" ".join(far), b"".join(shown) + END)
        ask(stream, "gat 8 far-0 none far-1999|", shown[0] + shown[-1] + END)
        time.sleep(9.2)
        ask(stream, b"get %b\r\n" % b" ".join(far), b"".join(shown[1:-1]) + END)
        ask(stream, "get a b|", "VALUE b 0 1|y|END|")


@pytest.mark.parametrize("last", [
    b"verbosity 1 noreply\r\n", put(b"b", BLOCK + b"z", b"append", words=b" noreply"),
    b"set a 0 0 200000\r\n" + BLOCK,
], ids=["verbosity", "append", "a part of a block"])
def test_a_client_that_sends_no_more_is_closed_though_its_last_request_is_silent(server, last):
    """That request is read once a `get` of many keys before it was answered, when all answers are
    given and the end of the input is known: it is all there when the process goes on."""
    with server.connect() as stream:
        ask(stream, put(b"b", b"v" * 100), STORED)
        server.process.send_signal(signal.SIGSTOP)
        stream.sendall(get(b"b", 300) + last)
        stream.shutdown(socket.SHUT_WR)
        server.process.send_signal(signal.SIGCONT)
        assert read_to_end(stream) == hit(b"b", b"v" * 100, times=300)


def in_a_process(call, *given):
    """What it gives in a process of its own, which libmemcached may end if answers are shifted."""
    with concurrent.futures.ProcessPoolExecutor(1) as pool:
        return pool.submit(call, *given).result()


CLIENTS = {
    "pymemcache": lambda port: Client(("127.0.0.1", port), timeout=10, serde=pickle_serde,
                                      default_noreply=False),
    "pylibmc": lambda port: pylibmc.Client([f"127.0.0.1:{port}"]),
    "python-memcached": lambda port: memcache.Client([f"127.0.0.1:{port}"], socket_timeout=10),
}


def read_beside_appends(name, port):
    """How many values were right, how many wrong, and how many calls joined some."""
    chance, client, seen = random.Random(57), CLIENTS[name](port), collections.Counter()
    values = {f"{name}-{number}": f"value-{number}" for number in range(50)}
    assert all(client.set(*it) for it in values.items())
    for turn in range(660):
        key = chance.choice(list(values))
        if turn % 22 == 10:
            seen["joined"] += bool(client.append(key, "get a"))
            values[key] += "get a"
        elif turn % 22 == 21:
            seen["joined"] += bool(client.prepend(key, "get b"))
            values[key] = "get b" + values[key]
        else:
            seen["right" if client.get(key) == values[key] else "wrong"] += 1
    assert client.touch(key, 1000) and not client.touch("none", 1000)
    return seen


@pytest.mark.parametrize("name", CLIENTS)
def test_a_client_reads_no_wrong_value_beside_its_appends(server, name):
    seen = in_a_process(read_beside_appends, name, server.port)
    assert seen == {"right": 600, "joined": 60}


def seconds_until_told(port):
    """(Each call of a client of the binary protocol would wait for five seconds.)"""
    client, began = pylibmc.Client([f"127.0.0.1:{port}"], binary=True), time.monotonic()
    with pytest.raises(pylibmc.Error):
        client.get("a")
    return time.monotonic() - began


def test_a_client_of_the_binary_protocol_is_told_at_once(server):
    tries.all_in_time(lambda: in_a_process(seconds_until_told, server.port), 1)


def test_calls_of_clients_without_a_reply_and_with_a_zero(server):
    """pymemcache touches without one if it isn't told otherwise."""
    client = CLIENTS["pymemcache"](server.port)
    for number in range(50):
        client.set("key", f"{number}")
        client.append("key", "!", noreply=True)
        assert client.touch("key", 2000, noreply=True) and client.touch("none", 1, noreply=True)
        assert client.get("key") == f"{number}!"
    assert not client.append("none", "x") and client.version() == VERSION.split()[1]
    client = CLIENTS["python-memcached"](server.port)
    assert client.delete("key", time=0) and client.get("key") is None


def mixed(port, number, turns):
    """What one of ten clients sees. The first one also joins, touches and stores too much."""
    chance = random.Random(number)
    client = Client(("127.0.0.1", port), timeout=20, default_noreply=False)
    values = {f"tw-{number}-{at}": b"value-%d-%d" % (number, at) for at in range(20)}
    seen = collections.Counter()
    assert client.set_many(values) == []
    for turn in range(turns):
        key = chance.choice(list(values))
        if number == 0 and turn % 20 == 19:
            with pytest.raises(MemcacheServerError):
                client.set(key, b"get a\r\nb\r\n" * 20_000)
            # (the value is gone then)
            seen["refused" if client.get(key) is None else "stored"] += 1
            client.set(key, values[key])
        elif number == 0 and turn % 2:
            client.touch(key, 1000, noreply=True)
            seen["joined" if client.append(key, b"get tw-1-1") else "not joined"] += 1
            values[key] += b"get tw-1-1"
        else:
            seen["right" if client.get(key) == values[key] else "wrong"] += 1
    return seen


def test_behind_twemproxy_no_client_reads_a_wrong_value_beside_appends_touches_and_large_blocks(
        serve, request, tmp_path):
    """With all clients over 100,000 values are read, which takes a minute."""
    turns = 10_600 if request.config.getoption("--all-clients") else 140
    with twemproxy([serve("--workers", "1", "--lenient").port for _ in range(3)], tmp_path) as port:
        seen = served.together(lambda it=it: mixed(port, it, turns) for it in range(10))
    found = sum(seen, collections.Counter())
    # (of 20 turns the first one appends and touches in 9, and sends a large block in one)
    assert found == {"right": turns * 19 // 2, "joined": turns // 20 * 9, "refused": turns // 20}
