"""Keys spread over three caches, one of which is stopped: by pymemcache, by libmemcached, and by
twemproxy."""
import contextlib
import functools
import random
import re
import types

import pylibmc
import pytest
import served
from pymemcache.client.base import Client
from pymemcache.client.hash import HashClient
from pymemcache.exceptions import MemcacheServerError


@pytest.fixture
def caches(serve):
    return [serve("--workers", "1") for _ in range(3)]


def client_of(port):
    return Client(("127.0.0.1", port), timeout=10, default_noreply=False)


def keys_there(cache, names):
    """Which of the keys a cache has, asked without what spreads them."""
    client = client_of(cache.port)
    return {key for at in range(0, len(names), 50) for key in client.get_many(names[at : at + 50])}


def values(count):
    return {f"key-{number}": b"%d" % number for number in range(count)}


def fill(client, wanted, keys=None):
    """Stores these keys, or all, whereupon all are there."""
    assert all(client.set(key, wanted[key]) for key in keys or wanted)
    assert {key: client.get(key) for key in wanted} == wanted


def pymemcache_hash(ports):
    """pymemcache's HashClient: rendezvous hashing; by `ignore_exc` a cache that is gone misses."""
    waits = {"retry_attempts": 0, "dead_timeout": 60, "timeout": 10, "connect_timeout": 10}
    servers = [("127.0.0.1", port) for port in ports]
    return HashClient(servers, ignore_exc=True, default_noreply=False, **waits)


def libmemcached_ketama(ports):
    """libmemcached's ketama: a cache that has failed once is left out for a while, and its keys go
    to the others. (The first calls after it has gone raise, until it is left out.)"""
    behaviors = {"ketama": True, "remove_failed": 1, "failure_limit": 1, "dead_timeout": 60,
                 "connect_timeout": 10000}
    client = pylibmc.Client([f"127.0.0.1:{port}" for port in ports], behaviors=behaviors)

    def repeated(call, *given):
        for _ in range(4):
            with contextlib.suppress(pylibmc.Error):
                return call(*given)
        return call(*given)

    return types.SimpleNamespace(set=functools.partial(repeated, client.set),
                                 get=functools.partial(repeated, client.get))


@pytest.mark.parametrize("spread", [pymemcache_hash, libmemcached_ketama])
def test_a_client_that_spreads_keys_loses_those_of_a_stopped_cache_alone(caches, spread):
    wanted, client = values(3000), spread([cache.port for cache in caches])
    fill(client, wanted)
    shares = [keys_there(cache, list(wanted)) for cache in caches]
    assert sum(map(len, shares)) == len(wanted)
    caches[1].stop()
    got = {key: client.get(key) for key in wanted}
    lost = {key for key, value in got.items() if value is None}
    assert all(value == wanted[key] for key, value in got.items() if key not in lost)
    assert lost and lost <= shares[1]
    fill(client, wanted, lost)


@contextlib.contextmanager
def twemproxy(ports, folder):
    """`nutcracker` in front of these ports, by the example's configuration, with its own port."""
    text = served.read(f"{served.TOP}/packaging/examples/twemproxy/three_caches.yml")
    for written, port in zip((11311, 11312, 11313), ports):
        text = text.replace(f"127.0.0.1:{written}", f"127.0.0.1:{port}")
    own = served.free_port()
    text = re.sub(r"listen: 127\.0\.0\.1:\d+", f"listen: 127.0.0.1:{own}", text)
    # (a loaded machine may stand still for a while; a cache that was stopped refuses at once)
    text = re.sub(r"timeout: \d+", "timeout: 10000", text)
    (folder / "caches.yml").write_text(text, encoding="utf-8")
    words = f"-c {folder}/caches.yml -s {served.free_port()} -a 127.0.0.1 -p {folder}/pid"
    with served.OnPort(own, ["nutcracker", *words.split(), "-o", f"{folder}/log"]):
        yield own


def get_through(client, key):
    try:
        return client.get(key)
    except MemcacheServerError:
        return "refused"


def test_behind_twemproxy_the_keys_of_a_stopped_cache_and_no_others_are_lost(
        caches, serve, tmp_path):
    """They are refused, and go to no other cache; once one listens there again, they are missed."""
    wanted = values(4000)
    with twemproxy([cache.port for cache in caches], tmp_path) as port:
        client = client_of(port)
        fill(client, wanted)
        shares = [keys_there(cache, list(wanted)) for cache in caches]
        sizes = [len(it) for it in shares]
        assert sum(sizes) == len(wanted) and min(sizes) > len(wanted) // 6
        caches[1].stop()
        for gone in ("refused", None):
            answers = {key: get_through(client, key) for key in wanted}
            assert {key for key, value in answers.items() if value is gone} == shares[1]
            assert all(answers[key] == wanted[key] for key in wanted if key not in shares[1])
            if gone:
                serve("--workers", "1", listen=f"127.0.0.1:{caches[1].port}")
        fill(client, wanted, shares[1])


def test_behind_twemproxy_many_keys_are_got_at_once_where_lines_are_lenient(serve, tmp_path):
    """It writes a space before the end of each line that it splits."""
    wanted, chance = values(1000), random.Random(50)
    asked = list(values(2000))
    with twemproxy([serve("--workers", "1", "--lenient").port for _ in range(3)], tmp_path) as port:
        client = client_of(port)
        fill(client, wanted)
        for _ in range(400):
            names = chance.sample(asked, chance.randint(2, 200))
            assert client.get_many(names) == {key: wanted[key] for key in names if key in wanted}
