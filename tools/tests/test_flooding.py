"""Keys that fall together in the index for who knows the seed of its hash: what it costs a server
to write and read them.

One whose random bytes are known suffers from the keys that were chosen for them, so its seed is
these bytes; one with the system's own random bytes doesn't. Where the system has none the seed is
its clock, in nanoseconds, which libfaketime stops here. Writes suffer most, since the index grows
along the run that such keys make.
"""
import os
import random
import subprocess

import pytest
from asking import STORED, ask, get, hit, put
from served import with_faketime

# The first slots of chosen keys are among the first SPAN of this number of slots, and so of fewer.
SLOTS, SPAN, COUNT = 1 << 18, 64, 4_000
PLAIN = [b"plain-%010d" % number for number in range(COUNT)]
KNOWN = 0x0123456789ABCDEF
# A moment in seconds since 1970, and its name.
STOPPED, AT = 1_795_737_600, "2026-11-27 00:00:00"
# What the store takes if it is given no seed, as in `segcached replay`.
OF_REPLAY = 0x9E3779B97F4A7C15


def microseconds_a_key(server, keys):
    """The server's processor time for a `set` and a `get` of each key, a hundred at a time."""
    gets = [(get(key), hit(key, b"x")) for key in keys]
    pairs = [(put(key, b"x"), STORED) for key in keys]
    pairs += random.Random(1).sample(gets, len(gets))
    stream, before = server.connect(120), server.processor_seconds()
    for at in range(0, len(pairs), 100):
        ask(stream, *map(b"".join, zip(*pairs[at : at + 100])))
    return (server.processor_seconds() - before) * 1e6 / len(keys)


@pytest.fixture
def is_flooded(serve, compiled):
    """Whether the keys that are chosen for a seed cost a server of their own much more."""
    def compared(seed, environment=None):
        words = [compiled("flood_keys"), hex(seed), str(SLOTS), str(SPAN), str(COUNT)]
        chosen, costs = subprocess.check_output(words).split(), []
        for keys, around in ((chosen, environment), (PLAIN, None)):
            words = "--workers 1 --segment-size 1048576 --segments 16".split()
            costs.append(microseconds_a_key(serve(*words, environment=around), keys))
        # (a busy machine adds a few microseconds)
        return costs[0] > 2 * costs[1] + 5

    return compared


# (each bit of the seed is set in one of these)
@pytest.mark.parametrize("seed", [KNOWN, 0xFFFF_FFFF_FFFF_FFFF - KNOWN], ids=hex)
def test_the_seed_is_the_systems_random_bytes(compiled, is_flooded, seed):
    shim = compiled("known_random", "-shared", "-fPIC")
    assert is_flooded(seed, {**os.environ, "LD_PRELOAD": shim, "KNOWN_RANDOM": str(seed)})


def test_without_random_bytes_the_seed_is_the_clock(compiled, is_flooded):
    faked = with_faketime(FAKETIME=AT, FAKETIME_DONT_FAKE_MONOTONIC="1", TZ="UTC")
    shim = compiled("known_random", "-shared", "-fPIC")
    preloaded = {**faked, "LD_PRELOAD": f"{shim} {faked['LD_PRELOAD']}"}
    assert is_flooded(STOPPED * 10**9, preloaded)


@pytest.mark.parametrize("seed", [KNOWN, OF_REPLAY], ids=["another server's", "that of replay"])
def test_keys_chosen_for_another_seed_cost_no_more_than_others(is_flooded, seed):
    assert not is_flooded(seed)
