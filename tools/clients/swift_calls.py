#!/usr/bin/python3
"""Swift's client, in which its proxies keep what accounts and containers are like, against a
server. Usage: swift_calls.py PORT."""
import logging
import sys

from calls import Calls
from swift.common.memcached import MemcacheRing

logging.disable(logging.CRITICAL)
ring, calls = MemcacheRing([f"127.0.0.1:{sys.argv[1]}"]), Calls("Swift")
kept = lambda key, value, **how: (ring.set(key, value, **how), ring.get(key))[1]
calls.check("set", lambda: kept("sw-a", {"status": 204}), {"status": 204})
calls.check("set_time", lambda: kept("sw-t", [1, 2], time=60), [1, 2])
calls.check("set_multi", lambda: (
    ring.set_multi({"sw-m1": 1, "sw-m2": 2}, "sw"),
    ring.get_multi(["sw-m1", "sw-none", "sw-m2"], "sw"))[1], [1, None, 2])
calls.check("incr", lambda: (ring.incr("sw-n", delta=5), ring.incr("sw-n", delta=37),
                             ring.decr("sw-n", delta=2)), (5, 42, 40))
calls.check("delete", lambda: (ring.delete("sw-a"), ring.get("sw-a"))[1], None)
# (a list of shards may be as long)
calls.check("large", lambda: kept("sw-l", "z" * 200_000), "z" * 200_000)
calls.check("too_large", lambda: kept("sw-t", "z" * 1_100_000), None)
calls.check("after_too_large", lambda: kept("sw-t", [3]), [3])
calls.report()
