#!/usr/bin/python3
"""cachelib, on which Flask-Caching and Flask-Session stand, over pylibmc, against a server. Usage:
cachelib_calls.py PORT."""
import contextlib
import sys

from cachelib import MemcachedCache
from calls import Calls


def wrong_sessions(cache, count):
    """How many of these sessions have the value of another one, if `has`, which sends an `append`,
    looks for each before it is read."""
    for number in range(count):
        cache.set(f"session:{number}", {"user": number})
    found = []
    for number in range(count):
        with contextlib.suppress(Exception):
            cache.has(f"session:{number}")
        with contextlib.suppress(Exception):
            found.append((number, cache.get(f"session:{number}")))
    return sum(got != {"user": number} for number, got in found)


make, calls = lambda: MemcachedCache([f"127.0.0.1:{sys.argv[1]}"]), Calls("cachelib")
cache = make()
calls.check("set", lambda: (cache.set("cl-a", "1"), cache.get("cl-a")), (True, "1"))
calls.check("add", lambda: (cache.add("cl-a", "2"), cache.add("cl-b", "2")), (False, True))
calls.check("get_many", lambda: (
    cache.set_many({"cl-m1": 1, "cl-m2": 2}), cache.get_dict("cl-m1", "cl-no", "cl-m2"))[1],
    {"cl-m1": 1, "cl-no": None, "cl-m2": 2})
calls.check("incr", lambda: (cache.set("cl-n", 5), cache.inc("cl-n", 37), cache.dec("cl-n", 2)),
            (True, 42, 40))
calls.check("delete", lambda: (cache.delete("cl-a"), cache.get("cl-a")), (True, None))
calls.check("delete_many",
            lambda: (make().delete_many("cl-m1", "cl-m2"), make().get("cl-m1"))[1], None)
calls.check("no_wrong_value_after_has", lambda: wrong_sessions(make(), 50), 0)
calls.check("has", lambda: (make().set("cl-h", "1"), make().has("cl-h")), (True, True))
calls.check("clear", lambda: (make().set("cl-c", "1"), make().clear(), make().get("cl-c")),
            (True, True, None))
calls.report()
