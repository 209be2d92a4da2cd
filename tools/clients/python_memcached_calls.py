#!/usr/bin/python3
"""python-memcached against a server, and python-binary-memcached, which speaks the binary protocol
alone. Usage: python_memcached_calls.py PORT."""
import sys

import bmemcached
import memcache
from calls import Calls

place, calls = f"127.0.0.1:{sys.argv[1]}", Calls("python-memcached")
make = lambda: memcache.Client([place], cache_cas=True)
binary = bmemcached.Client((place,), socket_timeout=2)
calls.check("set", lambda: bool(make().set("pm-a", "1")), True)
calls.check("get", lambda: make().get("pm-a"), "1")
calls.check("add", lambda: bool(make().add("pm-b", "1")), True)
calls.check("replace", lambda: bool(make().replace("pm-b", "2")), True)
calls.check("get_multi", lambda: make().get_multi(["pm-a", "pm-b"]), {"pm-a": "1", "pm-b": "2"})
calls.check("incr", lambda: bool(make().set("pm-n", "5")) and make().incr("pm-n", 2), 7)
for name, how in (("delete", {}), ("delete_time_0", {"time": 0})):
    calls.check(name, lambda: bool(make().set("pm-d", "1")) and (
        make().delete("pm-d", **how), make().get("pm-d")), (1, None))
calls.check("flush_all", lambda: (
    bool(make().set("pm-f", "1")), make().flush_all(), make().get("pm-f"))[::2], (True, None))
calls.check("get_stats", lambda: bool(make().get_stats()), True)
calls.report()
Calls("python-binary-memcached").check("set", lambda: binary.set("pb-a", "1"), True).report()
