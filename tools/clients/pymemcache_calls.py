#!/usr/bin/python3
"""pymemcache against a server. Usage: pymemcache_calls.py PORT."""
import sys
import time

from calls import Calls
from pymemcache.client.base import Client
from pymemcache.exceptions import (
    MemcacheClientError, MemcacheIllegalInputError, MemcacheServerError)

make = lambda: Client(("127.0.0.1", int(sys.argv[1])), timeout=10, default_noreply=False)
client, calls, big = make(), Calls("pymemcache"), b"v" * 8000
large = b"v" * 1_000_000
many = {f"pm-{number}": b"%d" % number for number in range(100)}
more = {f"a-name-of-24-bytes-{number:05}": b"%d" % number for number in range(1000)}
calls.check("flush_all", client.flush_all, True)
calls.check("get_of_none", lambda: (client.get("a"), client.get("b", default=5)), (None, 5))
calls.check("set", lambda: (client.set("a", b"1", flags=7), make().get("a")), (True, b"1"))
calls.check("add", lambda: (client.add("a", b"2"), client.add("b", b"2")), (False, True))
calls.check("replace", lambda: (client.replace("b", b"3"), client.replace("c", b"3")),
            (True, False))
calls.check("get_many", lambda: client.get_many(["a", "b", "c"]), {"a": b"1", "b": b"3"})
calls.check("set_many", lambda: (client.set_many(many), client.get_many(list(many))),
            ([], many))
calls.check("incr_decr", lambda: (client.incr("a", 41), client.decr("a", 100),
                                  client.incr("c", 1)), (42, 0, None))
calls.check("incr_of_a_text", lambda: (client.set("t", b"x"), client.incr("t", 1)),
            MemcacheClientError)
calls.check("delete", lambda: (client.delete("b"), client.delete("b")), (True, False))
calls.check("big_and_empty", lambda: (client.set("big", big), make().get("big") == big,
                                      client.set("none", b""), client.get("none")),
            (True, True, True, b""))
calls.check("large", lambda: (make().set("large", large), make().get("large") == large),
            (True, True))
calls.check("too_long_a_key", lambda: client.set("k" * 251, b"x"), MemcacheIllegalInputError)
calls.check("too_large_a_value", lambda: client.set("huge", b"v" * 1_048_500), MemcacheServerError)
client = make()
number = client.gets("pm-7")[1]
calls.check("cas", lambda: (client.cas("pm-7", b"new", number),
                            client.cas("pm-7", b"newer", number),
                            client.cas("c", b"newer", number)), (True, False, None))
calls.check("noreply", lambda: (client.set("quiet", b"x", noreply=True), client.get("quiet")),
            (True, b"x"))
calls.check("expire", lambda: (client.set("brief", b"x", expire=16), client.get("brief"),
                               client.set("over", b"x", expire=int(time.time()) - 5),
                               client.get("over")), (True, b"x", True, None))
calls.check("get_many_1000", lambda: (make().set_many(more), make().get_many(list(more))),
            ([], more))
client.quit()
calls.report()
