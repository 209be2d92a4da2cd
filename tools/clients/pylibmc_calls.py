#!/usr/bin/python3
"""pylibmc (over libmemcached) against a server. Usage: pylibmc_calls.py PORT|PATH."""
import sys

import pylibmc
from calls import Calls

where = sys.argv[1]
server = [where if where.startswith("/") else f"127.0.0.1:{where}"]
make = lambda **how: pylibmc.Client(server, **how)
client, calls = make(), Calls("pylibmc")
big, hundred = "v" * 7000, {f"py{number}": number for number in range(100)}
calls.check("set", lambda: client.set("py-a", "1"), True)
calls.check("get", lambda: client.get("py-a"), "1")
calls.check("set_time", lambda: client.set("py-t", "x", time=60) and client.get("py-t"), "x")
# (it writes 4294967295 for -1)
calls.check("time_minus_1", lambda: client.set("py-g", "x", time=-1) and client.get("py-g"), None)
calls.check("add", lambda: (client.add("py-a", "2"), client.add("py-b", "2")), (False, True))
calls.check("replace", lambda: (client.replace("py-b", "3"), client.replace("py-none", "3")),
            (True, False))
calls.check("set_multi", lambda: client.set_multi({"py-m1": "1", "py-m2": "2"}), [])
calls.check("get_multi", lambda: client.get_multi(["py-m1", "py-none", "py-m2"]),
            {"py-m1": "1", "py-m2": "2"})
calls.check("get_multi_100",
            lambda: (client.set_multi(hundred), client.get_multi(list(hundred)))[1], hundred)
calls.check("incr", lambda: (client.set("py-n", 5), client.incr("py-n", 37)), (True, 42))
calls.check("decr", lambda: client.decr("py-n", 40), 2)
calls.check("delete", lambda: (client.delete("py-a"), client.delete("py-a"), client.get("py-a")),
            (True, False, None))
calls.check("delete_multi", lambda: client.delete_multi(["py-m1", "py-m2"]), True)
calls.check("big", lambda: client.set("py-big", big) and client.get("py-big") == big, True)
calls.check("pickled", lambda: client.set("py-list", [1, 2]) and client.get("py-list"), [1, 2])
with_cas = make(behaviors={"cas": True})
calls.check("gets_cas", lambda: with_cas.cas("py-n", 7, with_cas.gets("py-n")[1]), True)
calls.check("noreply",
            lambda: (make(behaviors={"_noreply": True}).set("py-quiet", "x"), True)[1], True)
calls.check("tcp_nodelay", lambda: make(behaviors={"tcp_nodelay": True}).set("py-d", "x"), True)
calls.check("append", lambda: make().append("py-b", "4") and client.get("py-b"), "34")
calls.check("prepend", lambda: make().prepend("py-b", "4") and client.get("py-b"), "434")
calls.check("touch", lambda: make().touch("py-b", 60), True)
calls.check("get_stats", lambda: bool(make().get_stats()[0][1]), True)
calls.check("binary", lambda: make(binary=True).set("py-bin", "x"), True)
names = {f"a-name-of-24-bytes-{n:05}": n for n in range(1000)}
calls.check("get_multi_1000",
            lambda: (client.set_multi(names), make().get_multi(list(names)))[1], names)
calls.check("flush_all", lambda: make().flush_all(), True)
calls.report()
