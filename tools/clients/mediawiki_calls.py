#!/usr/bin/python3
"""What MediaWiki's MemcachedClient writes, line by line, and what it makes of the answers. Usage:
mediawiki_calls.py PORT.

It is a stand-in for that class of PHP, as MediaWiki 1.39 has it: `delete` with a zero, `touch`,
`gets` of one key for a cas, whole numbers with the flag 4.
"""
import socket
import sys
import types

from calls import Calls
from served import Client

SERIALIZED, INTVAL = 1, 4


class MediaWiki(Client):
    def store(self, verb, key, value, exptime=0, tail=b""):
        flags, data = (INTVAL, b"%d" % value) if isinstance(value, int) else (0, value)
        if isinstance(value, list):
            pairs = b"".join(b"i:%d;i:%d;" % pair for pair in enumerate(value))
            flags, data = SERIALIZED, b"a:%d:{%b}" % (len(value), pairs)
        line = b"%b %b %d %d %d%b" % (verb, key, flags, exptime, len(data), tail)
        return self.ask(line + b"\r\n" + data) == b"STORED"

    def load(self, keys, verb=b"get"):
        """By key the value, and of a `gets` the cas number."""
        line, found = self.ask(b" ".join([verb, *keys])), {}
        while line != b"END":
            word, key, flags, length, *number = line.split(b" ")
            assert word == b"VALUE"
            data = self.answers.read(int(length) + 2)[:-2]
            found[key] = (int(data) if int(flags) & INTVAL else data, *number)
            line = self.line()
        return found

    def get(self, key):
        return self.load([key]).get(key, (None,))[0]

    def count(self, verb, key, amount):
        said = self.ask(b"%b %b %d" % (verb, key, amount))
        return int(said) if said[:1].isdigit() else None

    def delete(self, key):
        return self.ask(b"delete %b 0" % key) in (b"DELETED", b"NOT_FOUND")

    def swapped(self, key, value):
        """A merge: a `gets`, and a `cas` with its number, twice."""
        number = self.load([key], b"gets")[key][1]
        swaps = [self.store(b"cas", key, value, 60, b" " + number) for _ in range(2)]
        return *swaps, self.get(key)

    def kept(self, key, value, exptime=0):
        return self.store(b"set", key, value, exptime), self.get(key)


address = "127.0.0.1", int(sys.argv[1])
client = MediaWiki(types.SimpleNamespace(connect=lambda it: socket.create_connection(address, it)))
calls = Calls("MediaWiki")
key, other, array, page = b"wikidb:messages:de", b"wikidb:user:id:7", b"wikidb:a", b"z" * 900_000
add = lambda: client.store(b"add", b"wikidb:lock", 1, 6)
calls.check("set", lambda: client.kept(key, b"text", 3600), (True, b"text"))
calls.check("set_int", lambda: client.kept(other, 7), (True, 7))
calls.check("set_array", lambda: client.kept(array, [5, 6]), (True, b"a:2:{i:0;i:5;i:1;i:6;}"))
calls.check("get_multi", lambda: client.load([key, b"wikidb:none", other]),
            {key: (b"text",), other: (7,)})
calls.check("add", lambda: (add(), add()), (True, False))
calls.check("merge", lambda: client.swapped(key, b"newer"), (True, False, b"newer"))
calls.check("incr", lambda: (client.count(b"incr", other, 3), client.count(b"decr", other, 20),
                             client.count(b"incr", b"wikidb:no", 1)), (10, 0, None))
calls.check("delete", lambda: (client.delete(key), client.delete(key), client.get(key)),
            (True, True, None))
calls.check("touch", lambda: client.ask(b"touch %b 60" % other), b"TOUCHED")
calls.check("after_touch", lambda: client.get(other), 0)
calls.check("large", lambda: client.kept(b"wikidb:page", page), (True, page))
calls.check("too_large", lambda: client.store(b"set", other, b"z" * 1_100_000), False)
calls.check("after_too_large", lambda: (client.get(other), *client.kept(other, 8)), (None, True, 8))
calls.report()
