#!/usr/bin/python3
"""Flask-Limiter's limits and Postfix's memcache_table, against a server that keeps TTLs to the
second. Usage: ttl_calls.py PORT."""
import pathlib
import subprocess
import sys
import tempfile
import time

from calls import Calls
from flask import Flask
from flask_limiter import Limiter

# So many calls come in so many seconds under a limit of 100 a minute, and one once it is over.
COUNT, SECONDS, OVER = 300, 58, 60.5
TTL = 10


def let_through(port):
    """How many of the calls pass, and whether one does in the next minute."""
    app = Flask("limited")
    limiter = Limiter(lambda: "somebody", app=app, storage_uri=f"memcached://127.0.0.1:{port}")
    app.route("/")(limiter.limit("100/minute")(lambda: "x"))
    client, began, passed = app.test_client(), time.monotonic(), 0
    for turn in range(COUNT):
        time.sleep(max(0, began + turn * SECONDS / COUNT - time.monotonic()))
        passed += client.get("/").status_code == 200
    time.sleep(began + OVER - time.monotonic())
    return passed, client.get("/").status_code == 200


def looked_up(port):
    """What a table with a file behind it answers as long as its TTL lasts, and then, once the file
    has another value."""
    with tempfile.TemporaryDirectory() as folder:
        file, table = pathlib.Path(f"{folder}/file"), pathlib.Path(f"{folder}/table")
        backup = f"backup = texthash:{file}\nttl = {TTL}\n"
        table.write_text(f"memcache = inet:127.0.0.1:{port}\n{backup}", encoding="ascii")

        def value():
            words = ["postmap", "-q", "key", f"memcache:{table}"]
            return subprocess.run(words, capture_output=True, text=True, check=False).stdout.strip()

        file.write_text("key first\n", encoding="ascii")
        seen, began = {value()}, time.monotonic()
        file.write_text("key second\n", encoding="ascii")
        while time.monotonic() < began + TTL - 3:
            seen.add(value())
            time.sleep(0.5)
        # (memcached may keep it for a second more)
        time.sleep(began + TTL + 1.5 - time.monotonic())
        return seen, value()


Calls("Flask-Limiter").check("100_of_300", lambda: let_through(sys.argv[1]), (100, True)).report()
Calls("Postfix").check("ttl", lambda: looked_up(sys.argv[1]), ({"first"}, "second")).report()
