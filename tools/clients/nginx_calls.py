#!/usr/bin/python3
"""nginx's memcached_pass against a server. Usage: nginx_calls.py PORT|PATH."""
import os
import pathlib
import sys
import tempfile
import urllib.error
import urllib.request

from calls import Calls
from pymemcache.client.base import Client
from served import OnPort, free_port

CONFIGURATION = """
daemon off; master_process off; pid {folder}/pid; error_log {folder}/errors;
events {{}}
http {{
  access_log off;
  server {{
    listen 127.0.0.1:{own};
    location / {{ set $memcached_key $uri; memcached_pass {address}; }}
  }}
}}
"""


def status_and_body(port, path):
    try:
        with urllib.request.urlopen(f"http://127.0.0.1:{port}{path}", timeout=10) as answer:
            return answer.status, answer.read()
    except urllib.error.HTTPError as error:
        return error.code, b""


where, own, calls, page = sys.argv[1], free_port(), Calls("nginx"), b"<p>page</p>" * 500
address = f"unix:{where}" if where.startswith("/") else f"127.0.0.1:{where}"
client = Client(address, timeout=10, default_noreply=False)
with tempfile.TemporaryDirectory() as folder:
    os.chmod(folder, 0o755)
    configuration = CONFIGURATION.format(folder=folder, own=own, address=address)
    pathlib.Path(f"{folder}/nginx.conf").write_text(configuration, encoding="ascii")
    with OnPort(own, ["nginx", "-p", folder, "-c", f"{folder}/nginx.conf"]):
        calls.check("memcached_pass", lambda: (
            client.set("/page", page), status_and_body(own, "/page")), (True, (200, page)))
        calls.check("a_miss_is_404", lambda: status_and_body(own, "/none")[0], 404)
calls.report()
