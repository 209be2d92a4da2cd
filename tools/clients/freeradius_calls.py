#!/usr/bin/python3
"""FreeRADIUS with its cache in a server: whether it starts. Usage: freeradius_calls.py PORT.

When a connection to the cache is opened it asks for the version, and doesn't start without one.
"""
import pathlib
import shutil
import subprocess
import sys
import tempfile

from calls import Calls

HOME = "/etc/freeradius/3.0"
MODULE = """cache stored {{
    driver = "rlm_cache_memcached"
    memcached {{
        options = "--SERVER=127.0.0.1:{port}"
    }}
    key = "%{{User-Name}}"
    ttl = 60
    update {{
        &reply:Class := "x"
    }}
}}
"""
SITE = """server one {
    listen {
        type = auth
        ipaddr = 127.0.0.1
        port = 0
    }
    authorize {
        stored
    }
}
"""


def starts(port):
    """Whether it says that it is ready, before it ends or ten seconds are over."""
    with tempfile.TemporaryDirectory() as folder:
        without_sites = lambda path, names: names if path.endswith("sites-enabled") else []
        shutil.copytree(HOME, f"{folder}/raddb", ignore=without_sites,
                        ignore_dangling_symlinks=True)
        pathlib.Path(f"{folder}/raddb/mods-enabled/stored").write_text(MODULE.format(port=port))
        pathlib.Path(f"{folder}/raddb/sites-enabled/one").write_text(SITE)
        words = ["timeout", "10", "freeradius", "-d", f"{folder}/raddb", "-X"]
        to = {"stdout": subprocess.PIPE, "stderr": subprocess.STDOUT}
        with subprocess.Popen(words, text=True, errors="replace", **to) as server:
            is_ready = any("Ready to process requests" in line for line in server.stdout)
            server.terminate()
    return is_ready


Calls("FreeRADIUS").check("starts", lambda: starts(sys.argv[1]), True).report()
