#!/usr/bin/python3
"""Django's cache, by each of its backends for memcached, against a server. Usage: django_calls.py
PORT."""
import sys
import warnings

import django
from calls import Calls
from django.conf import settings

BACKENDS = {"pylibmc": "PyLibMCCache", "pymemcache": "PyMemcacheCache",
            "python-memcached": "MemcachedCache"}


def still_has_a_session_after_logout(kind):
    """Whether somebody who logged out is still logged in, by the session that a browser's cookie
    names."""
    from django.contrib.auth import logout
    from django.contrib.sessions.backends import cache as sessions
    from django.http import HttpRequest

    class Session(sessions.SessionStore):
        def __init__(self, key=None):
            super().__init__(key)
            self._cache = django.core.cache.caches[kind]

    request = HttpRequest()
    request.session = Session()
    request.session["user"] = 7
    request.session.save()
    cookie = request.session.session_key
    assert Session(cookie).get("user") == 7
    logout(request)
    return Session(cookie).get("user") == 7


place = f"127.0.0.1:{sys.argv[1]}"
warnings.simplefilter("ignore")
caches = {kind: {"BACKEND": f"django.core.cache.backends.memcached.{name}", "LOCATION": place}
          for kind, name in BACKENDS.items()}
caches["default"] = {"BACKEND": "django.core.cache.backends.dummy.DummyCache"}
settings.configure(INSTALLED_APPS=["django.contrib.contenttypes", "django.contrib.auth"],
                   CACHES=caches)
django.setup()
for kind in BACKENDS:
    cache, calls = django.core.cache.caches[kind], Calls(f"django-{kind}")
    many = {f"a-name-of-24-bytes-{n:05}": n for n in range(1000)}
    calls.check("set", lambda: (cache.set("dj-a", "1"), cache.get("dj-a"))[1], "1")
    calls.check("get_many", lambda: (
        cache.set_many({"dj-b": 1, "dj-c": 2}), cache.get_many(["dj-b", "dj-no", "dj-c"]))[1],
        {"dj-b": 1, "dj-c": 2})
    calls.check("incr", lambda: cache.incr("dj-b", 4), 5)
    calls.check("delete", lambda: (cache.delete("dj-c"), cache.get("dj-c"))[1], None)
    calls.check("logout", lambda: still_has_a_session_after_logout(kind), False)
    calls.check("timeout_0", lambda: (cache.set("dj-0", "1", timeout=0), cache.get("dj-0"))[1],
                None)
    calls.check("get_many_1000", lambda: (
        cache.set_many(many), cache.close(), cache.get_many(list(many)))[2], many)
    calls.check("clear", lambda: (cache.clear(), cache.get("dj-a"))[1], None)
    calls.check("touch", lambda: (cache.set("dj-t", "1"), cache.touch("dj-t", 60))[1], True)
    calls.check("page_of_140_kB", lambda: (cache.set("dj-p", "z" * 140_000), cache.get("dj-p"))[1],
                "z" * 140_000)
    calls.report()
