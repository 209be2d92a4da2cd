#!/usr/bin/python3
"""Applications that touch what they use, against a server: tooz's locks, Celery's results and
limits' windows that grow. Usage: touching_calls.py PORT."""
import logging
import sys
import time
import warnings

from calls import Calls
from celery import Celery
from celery.backends.cache import CacheBackend
from limits import parse
from limits.storage import MemcachedStorage
from limits.strategies import FixedWindowElasticExpiryRateLimiter
from tooz import coordination

# A lock's seconds, and for how many of them its holder's heart beats: longer than the lock would
# last by itself.
LOCK, BEATS = 40, 45


def holders(place):
    """Of two that want a lock, who has it at first, and who gets it while the first one's heart
    beats each second."""
    where = f"memcached://{place}?lock_timeout={LOCK}&timeout=5"
    one, two = (coordination.get_coordinator(where, name) for name in (b"one", b"two"))
    one.start()
    two.start()
    first, second = one.get_lock(b"lock"), two.get_lock(b"lock")
    held = [first.acquire(blocking=False)]
    for _ in range(BEATS):
        time.sleep(1)
        held.append(first.heartbeat() and not second.acquire(blocking=False))
    return all(held), first.release(), second.acquire(blocking=False)


def of_celery(place):
    """What a chord's part does for its counter."""
    backend = CacheBackend(Celery(), backend=f"memcached://{place}/")
    backend.set("celery-counter", "1")
    backend.expire("celery-counter", 60)
    return backend.get("celery-counter")


def let_through(place):
    """Of 300 calls under a limit of 100 a minute, whose window grows with each."""
    storage, limit = MemcachedStorage(f"memcached://{place}"), parse("100/minute")
    limiter = FixedWindowElasticExpiryRateLimiter(storage)
    return sum(limiter.hit(limit, "somebody") for _ in range(300))


logging.disable(logging.CRITICAL)
warnings.simplefilter("ignore")
place = f"127.0.0.1:{sys.argv[1]}"
Calls("tooz").check(
    "one_holder_while_its_heart_beats", lambda: holders(place), (True, True, True)).report()
Calls("Celery").check("expire", lambda: of_celery(place), "1").report()
Calls("limits").check("elastic_expiry", lambda: let_through(place), 100).report()
