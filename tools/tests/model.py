"""A model of the cache by lists, which gives back, merges and clears segments by the program's
rules, and counts what a `stats` is told.

It is written from the rules of segments alone (docs/OPERATIONS.md tells them in a user's words): it
has lists where the program has bytes, and walks where the program has tables.
"""
import collections
import itertools

import served
from asking import (
    BAD_LINE, DELETED, END, ERROR, NO_NUMBER, NOT_FOUND, NOT_STORED, STORED, TOO_LARGE, TOUCHED,
    hits, put)

LASTING = 1024  # the bucket of what has no deadline
VERSION = f"VERSION 1.6.0-segcached-{served.version()}\r\n".encode()
BUCKETS = 1025
# What lines are answered without a look at the cache or at the clock.
LOCAL = {b"version": VERSION, b"verbosity": b"OK\r\n"}
COUNTED = """cmd_get cmd_set cmd_touch cmd_flush total_items cas_badval out_of_memory get_hits
    get_misses delete_hits delete_misses incr_hits incr_misses decr_hits decr_misses touch_hits
    touch_misses cas_hits cas_misses""".split()
OF_SEGMENTS = """evicted_by_merge evicted_by_clearing reclaimed merges segments_cleared
    segments_emptied""".split()
# Which count a reply to `cas` is.
OF_CAS = {STORED: "cas_hits", NOT_FOUND: "cas_misses", b"EXISTS\r\n": "cas_badval"}
JOINS = (b"append", b"prepend")
SHOWN_AND_TOUCHED = (b"gat", b"gats")
SHOWS = (b"get", b"gets", *SHOWN_AND_TOUCHED)
STORES = (b"set", b"add", b"replace", b"cas", *JOINS)


def line_of(*words):
    """A line of words, numbers and lists of words."""
    def spelled(it):
        return b"%d" % it if isinstance(it, int) else it if isinstance(it, bytes) else b" ".join(it)

    return b" ".join(map(spelled, words)) + b"\r\n"


def refused(cache, request):
    """What is answered to a request that the cache doesn't execute; None for others. Leniently
    that is a storage command, not `set`, whose item is too large. Strictly it is of the lenient
    dialect alone, and its data block is read as a line."""
    verb, *words = request
    if cache.is_lenient:
        is_larger = verb in STORES[1:] and Item(words[0], words[3], 0, 0).size > cache.largest
        return TOO_LARGE if is_larger else None
    if verb == b"delete" and len(words) > 1:
        return BAD_LINE
    if verb in JOINS:
        return 2 * ERROR
    return ERROR if verb in (b"touch", *SHOWN_AND_TOUCHED, b"stats", *LOCAL) else None


# Of buckets of each width: below which life they are, the first one, and the width.
WIDTHS = (2048, 0, 8), (32768, 256, 128), (524288, 512, 2048), (8388608, 768, 32768)


def bucket_of(ttl):
    if ttl is None:
        return LASTING
    return next((first + ttl // width for bound, first, width in WIDTHS if ttl < bound), 1023)


def width_and_lower_end(bucket):
    first, width = next((first, width) for _, first, width in reversed(WIDTHS) if bucket >= first)
    return width, width * (bucket - first)


def deadline_of(exptime, now, is_lenient):
    """The moment that an exptime asks for, if any. Leniently one of 32 bits may be negative."""
    if is_lenient and 1 << 31 <= exptime < 1 << 32:
        return -1
    return None if exptime == 0 else now + exptime if 0 < exptime <= 2592000 else exptime


def life_of(deadline, now):
    return None if deadline is None else max(1, deadline - now)


def may_stand_for(has, asked, now, with_an_eighth=True):
    """Whether a deadline to come may stand where another one is asked for: it is that one, or is
    earlier by less than two widths of its bucket, or by no more than an eighth of the life."""
    if None in (has, asked):
        return has is asked
    life = min(asked - now, 8388608)
    is_near = has + 2 * width_and_lower_end(bucket_of(life))[0] > now + life
    return has <= asked and (is_near or with_an_eighth and asked - has <= (asked - now) // 8)


class Segment:
    def __init__(self, bucket, opened):
        self.bucket, self.opened, self.items, self.hits = bucket, opened, [], 0
        if bucket == LASTING:
            self.closes = self.deadline = None
        else:
            width, lower_end = width_and_lower_end(bucket)
            self.deadline = opened + max(1, lower_end)
            self.closes = min(self.deadline, opened + width)

    def used(self):
        return sum(it.size for it in self.items)


class Item:
    def __init__(self, key, value, flags, cas, segment=None):
        self.key, self.value, self.flags, self.cas = key, value, flags, cas
        self.reads, self.segment, self.own = 0, segment, None
        self.size = (24 + len(key) + len(value) + 7) // 8 * 8

    @property
    def deadline(self):
        """Its own, or that of its segment."""
        return self.segment.deadline if self.own is None else self.own

    def is_over(self, now):
        return self.deadline is not None and self.deadline <= now


class Cache:
    """The cache, by lists: `order` has the segments as opened, but for those that merges moved."""

    def __init__(self, segment_size, segments, largest=None, is_lenient=False,
                 is_least_read=False, is_in_place=False, is_exact=False):
        self.largest = largest or segment_size // 8
        self.segment_size, self.segments, self.free = segment_size, segments, segments
        self.is_least_read, self.is_in_place, self.is_exact = is_least_read, is_in_place, is_exact
        self.order, self.current, self.counts = [], {}, collections.Counter()
        self.cursor = self.opens = self.cas = 0
        self.pending, self.is_lenient = None, is_lenient

    def find(self, key, now):
        item = self.current.get(key)
        return None if item is None or item.is_over(now) else item

    def is_live(self, item, now):
        return self.find(item.key, now) is item

    def append(self, item, bucket, now):
        tail = next((it for it in reversed(self.order) if it.bucket == bucket), None)
        is_closed = tail and item.own is None and tail.closes is not None and now >= tail.closes
        if tail is None or is_closed or tail.used() + item.size > self.segment_size:
            if self.free == 0:
                return False
            self.free -= 1
            tail = Segment(bucket, self.opening_moment(bucket, now))
            self.order.append(tail)
            self.opens += 1
            if 2 * self.opens >= self.segments:
                self.opens = 0
                for segment in self.order:
                    segment.hits //= 2
        tail.items.append(item)
        item.segment = tail
        return True

    def opening_moment(self, bucket, now):
        """With the rule of the least read a multiple of half the bucket's width, but for lives
        below eight seconds or without end."""
        if not self.is_least_read or bucket in (0, LASTING):
            return now
        width, _ = width_and_lower_end(bucket)
        return now - now % (width // 2)

    def reclaim(self, segments, now):
        """The current items of these segments whose deadline has come go."""
        for item in (item for segment in segments for item in segment.items):
            if self.current.get(item.key) is item and item.is_over(now):
                del self.current[item.key]
                self.counts["reclaimed"] += 1

    def give_back(self, now):
        live = [it for it in self.order if any(self.is_live(item, now) for item in it.items)]
        dead, self.order = [it for it in self.order if it not in live], live
        self.reclaim(dead, now)
        self.free += len(dead)
        self.counts["segments_emptied"] += len(dead)
        return bool(dead)

    def front(self, bucket, order):
        """Of a bucket's segments in this part of the order the first ones that can be merged, with
        the one behind all of these."""
        chain = [it for it in order if it.bucket == bucket]
        front = list(itertools.takewhile(
            lambda it: bucket == LASTING or it.opened == chain[0].opened, chain[:-1]))
        most = 4 if not self.is_least_read else 2 if bucket == LASTING else 3
        return front[:most], chain[len(front)] if chain else None

    def looked_at(self):
        """The first segments, a third of all."""
        return self.order[: self.segments // 3]

    def fronts(self):
        """What can be merged, in turn, with the segment behind it and the next bucket."""
        if self.is_least_read:
            for place, segment in enumerate(self.looked_at()):
                yield *self.front(segment.bucket, self.order[place:]), segment.bucket + 1
        else:
            for distance in range(BUCKETS):
                bucket = (self.cursor + distance) % BUCKETS
                yield *self.front(bucket, self.order), bucket + 1

    def merge(self, now):
        for front, behind, cursor in self.fronts():
            if len(front) < 2:
                continue
            self.reclaim(front, now)
            live = [item for segment in front for item in segment.items if self.is_live(item, now)]
            kept, size = set(), 0
            for place in sorted(range(len(live)), key=lambda k: (-live[k].reads, -live[k].cas, k)):
                if size + live[place].size <= self.segment_size:
                    size += live[place].size
                    kept.add(place)
            front[0].items = []
            for place, item in enumerate(live):
                if place in kept:
                    item.reads = (item.reads + self.is_least_read) // 2
                    item.segment = front[0]
                    front[0].items.append(item)
                else:
                    del self.current[item.key]
                    self.counts["evicted_by_merge"] += 1
            front[0].hits = sum(item.reads for item in front[0].items)
            self.order = [it for it in self.order if it not in front[1:]]
            if self.is_least_read:
                self.order.remove(front[0])
                self.order.insert(self.order.index(behind), front[0])
            self.free += len(front) - 1
            self.cursor = cursor % BUCKETS
            self.counts["merges"] += 1
            return True
        return False

    def clear(self, now):
        victim = self.order[0]
        if self.is_least_read:
            victim = min(self.looked_at(), key=lambda it: it.hits)
        self.order.remove(victim)
        self.reclaim([victim], now)
        for item in victim.items:
            if self.is_live(item, now):
                del self.current[item.key]
                self.counts["evicted_by_clearing"] += 1
        self.free += 1
        self.counts["segments_cleared"] += 1

    def write(self, key, value, flags, ttl, now):
        self.cas += 1
        self.store(Item(key, value, flags, self.cas), ttl, now)

    def rewrite(self, item, value, now):
        """The item has this value from now on: where it stands, with its reads, if that is on and
        the size stays; else it is written anew."""
        if not self.is_in_place or Item(item.key, value, 0, 0).size != item.size:
            return self.write(item.key, value, item.flags, life_of(item.deadline, now), now)
        self.cas += 1
        item.value, item.cas = value, self.cas
        item.segment.hits += 1

    def goes_over(self, item, ttl, now):
        """Whether the item goes over the one of its key, which may have expired, and if so puts it
        there: by the rule of the least read, or where items have their own deadlines, if both take
        as many bytes, and the item may have the deadline of that segment, or goes in there with its
        own."""
        there, asked = self.current.get(item.key), None if ttl is None else now + ttl
        if not ((self.is_least_read or self.is_exact) and there and there.size == item.size):
            return False
        has = there.segment.deadline
        is_in_chain = self.stands_in_one_chain(item) and has is None
        if not (is_in_chain or may_stand_for(has, asked, now, self.is_exact)):
            return False
        there.value, there.flags, there.cas, there.own = item.value, item.flags, item.cas, item.own
        there.segment.hits += 1
        return True

    def stands_in_one_chain(self, item):
        """Whether it has a deadline of its own, and with those stands beside items without one."""
        return self.is_least_read and item.own is not None

    def store(self, item, ttl, now):
        item.own = now + ttl if self.is_exact and ttl is not None and now + ttl < 2**48 else None
        if self.goes_over(item, ttl, now):
            return
        bucket = LASTING if self.stands_in_one_chain(item) else bucket_of(ttl)
        self.current.pop(item.key, None)
        if not self.append(item, bucket, now):
            if not self.give_back(now) and not self.merge(now):
                self.clear(now)
            assert self.append(item, bucket, now)
        self.current[item.key] = item

    # ---- what is counted

    def count(self, verb, words, answer):
        counts, name = self.counts, verb.decode()
        if verb in SHOWS:
            hits, asked = answer.count(b"VALUE key"), len(words[-1])
            asks, of = ("cmd_touch", "touch") if verb in SHOWN_AND_TOUCHED else ("cmd_get", "get")
            counts.update({asks: asked, f"{of}_hits": hits, f"{of}_misses": asked - hits})
        elif verb in (b"incr", b"decr", b"delete", b"touch"):
            counts["cmd_touch"] += verb == b"touch"
            if answer == NOT_FOUND:
                counts[f"{name}_misses"] += 1
            elif not answer.startswith(b"CLIENT_ERROR"):
                counts[f"{name}_hits"] += 1
        elif verb == b"flush_all":
            counts["cmd_flush"] += 1
        else:
            counts.update(cmd_set=1, total_items=answer == STORED)
            if verb == b"cas" and answer in OF_CAS:
                counts[OF_CAS[answer]] += 1

    def told(self):
        """What a `stats` is told: the counts, and those gauges that the model knows."""
        told = {name: self.counts[name] for name in (*COUNTED, *OF_SEGMENTS)}
        size = sum(item.size for item in self.current.values())
        return told | {
            "evictions": told["evicted_by_merge"] + told["evicted_by_clearing"],
            "segments_free": self.free, "curr_items": len(self.current), "bytes": size,
            "segment_bytes_dead": len(self.order) * self.segment_size - size,
        }

    # ---- requests

    def get(self, keys, with_cas, now):
        out = b""
        for key in keys:
            item = self.find(key, now)
            if item is not None:
                item.reads = min(127, item.reads + 1)
                item.segment.hits += 1
                out += hits(key, item.value, item.flags, item.cas if with_cas else None)
        return out + END

    def put(self, verb, key, flags, exptime, value, unique, now):
        if Item(key, value, flags, 0).size > self.largest:
            if self.is_lenient:
                self.current.pop(key, None)
            return TOO_LARGE
        there = self.find(key, now)
        if (verb == b"add" and there) or (verb == b"replace" and not there):
            return NOT_STORED
        if verb == b"cas" and not (there and there.cas == unique):
            return b"EXISTS\r\n" if there else NOT_FOUND
        deadline = deadline_of(exptime, now, self.is_lenient)
        if deadline is not None and deadline <= now:
            self.current.pop(key, None)
        else:
            self.write(key, value, flags, life_of(deadline, now), now)
        return STORED

    def join(self, verb, key, value, now):
        """An `append` or a `prepend`: the flags and the deadline stay, but the deadline is asked
        for anew if the item is written anew."""
        item = self.find(key, now)
        if item is None:
            return NOT_STORED
        value = item.value + value if verb == b"append" else value + item.value
        if Item(key, value, item.flags, 0).size > self.largest:
            return TOO_LARGE
        self.rewrite(item, value, now)
        return STORED

    def touch(self, key, exptime, now):
        """The item gets the deadline that is asked for, and stays as it is if its own may stand for
        that one: where items have their own, only the same one."""
        item, deadline = self.find(key, now), deadline_of(exptime, now, self.is_lenient)
        if item is None:
            return NOT_FOUND
        stays = item.deadline == deadline or not self.is_exact
        if deadline is not None and deadline <= now:
            del self.current[key]
        elif stays and may_stand_for(item.deadline, deadline, now):
            item.segment.hits += 1
        else:
            self.store(Item(key, item.value, item.flags, item.cas), life_of(deadline, now), now)
        return TOUCHED

    def change(self, key, amount, adds, now):
        item = self.find(key, now)
        if item is None:
            return NOT_FOUND
        if not (1 <= len(item.value) <= 20 and item.value.isdigit() and int(item.value) < 2**64):
            return NO_NUMBER
        number = (int(item.value) + amount) % 2**64 if adds else max(0, int(item.value) - amount)
        self.rewrite(item, b"%d" % number, now)
        return b"%d\r\n" % number

    def delete(self, key, now):
        return DELETED if self.find(key, now) and self.current.pop(key) else NOT_FOUND

    def flush(self, delay, now):
        self.pending = now + delay if delay else None
        if not delay:
            self.current.clear()
        return b"OK\r\n"

    def answer(self, request, now):
        """A request's bytes, and what it is answered, counted, or a `stats` is told, by names."""
        verb, *words = request
        if verb in LOCAL:
            return line_of(*request), LOCAL[verb]
        if self.pending is not None and self.pending <= now:
            self.flush(0, now)
        if verb == b"stats":
            return line_of(verb), self.told()
        line, answer = self.answer_uncounted(request, now)
        # (leniently no `set` that is too large counts)
        if not (self.is_lenient and verb == b"set" and answer == TOO_LARGE):
            self.count(verb, words, answer)
        return line, answer

    def answer_uncounted(self, request, now):
        """A request's bytes, and what it is answered. A `cas` number of None is that of what is
        there, or 0. `append`, `prepend`, `touch`, `gat`, `gats`, `version` and `verbosity`, and a
        zero after the key of a `delete`, are for the lenient dialect."""
        match request:
            case (b"append" | b"prepend") as verb, key, flags, exptime, value, _:
                return put(key, value, verb, flags, exptime), self.join(verb, key, value, now)
            case verb, key, flags, exptime, value, unique:
                if unique is None:
                    unique = getattr(self.find(key, now), "cas", 0)
                words = b" %d" % unique if verb == b"cas" else b""
                line = put(key, value, verb, flags, exptime, words)
                return line, self.put(verb, key, flags, exptime, value, unique, now)
            case verb, keys if verb in SHOWS:
                answer = self.get(keys, verb == b"gets", now)
            case verb, exptime, keys if verb in SHOWN_AND_TOUCHED:
                answer = self.get(keys, verb == b"gats", now)
                for key in keys:
                    self.touch(key, exptime, now)
            case b"touch", key, exptime:
                answer = self.touch(key, exptime, now)
            case b"delete", key, *_:
                answer = self.delete(key, now)
            case verb, key, amount:
                answer = self.change(key, amount, verb == b"incr", now)
            case b"flush_all", delay:
                answer = self.flush(delay, now)
        return line_of(*request), answer
