"""Misses of segcached and memcached at equal resident memory: for tools/bench.py, which says the
words.

A client reads keys by Zipf's law and writes each that it missed. All keys with their values have
some times as many bytes as the memory, so no server keeps them all. memcached (of Debian, with its
own defaults) gets an -m with which the point's memory is resident; segcached gets the most segments
with which it has no more resident than memcached, once each server was filled with all keys. Then
both are warmed by a number of reads, and a further number is counted: of reads, not of seconds, so
a slow machine counts the same misses. If keys have TTLs the clock counts too, and both servers are
asked at one fixed rate. segcached is measured with the package's options, and with its defaults.
"""
import collections
import concurrent.futures
import math
import os
import time
from typing import NamedTuple

from matplotlib import pyplot

from asking import put
from served import OPTIONS, Client, Memcached, Server, Trouble, together

MIB = 1 << 20
KEY_BYTES, HEAD_BYTES = 11, 24
# How many reads warm and how many are counted, as multiples of the keys, and the least number.
WARMED, COUNTED, LEAST = 4, 2, 1_000_000
# Of each class of TTLs a segment is open, so keys with TTLs have larger ones.
SEGMENT_SIZE, TIMED_SEGMENT_SIZE = 64 << 10, 512 << 10
MEMORIES, VALUES, EXPONENTS = (32, 64, 128), (100, 300, 1000), (0.8, 0.99)
# How many times the memory the keys with their values have: in the curve, and in another table.
TIMES, OTHER_TIMES = 2.5, (1.5, 1.8, 4.0)
SEGMENT_SIZES = (64 << 10, 256 << 10, 512 << 10, 1 << 20)
# segcached's options, by what tables call them.
SETTINGS = {"default": [], "package": OPTIONS}
# Neither server asks for huge pages, with which what is resident is rounded up to 2 MiB.
PLAIN = {name: value for name, value in os.environ.items() if name != "GLIBC_TUNABLES"}


class Timed(NamedTuple):
    """What keys with TTLs are asked for: the load's words, reads a second, and the seconds of
    warming and of counting."""

    name: str
    words: tuple
    reads: int
    warm: int
    count: int


SHORT = Timed("with TTLs", ("--ttls", "--rate", 60_000, "--pipeline", 256), 60_000, 100, 40)


def site(rate, warm, count):
    """Pages, sessions and settings of a site: of 100 requests ten are writes, beside those of keys
    that were missed, and one is a delete."""
    words = "--long-ttls", "--rate", rate, "--pipeline", 16, "--sets", 10, "--deletes", 1
    return Timed("a site", words, rate * 89 // 100, warm, count)


class Point(NamedTuple):
    """What is measured: MiB of memory, bytes of a value, the law's exponent, and what else."""

    memory: int
    value: int
    zipf: float
    times: float = TIMES
    timed: Timed | None = None
    sets: int = 0
    segment_size: int = SEGMENT_SIZE
    setting: str = "default"

    @property
    def keys(self):
        return min(int(self.times * self.memory * MIB / (KEY_BYTES + self.value)), 9_999_999)

    @property
    def store(self):
        """What the servers' sizes depend on."""
        times = max(self.times, TIMES)
        return Point(self.memory, self.value, 0, times, segment_size=self.segment_size)

    def words(self):
        asked = ["--through", "--zipf", self.zipf, "--threads", 1]
        asked += ["--keys", self.keys, "--value", self.value]
        if self.timed:
            return [*asked, "--connections", 4, *self.timed.words]
        return [*asked, "--connections", 1, "--pipeline", 256, "--sets", self.sets]

    def reads(self):
        """How many reads warm, and how many are counted."""
        if self.timed:
            return self.timed.reads * self.timed.warm, self.timed.reads * self.timed.count
        return max(WARMED * self.keys, LEAST), max(COUNTED * self.keys, LEAST)


# What a server came to: its megabytes or segments, MiB resident at the end, misses of 100 reads,
# and reads a second.
Side = collections.namedtuple("Side", "size resident missed rate")


def by_settings(points):
    return [it._replace(setting=setting) for it in points for setting in SETTINGS]


def curve():
    """The points of the picture, those with fewer and with more keys, and those with TTLs."""
    plain = [Point(memory, value, zipf)
             for zipf in EXPONENTS for value in VALUES for memory in MEMORIES]
    others = [Point(32, value, 0.99, times) for value in VALUES for times in OTHER_TIMES]
    timed = [Point(64, value, 0.99, timed=SHORT, segment_size=TIMED_SEGMENT_SIZE)
             for value in (100, 1000)]
    return [by_settings(it) for it in (plain, others, timed)]


# A site in two hours, of which the last half hour counts; and a minute of a small one.
SITES = by_settings([Point(64, 600, 1.0, timed=site(3_000, 5_400, 1_800), segment_size=MIB)])
BRIEF_SITES = by_settings([Point(16, 600, 1.0, timed=site(30_000, 45, 15), segment_size=256 << 10)])
# The points that tell which size of a segment misses least.
SEGMENTS = [Point(value=value, zipf=0.99, **kind, segment_size=size, setting="package")
            for kind in ({"memory": 32}, {"memory": 32, "sets": 30}, {"memory": 64, "timed": SHORT})
            for value in (100, 1000) for size in SEGMENT_SIZES]


def megabytes_in(memory):
    """memcached's -m with which about so many MiB are resident."""
    return memory - 5 - memory // 32


def memcached(memory):
    return Memcached(megabytes=megabytes_in(memory), environment=PLAIN)


def segcached(program, point, segments):
    sizes = ["--segment-size", str(point.segment_size), "--segments", str(segments)]
    return Server(program, *sizes, *SETTINGS[point.setting], environment=PLAIN)


class Misses:
    """Runs points, several at a time, with the load and the program that it is given."""

    def __init__(self, load, program, say):
        self.load, self.program, self.say = load, program, say

    def asked(self, server, *words):
        """One run of the load: the figures of its last line."""
        figures = self.load.run(server, *words, seconds=None)
        if figures["refused"]:
            self.say(f"{server.process.args[0]}: {figures['refused']:,.0f} requests refused")
        return figures

    def filled(self, server, point):
        """What a server has resident once all keys were written, in MiB."""
        words = ["--fill", "--connections", 4, "--pipeline", 64]
        with server:
            self.asked(server, *words, "--keys", point.keys, "--value", point.value)
            return server.kilobytes("VmRSS") / 1024

    def fit(self, point):
        """The most segments with which segcached has no more resident than memcached."""
        budget = self.filled(memcached(point.memory), point)
        segment = point.segment_size / MIB
        taken = segment * (1 + 1 / 256 + 12 / (HEAD_BYTES + KEY_BYTES + point.value))
        segments, most = int(0.85 * budget / taken), math.inf
        for _ in range(6):
            over = self.filled(segcached(self.program, point, segments), point) - budget
            if over > 0:
                most = segments
                segments -= math.ceil(over / taken)
            elif over < -taken and segments + 1 < most:
                segments = min(segments + int(-over / taken), most - 1)
            else:
                break
        self.say(f"{point}: {segments} segments")
        return segments

    def side(self, server, size, point):
        warmed, counted = point.reads()
        with server:
            self.asked(server, *point.words(), "--seed", 1, "--reads", warmed)
            ran = self.asked(server, *point.words(), "--seed", 2, "--reads", counted)
            reads, resident = ran["hits"] + ran["misses"], server.kilobytes("VmRSS") / 1024
            return Side(size, resident, 100 * ran["misses"] / reads, reads / ran["seconds"])

    def both(self, point, segments):
        sides = together([
            lambda: self.side(memcached(point.memory), megabytes_in(point.memory), point),
            lambda: self.side(segcached(self.program, point, segments), segments, point)])
        self.say(f"{point}: {ratio(sides):.2f}")
        return sides

    def each(self, points):
        """By point, its sides: those at a fixed rate all at once, beside the others, of which the
        longest go first."""
        stores = sorted({it.store for it in points}, key=lambda it: -it.keys)
        order = sorted(points, key=lambda it: -it.keys)
        at_once, pool = max(1, (os.cpu_count() or 1) // 2), concurrent.futures.ThreadPoolExecutor
        with pool(at_once) as busy, pool(len(points)) as timed:
            sizes = dict(zip(stores, busy.map(self.fit, stores)))
            runs = {it: (timed if it.timed else busy).submit(self.both, it, sizes[it.store])
                    for it in order}
            return {it: ran.result() for it, ran in runs.items()}


def ratio(sides):
    return sides[1].missed / max(sides[0].missed, 1e-9)


def markdown(heads, rows):
    lines = ["| " + " | ".join(it) + " |" for it in [heads, *rows]]
    return [lines[0], "|---" * len(heads) + "|", *lines[1:]]


def table(points, results):
    """A row for each point: both servers' memory and misses."""
    rows = []
    for point in points:
        sides = results[point]
        said = f", {point.timed.name}" if point.timed else ""
        said += f", {point.sets} of 100 are writes" if point.sets else ""
        rows.append({
            "Memory (MiB), segments (KiB)": f"{point.memory}, {point.segment_size >> 10}",
            "values (bytes)": f"{point.value:,}",
            "Zipf's exponent": f"{point.zipf:g}{said}, {point.setting}",
            "keys (times the memory)": f"{point.keys:,} ({point.times:g})",
            "-m of memcached, segments": ", ".join(f"{it.size}" for it in sides),
            "resident (MiB)": ", ".join(f"{it.resident:.1f}" for it in sides),
            "missed of 100 reads": ", ".join(f"{it.missed:.2f}" for it in sides),
            "ratio": f"{ratio(sides):.2f}",
        })
    return markdown(rows[0], [it.values() for it in rows])


def least_held(results):
    """The least share of its fixed rate that a server kept, of those whose keys have TTLs."""
    share = min(side.rate / point.timed.reads
                for point, sides in results.items() if point.timed for side in sides)
    return f"With TTLs each server kept at least {share:.1%} of the rate that it was asked at."


def ratios(results):
    """By kind of point and by options, the least and the greatest ratio."""
    kinds = {}
    for point, sides in results.items():
        is_plain = point.times == TIMES
        name = f"values of {point.value:,} bytes" if is_plain else f"keys of {point.times:g} times"
        name += ", with TTLs" if point.timed else ""
        kinds.setdefault(name, {}).setdefault(point.setting, []).append(ratio(sides))
    span = lambda it: f"{min(it):.2f}" + f"–{max(it):.2f}" * (len(it) > 1)
    rows = [[name, *(span(of[it]) for it in SETTINGS)] for name, of in kinds.items()]
    return markdown(["segcached's misses beside memcached's", *SETTINGS], rows)


def draw(results, picture):
    """A picture: above, what both missed; below, the ratio; a column for each exponent. For each
    size of values memcached has a line, and segcached one for each of its options."""
    figure, axes = pyplot.subplots(2, len(EXPONENTS), figsize=(11, 9), layout="constrained")
    for zipf, (above, below) in zip(EXPONENTS, axes.T):
        for value, colour in zip(VALUES, ("#1b6ca8", "#2e8b57", "#c0504d")):
            theirs = [results[Point(memory, value, zipf)][0].missed for memory in MEMORIES]
            above.plot(MEMORIES, theirs, "o--", color=colour, label=f"{value} bytes, memcached")
            for style, setting in zip(("o-", "o-."), SETTINGS):
                sides = [results[Point(memory, value, zipf, setting=setting)]
                         for memory in MEMORIES]
                line = {"color": colour, "label": f"{value} bytes, {setting}"}
                above.plot(MEMORIES, [ours.missed for _, ours in sides], style, **line)
                below.plot(MEMORIES, [ratio(it) for it in sides], style, **line)
        below.axhline(1, color="black", linestyle=":")
        for axis, what in ((above, "missed of 100 reads"),
                           (below, "segcached's misses, times memcached's")):
            axis.set(title=f"keys by Zipf's law, {zipf:g}", ylabel=what, ylim=(0, None),
                     xlabel="resident memory (MiB)", xscale="log")
            axis.set_xticks(MEMORIES, MEMORIES)
            axis.minorticks_off()
            axis.grid(axis="y")
            axis.legend(fontsize="small")
    figure.savefig(picture)


# ---- keys in use that are lost while new ones are written

# A client writes 1,500 new keys a second, far more than the memory holds, and uses four keys ten
# times a second: it increments a counter and reads three others. A key that is gone long before its
# TTL is over is lost, and is written again.
RATE, TICKS_A_SECOND, SECONDS, NEW = 1_500, 10, 75, b"v" * 1_000
# The TTLs of the keys in use, of which the first is the counter, and how much earlier one may end:
# by default segcached rounds a TTL down by less than this.
TTLS, EARLY = (60, 60, 600, 0), 16

# What there is of memory, and the TTLs of the new keys in turn.
FLOODS = [(Point(memory, len(NEW), 0, segment_size=size), ttls) for memory, size, ttls in (
    (16, 256 << 10, (0,)),
    (16, 256 << 10, (0, 60, 600)),
    (16, 256 << 10, (600,)),
    (16, MIB, (600,)),
    (64, MIB, (3_600, 3_600, 3_600, 86_400)),
)]


def lost(server, ttls, seconds):
    """How often each key in use was lost."""
    client, times, until = Client(server, 20), [0] * len(TTLS), [0.0] * len(TTLS)

    def write(number):
        value = NEW if number else b"1000000"
        if client.set(b"hot-%d" % number, value, exptime=TTLS[number]) != b"STORED":
            raise Trouble("set: not stored")
        lasts = TTLS[number] - EARLY if TTLS[number] else math.inf
        until[number] = time.monotonic() + lasts

    for number in range(len(TTLS)):
        write(number)
    began = time.monotonic()
    for tick in range(seconds * TICKS_A_SECOND):
        time.sleep(max(0, began + tick / TICKS_A_SECOND - time.monotonic()))
        first = tick * RATE // TICKS_A_SECOND
        new = range(first, first + RATE // TICKS_A_SECOND)
        client.stream.sendall(b"".join(
            put(b"new-%d" % it, NEW, exptime=ttls[it % len(ttls)]) for it in new))
        # (which of them wasn't stored isn't told)
        for _ in new:
            client.line()
        there = [client.ask(b"incr hot-0 1") != b"NOT_FOUND"]
        there += [client.get(b"hot-%d" % it) is not None for it in range(1, len(TTLS))]
        for number in (it for it, is_there in enumerate(there) if not is_there):
            times[number] += time.monotonic() < until[number]
            write(number)
    return times


def table_of_losses(program, seconds=SECONDS, floods=FLOODS):
    """A row for each flood, of how often each key was lost with each server: all at once."""
    def times_lost(point, ttls, setting):
        segments = point.memory * MIB // point.segment_size
        with (segcached(program, point._replace(setting=setting), segments) if setting
              else memcached(point.memory)) as server:
            return " ".join(map(str, lost(server, ttls, seconds)))

    rows, sides = [], (None, *SETTINGS)
    found = together(lambda it=it, side=side: times_lost(*it, side)
                     for it in floods for side in sides)
    for point, ttls in floods:
        said = ", ".join(f"{it:,}" if it else "none" for it in ttls)
        sizes = f"{point.memory} MiB, segments of {point.segment_size >> 10} KiB, TTLs {said}"
        rows.append([sizes, *(found.pop(0) for _ in sides)])
    heads = f"{RATE:,} new keys a second, {seconds} seconds", "memcached", *SETTINGS
    return markdown(heads, rows)
