"""Rates, latencies and processor time of two servers beside each other: for tools/bench.py, which
says the words.

In each round the servers are started anew and filled, and run each load one after the other, in
shuffled turns. segcached has the package's options; at loads where those make a difference it runs
with its default options, too. A ratio is one of two runs of the same round. Tables have the median
of the rounds' ratios, for the main figure and the processor time with their quartiles, and '≈' if
these have 1 between them.
"""
import contextlib
import os
import random
import subprocess
import time
from typing import NamedTuple

import numpy
from matplotlib import pyplot

from misses import MIB, markdown
from served import OPTIONS, TUNABLES, Memcached, Server, Trouble, compiled

# The workers of segcached, and the threads of memcached beside them.
THREADS = {1: 1, 2: 2, 3: 4}
# By the bytes of a value: how many segments of 1 MiB there are (room for what is stored), and keys.
SEGMENTS = {100: 128, 1000: 512, 10_000: 512, 100_000: 512, 1_000_000: 512}
KEYS = {100: 100_000, 1000: 100_000, 10_000: 10_000, 100_000: 1000, 1_000_000: 300}
# The load of the longest pause: both servers have 64 MiB, which half of the keys fill.
PAUSE_MIB, PAUSE_KEYS = 64, 1_000_000
PAUSE_SEGMENT_SIZES = (MIB, 64 << 10)
FIGURES = {"rate": "rate", "p50": "p50", "p99": "p99", "processor": "processor time"}
# The keys of what runs beside a load, and what it asks: one connection, replies of 8 MB.
BESIDE_KEYS = ("--value", 100_000, "--keys", 500, "--first", 5_000_000)
BESIDE = (*BESIDE_KEYS, "--connections", 1, "--many", 83)


class Load(NamedTuple):
    """A load's name and words, and the bytes of a value; whether it also runs with default options,
    what segcached has in place of the package's options, and whether large replies are asked for
    beside it."""

    name: str
    words: tuple = ()
    value: int = 100
    default: bool = False
    options: tuple | None = None
    beside: bool = False

    def shape(self):
        return "--value", self.value, "--keys", KEYS[self.value]

    def group(self):
        """Loads of one group run on the same servers."""
        return self.value, self.options, self.beside

    def has_rate(self):
        """A fixed rate is what both serve, and is no figure."""
        return "--rate" in self.words


ONE = ("--connections", 1)
PIPELINE = ("--pipeline", 16)
SPIN = ("--spin", "100")
LARGE_ITEMS = (*OPTIONS, "--max-item-size", str(MIB - 64))
# Those that write come last of their group, as what they write makes segcached merge segments.
LOADS = (
    Load("one connection", ONE, default=True),
    Load("one connection, --storage thread --spin 100", ONE, options=SPIN),
    Load("one connection, pipeline 16", (*PIPELINE, *ONE), default=True),
    Load("pipeline 1", default=True),
    Load("pipeline 16", PIPELINE, default=True),
    Load("pipeline 64", ("--pipeline", 64), default=True),
    Load("1,000 connections", ("--connections", 1000)),
    Load("get of 16 keys", ("--many", 16)),
    Load("first answer after a pause of 10 ms", (*ONE, "--rate", 100), default=True),
    Load("1,000 a second", ("--rate", 1000), default=True),
    Load("20,000 a second", ("--rate", 20_000), default=True),
    Load("20,000 a second, --storage thread --spin 100", ("--rate", 20_000), options=SPIN),
    Load("80,000 a second", ("--rate", 80_000), default=True),
    Load("20,000 a second beside replies of 8 MB", ("--connections", 8, "--rate", 20_000),
         default=True, beside=True),
    Load("sets, pipeline 16", (*PIPELINE, "--sets", 100), default=True),
    Load("1,000-byte values, pipeline 16", PIPELINE, 1000),
    Load("10 kB values", (), 10_000),
    Load("10 kB values, pipeline 16", PIPELINE, 10_000),
    Load("get of 16 keys of 10 kB", ("--many", 16), 10_000),
    Load("sets of 10 kB", ("--sets", 100), 10_000),
    Load("sets of 100 kB", ("--sets", 100), 100_000),
    Load("sets of 1 MB", ("--sets", 100), 1_000_000, options=LARGE_ITEMS),
)


def known_to(program, words):
    """Those of these options that a program has."""
    listed = subprocess.check_output([program, "serve", "--help"], text=True).split()
    kept, is_known = [], True
    for word in words:
        is_known = word in listed if word.startswith("--") else is_known
        kept += [word] * is_known
    return kept


class LoadProgram:
    """tools/load.c, compiled into a folder."""

    def __init__(self, folder):
        self.path = compiled("load", folder, "-pthread", "-lm")

    def words(self, server, words):
        return [self.path, "127.0.0.1", str(server.port), *map(str, words)]

    def run(self, server, *words, seconds=120):
        """The figures of its last line, and the server's processor microseconds a request."""
        before, words = server.processor_seconds(), self.words(server, words)
        try:
            ran = subprocess.run(words, capture_output=True, text=True, timeout=seconds)
        except subprocess.TimeoutExpired:
            raise Trouble(f"no end of {' '.join(words)} in {seconds} seconds") from None
        if ran.returncode:
            raise Trouble(f"{' '.join(words)}: {ran.stderr.strip()}")
        parts = (it.partition("=") for it in ran.stdout.split())
        figures = {name: float(figure) for name, _, figure in parts}
        spent = server.processor_seconds() - before
        return {**figures, "processor": spent * 1e6 / max(figures["requests"], 1)}


def quartiles(numbers):
    return numpy.quantile(numbers, (0.25, 0.5, 0.75))


def ratios(pairs, figure):
    """By round, the second server's figure, as a share of the first one's."""
    return [second[figure] / max(first[figure], 1e-9) for first, second in pairs]


def shown(numbers):
    """The median with its quartiles, and '≈' before it if 1 is between these."""
    low, middle, high = quartiles(numbers)
    if low == high:
        return f"{middle:.2f}"
    return f"{'≈' if low <= 1 <= high else ''}{middle:.2f} ({low:.2f}–{high:.2f})"


def with_quartiles(numbers):
    low, middle, high = quartiles(numbers)
    return f"{middle:.1f} ({low:.1f}–{high:.1f})"


BY_DEFAULT = " by default"
MARKS = {
    "(1)": "(1) In one of these runs the load's own threads were busy for over 90% of the time.",
    "(2)": "(2) In one of these runs more than one key in a thousand was missed.",
}


class Speed:
    """Two servers by their names in tables: each a program of segcached, or None for memcached. The
    figures of a round are by these names; with default options BY_DEFAULT stands behind one."""

    def __init__(self, load, servers, rounds, seconds, say):
        self.load, self.servers, self.say = load, servers, say
        self.rounds, self.seconds = rounds, seconds
        # (always the same turns)
        self.turns = random.Random(1)

    def shuffled(self, items):
        items = list(items)
        self.turns.shuffle(items)
        return items

    def in_rounds(self, cases, measure):
        """By case, what is measured of it in each round, in which the cases come in turn."""
        found = {it: [] for it in cases}
        for turn in range(self.rounds):
            for it in self.shuffled(cases):
                found[it].append(measure(*it))
            self.say(f"round {turn + 1} of {self.rounds}")
        return found

    def program_of(self, name):
        return self.servers[name.removesuffix(BY_DEFAULT)]

    def started(self, name, workers, megabytes, segment_size=MIB, options=None):
        """A server with these options, or the package's."""
        tuned = {**os.environ, "GLIBC_TUNABLES": TUNABLES}
        program = self.program_of(name)
        if not program:
            return Memcached(THREADS[workers], megabytes, tuned)
        options = known_to(program, OPTIONS) if options is None else options
        sizes = ["--segment-size", segment_size, "--segments", megabytes * MIB // segment_size]
        words = ["--workers", workers, *sizes, *(() if name.endswith(BY_DEFAULT) else options)]
        return Server(program, *map(str, words), environment=tuned)

    def run_load(self, server, load):
        """One run, for a second at least if it has a rate."""
        seconds = max(self.seconds, 1) if load.has_rate() else self.seconds
        words = ["--seconds", seconds, *load.shape(), *load.words]
        if not load.beside:
            return self.load.run(server, *words)
        asked = self.load.words(server, [*BESIDE, "--seconds", seconds + 0.2])
        with subprocess.Popen(asked, stdout=subprocess.DEVNULL) as beside:
            time.sleep(0.1)
            figures = self.load.run(server, *words)
            if beside.wait(120):
                raise Trouble(f"{load.name}: the large replies aren't read")
        return figures

    def run_group(self, workers, loads):
        """A round of a group: by load, the figures of each server."""
        found, servers, first = {}, {}, loads[0]
        names = [*self.servers, *(it + BY_DEFAULT for it, program in self.servers.items()
                                  if program and any(load.default for load in loads))]
        with contextlib.ExitStack() as until:
            for name in self.shuffled(names):
                megabytes = SEGMENTS[first.value] if self.program_of(name) else 1024
                servers[name] = until.enter_context(
                    self.started(name, workers, megabytes, options=first.options))
                self.load.run(servers[name], "--fill", "--pipeline", 16, *first.shape())
                if first.beside:
                    self.load.run(servers[name], "--fill", *BESIDE_KEYS)
            for load in loads:
                asked = [it for it in servers if load.default or not it.endswith(BY_DEFAULT)]
                found[load] = {it: self.run_load(servers[it], load) for it in self.shuffled(asked)}
                if refused := sum(it["refused"] for it in found[load].values()):
                    raise Trouble(f"{load.name}: {refused:.0f} sets refused")
        return found

    def compared(self, sizes, loads):
        groups = {}
        for load in loads:
            groups.setdefault(load.group(), []).append(load)
        cases = [(size, group) for size in sizes for group in groups]
        found = self.in_rounds(cases, lambda size, group: self.run_group(size, groups[group]))
        return {load: {size: [turn[load] for turn in found[size, load.group()]] for size in sizes}
                for load in loads}

    def pairs(self, rounds, behind=""):
        """Both servers' figures of each round; memcached has no other options by default."""
        return [[it.get(name + behind, it[name]) for name in self.servers] for it in rounds]

    def table(self, results):
        """A row for each load; in its cells a line for each number of workers."""
        sizes = list(next(iter(results.values())))
        heads = ["Load", f"{'/'.join(self.servers)}: 1,000 requests a second, or p50 in us"]
        heads += [*FIGURES.values(), "by default: rate or p50; processor time"]
        rows = []
        for load, by_size in results.items():
            cells = zip(*(self.cells(load, by_size[size]) for size in sizes))
            lines = ("<br>".join(filter(None, it)) for it in cells)
            rows.append([load.name + marks(by_size), *lines])
        many = f"In each cell a line for {', '.join(map(str, sizes))} workers."
        said = [many if len(sizes) > 1 else f"{sizes[0]} workers."]
        said += [it for mark, it in MARKS.items() if any(mark in row[0] for row in rows)]
        return [*markdown(heads, rows), "", *said]

    def cells(self, load, rounds):
        pairs, main = self.pairs(rounds), "p50" if load.has_rate() else "rate"
        unit = 1000 if main == "rate" else 1
        both = numpy.median([[it[main] for it in pair] for pair in pairs], axis=0) / unit
        cells = ["/".join(f"{it:,.0f}" for it in both)]
        for figure in FIGURES:
            found = ratios(pairs, figure)
            is_main = figure in (main, "processor")
            cells.append(shown(found) if is_main else f"{numpy.median(found):.2f}")
        if load.has_rate():
            cells[1] = ""
        pairs = self.pairs(rounds, BY_DEFAULT)
        by_default = (shown(ratios(pairs, it)) for it in (main, "processor"))
        return [*cells, "; ".join(by_default) if load.default else ""]

    def other_table(self):
        """The longest answers to a set while segments are merged, and the share of a processor that
        50 idle connections take."""
        def pause(name, size):
            shape = ["--keys", PAUSE_KEYS]
            with self.started(name, 1, PAUSE_MIB, size) as server:
                self.load.run(server, "--fill", "--pipeline", 16, *shape)
                words = ["--sets", 100, *ONE, "--seconds", 2 * self.seconds]
                return self.load.run(server, *words, *shape)["most"] / 1000

        def idle(name):
            with self.started(name, 2, SEGMENTS[100]) as server:
                for _ in range(50):
                    server.connect()
                time.sleep(0.3)
                before = server.processor_seconds()
                time.sleep(1)
                return 100 * (server.processor_seconds() - before)

        cases = [(name, size) for name, program in self.servers.items()
                 for size in (PAUSE_SEGMENT_SIZES if program else (MIB,))]
        pauses = {name: [] for name in self.servers}
        for (name, size), times in self.in_rounds(cases, pause).items():
            of = f" with segments of {size >> 10} KiB" if self.servers[name] else ""
            pauses[name].append(with_quartiles(times) + of)
        shares = self.in_rounds([(it,) for it in self.servers], idle)
        return markdown(["Median, with quartiles", *self.servers], [
            ["longest time to a reply in a run of `set`s on one connection, with "
             f"{PAUSE_MIB} MiB in use, ms", *map("<br>".join, pauses.values())],
            ["idle with 50 connections, hundredths of a processor",
             *map(with_quartiles, shares.values())]])

    def draw(self, results, picture):
        results = {load: by_size for load, by_size in results.items() if not load.has_rate()}
        sizes, (first, second) = list(next(iter(results.values()))), self.servers
        figure, axes = pyplot.subplots(figsize=(11, 5.6), layout="constrained")
        for at, size in enumerate(sizes):
            low, middle, high = numpy.transpose([
                quartiles(ratios(self.pairs(it[size]), "rate")) for it in results.values()])
            places, width = numpy.arange(len(results)) + at / (len(sizes) + 1), 0.9
            label = f"{first} -t {THREADS[size]}, {size} worker{'s' * (size > 1)}"
            axes.bar(places, middle, width / (len(sizes) + 1), label=label, capsize=2,
                     yerr=[middle - low, high - middle])
        axes.axhline(1, color="black", linestyle="--")
        axes.set_xticks(range(len(results)), [it.name for it in results], rotation=30, ha="right")
        axes.set(ylabel=f"times {first}", title=f"{second} beside {first}: requests a second, "
                 f"as a ratio (above 1, {second} is ahead)")
        axes.grid(axis="y")
        axes.legend(loc="upper left", bbox_to_anchor=(1, 1))
        figure.savefig(picture)


def marks(by_size):
    runs = [run for rounds in by_size.values() for figures in rounds for run in figures.values()]
    busy = any(it["busy"] > 0.9 for it in runs)
    missed = any(it["misses"] > 0.001 * max(it["hits"] + it["misses"], 1) for it in runs)
    return (" (1)" if busy else "") + (" (2)" if missed else "")
