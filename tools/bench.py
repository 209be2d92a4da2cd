#!/usr/bin/env python3
"""Compares segcached, as the package sets it, with memcached, or with another build of segcached,
on the same machine in the same run.

    tools/bench.py [--parts PART,..] [--quick] [--write] [--only WORD,..] [--rounds N]
                   [--program FILE] [--against FILE]

memcached (of Debian) with 1, 2 and 4 threads stands beside `segcached serve` with 1, 2 and 3
workers. The parts, of which the first two are measured unless others are named, or `all`:

    speed       how fast each is (tools/speed.py); tools/load.c checks each answer
    misses      misses at equal memory, and which keys in use are lost (tools/misses.py)
    segments    the same misses by the size of segcached's segments
    site        misses of a site with TTLs up to a day, in two hours

--write puts all figures between the marks in docs/PERFORMANCE.md, pictures into
docs/performance.svg and docs/misses.svg, and the tables of misses into out/bench.md. --quick runs
each load once and briefly, with 2 workers. --only takes loads whose names have a WORD, and no
pauses. --program names another build to measure, --against one of segcached that takes memcached's
place, with those of the package's options that it has: a change for speed is judged by that, and
ratios above 1 say that the program does more, or takes longer.
"""
import argparse
import os
import pathlib
import re
import subprocess
import sys
import tempfile
import textwrap
import time

import misses
import speed
from served import PROGRAM, TOP, Trouble, read

PAGE = pathlib.Path(f"{TOP}/docs/PERFORMANCE.md")


def say(text):
    print(text, file=sys.stderr, flush=True)


def processor_ticks():
    """What the processors did, in ticks: all, and those that the host gave to other machines."""
    ticks = [int(it) for it in read("/proc/stat").splitlines()[0].split()[1:9]]
    return sum(ticks), ticks[7]


def taken(measure):
    """What was measured, below when and on what, and above what other machines took meanwhile."""
    model = re.search(r"^model name\s*: (.*)", read("/proc/cpuinfo"), re.MULTILINE)
    processors = f"{os.cpu_count()} processors ({model[1] if model else 'unknown'})"
    version = subprocess.check_output(["memcached", "--version"], text=True).strip()
    date, load = time.strftime("%F", time.gmtime()), os.getloadavg()[0]
    head = f"Taken {date}, {processors}, load before it {load:.1f}; {version}."
    before, measured = processor_ticks(), measure()
    all_ticks, stolen = (now - then for now, then in zip(processor_ticks(), before))
    share = stolen / max(1, all_ticks)
    parts = [[head], *measured]
    parts.append([f"The host took {share:.0%} of the processors' time during the run."])
    wrapped = lambda line: line if line.startswith("|") else textwrap.fill(line, 100)
    return "\n\n".join("\n".join(map(wrapped, part)) for part in parts)


def write(mark, text):
    begin, end = f"<!-- {mark}: begin -->", f"<!-- {mark}: end -->"
    page, count = re.subn(f"{begin}.*?{end}", lambda _: f"{begin}\n{text}\n{end}", read(PAGE),
                          flags=re.DOTALL)
    if count != 1:
        raise Trouble(f"{PAGE} lacks the marks {begin} and {end}")
    PAGE.write_text(page, encoding="utf-8")


def speed_parts(load, words):
    """The table of speed, and a second one after it; a whole run's picture with --write."""
    servers = {"memcached": None, "segcached": words.program}
    if words.against:
        servers = {"before": words.against, "now": words.program}
    seconds = 0.5 if words.quick else 0.8
    runs = speed.Speed(load, servers, words.rounds, seconds, say)
    loads = [it for it in speed.LOADS if any(word in it.name for word in words.only.split(","))]
    if words.against:
        # (an option of a load's own that the other build lacks would be measured against none)
        known = lambda options: speed.known_to(words.against, options) == list(options)
        loads = [it for it in loads if known(it.options or ())]
    if not loads:
        raise Trouble(f"no load has a name with {words.only}")
    results = runs.compared((2,) if words.quick else (1, 2, 3), loads)
    if words.write:
        runs.draw(results, f"{TOP}/docs/performance.svg")
    return [runs.table(results)] + ([] if words.only else [runs.other_table()])


def miss_parts(load, words):
    """Misses at equal memory: their ratios; all tables, and the picture with --write."""
    runs = misses.Misses(load, words.program, say)
    if words.quick:
        points = misses.by_settings([misses.Point(32, 1000, 0.99)])
        lost = misses.table_of_losses(words.program, 20, misses.FLOODS[1:3])
        return [misses.table(points, runs.each(points)), lost]
    kinds = misses.curve()
    results = runs.each([point for points in kinds for point in points])
    lost = misses.table_of_losses(words.program)
    tables = [misses.table(points, results) for points in kinds]
    if words.write:
        misses.draw(results, f"{TOP}/docs/misses.svg")
        kept = pathlib.Path(f"{TOP}/out/bench.md")
        kept.parent.mkdir(exist_ok=True)
        kept.write_text("\n\n".join("\n".join(it) for it in tables) + "\n", encoding="utf-8")
        tables = []
    return [*tables, misses.ratios(results), [misses.least_held(results)], lost]


def point_parts(points):
    def measured(load, words):
        found = points(words)
        results = misses.Misses(load, words.program, say).each(found)
        return [misses.table(found, results), [misses.least_held(results)]]

    return measured


PARTS = {
    "speed": speed_parts,
    "misses": miss_parts,
    "segments": point_parts(lambda _: misses.SEGMENTS),
    "site": point_parts(lambda words: misses.BRIEF_SITES if words.quick else misses.SITES),
}


def read_words():
    parser = argparse.ArgumentParser(description="Compares segcached with memcached, or a build.")
    for word in ("--quick", "--write"):
        parser.add_argument(word, action="store_true")
    parser.add_argument("--parts")
    parser.add_argument("--only", default="")
    parser.add_argument("--rounds", type=int)
    parser.add_argument("--program", default=PROGRAM)
    parser.add_argument("--against")
    words = parser.parse_args()
    words.rounds = words.rounds or (1 if words.quick else 7)
    usual = "speed" if words.only or words.against else "speed,misses"
    words.parts = list(PARTS) if words.parts == "all" else (words.parts or usual).split(",")
    if not set(words.parts) <= set(PARTS):
        parser.error(f"the parts are {', '.join(PARTS)}, all")
    is_other = words.quick or words.only or words.against
    if words.write and (is_other or words.program != PROGRAM):
        parser.error("--write is for a whole run of the program in crates/segcached/out")
    if words.against and os.path.realpath(words.against) == os.path.realpath(words.program):
        parser.error("--against is for another build than the one that is measured")
    for program in filter(None, (words.program, words.against)):
        if not os.path.exists(program):
            parser.error(f"build the program first: there is no {program}")
    return words


def main():
    words = read_words()
    try:
        with tempfile.TemporaryDirectory() as folder:
            load = speed.LoadProgram(folder)
            for part in words.parts:
                text = taken(lambda: PARTS[part](load, words))
                print(text, flush=True)
                if words.write:
                    write(part, text)
    except Trouble as trouble:
        sys.exit(f"bench: {trouble}")


if __name__ == "__main__":
    main()
