#!/usr/bin/python3
"""Other people's suites against the proved program: memcached's own tests, pymemcache's, those of
Cache::Memcached::Fast, and Debian's monitors of memcached.

    tools/peers.py [--program PROGRAM] [--only SUITE]

The program serves them with the package's options. Their sources come by apt-get into out/peers.
What fails has to be what tools/peers/expected lists, each below the sentence of docs/CLIENTS.md or
docs/OPERATIONS.md that tells it; what else failed is printed in that file's form. The last line is
'N passed, M failed as the documents say, K otherwise'.
"""
import argparse
import glob
import itertools
import os
import pathlib
import re
import shutil
import subprocess
import sys
import tempfile
import time

from asking import END, STORED, ask, hit, put
from served import OF_THE_PACKAGE, PROGRAM, TOP, Process, Server, Trouble, install, read

HERE = f"{TOP}/tools/peers"
WORK = f"{TOP}/out/peers"
SOURCES = ["memcached", "libcache-memcached-fast-perl"]
PACKAGES = """libmemcached-tools python3-pymemcache python3-pytest perl memcached
    libcache-memcached-fast-perl libtest2-suite-perl munin-plugins-extra libcache-memcached-perl
    collectd-core netdata-plugins-python netdata-core monitoring-plugins-contrib""".split()
# Those of memcached's tests that speak of the commands that there are.
OF_MEMCACHED = """bogus-commands cas evictions expirations flags flush-all getandtouch getset
    incrdecr issue_104 issue_108 issue_14 issue_152 issue_163 issue_183 issue_192 issue_22 issue_29
    issue_42 issue_68 issue_70 lru malicious-commands multiversioning noreply quit touch""".split()
OF_PYMEMCACHE = "/usr/lib/python3/dist-packages/pymemcache/test/test_integration.py"
OF_FAST = """big-value commands flush-all magic malformed namespace noreply nowait serialize
    utf8""".split()
# The most seconds that one file of tests may take, and a monitor.
SECONDS, MONITOR_SECONDS = 120, 20
# The status of a command whose time was over.
ENDED = 124


def run(words, seconds=MONITOR_SECONDS, cwd=None, **environment):
    """The status of a command, or ENDED after so many seconds, and what it said. What it leaves is
    ended with it, since it has process numbers of its own."""
    alone = ["timeout", "-k", "10", str(seconds), "unshare", "--pid", "--fork", "--kill-child"]
    ran = subprocess.run(
        [*alone, *words], stdout=subprocess.PIPE, stderr=subprocess.DEVNULL, text=True, cwd=cwd,
        errors="replace", env={**os.environ, **environment}, check=False)
    return ran.returncode, ran.stdout


def fetch():
    """The sources, by apt's lists with `deb` turned into `deb-src`, in a folder of their own."""
    if all(glob.glob(f"{WORK}/{source}_*.orig.tar.*") for source in SOURCES):
        return
    parts = f"{WORK}/sources.list.d"
    for folder in (f"{WORK}/lists/partial", parts):
        os.makedirs(folder, exist_ok=True)
    for path in glob.glob("/etc/apt/sources.list") + glob.glob("/etc/apt/sources.list.d/*.[ls]*"):
        text = re.sub(r"^(Types: *)?deb(?= |$)", r"\1deb-src", read(path), flags=re.MULTILINE)
        pathlib.Path(f"{parts}/{os.path.basename(path)}").write_text(text, encoding="utf-8")
    options = ("Dir::Etc::SourceList=/dev/null", f"Dir::Etc::SourceParts={parts}",
               f"Dir::State::Lists={WORK}/lists", "Dir::Cache::pkgcache=",
               "Dir::Cache::srcpkgcache=")
    apt = ["apt-get", *(word for it in options for word in ("-o", it))]
    for words in (["update"], ["source", "--tar-only", "--download-only", *SOURCES]):
        ran = subprocess.run([*apt, *words], cwd=WORK, capture_output=True, text=True, check=False)
        if ran.returncode:
            raise Trouble(f"apt-get {words[0]} failed: {ran.stderr.strip()[-300:]}")


def unpack(source):
    """The folder t of a source, anew."""
    folder = f"{WORK}/{source}"
    shutil.rmtree(folder, ignore_errors=True)
    os.makedirs(folder)
    archive = glob.glob(f"{WORK}/{source}_*.orig.tar.*")[0]
    subprocess.run(["tar", "xf", archive, "-C", folder, "--strip-components=1"], check=True)
    return f"{folder}/t"


def of_perl(source, name, tests, **environment):
    """What a file of tests in perl said: for each number of it, and for its end, whether it
    passed."""
    words = ["perl", f"t/{name}.t"]
    status, said = run(words, SECONDS, cwd=os.path.dirname(tests), **environment)
    plan = re.search(r"^1\.\.(\d+)", said, re.MULTILINE)
    passed = dict.fromkeys(range(1, int(plan[1]) + 1 if plan else 1), False)
    for bad, number in re.findall(r"^(not )?ok (\d+)", said, re.MULTILINE):
        passed[int(number)] = not bad
    passed["end"] = plan is not None and status != ENDED
    return {f"{source}/{name}.t {number}": holds for number, holds in passed.items()}


def memcached(program, _):
    tests, results = unpack("memcached"), {}
    shutil.copy(f"{HERE}/MemcachedTest.pm", f"{tests}/lib")
    words = program, "serve", "--listen", "127.0.0.1:0", *OF_THE_PACKAGE
    for name in OF_MEMCACHED:
        results |= of_perl("memcached", name, tests, SEGCACHED=" ".join(words))
    return results


def fast(program, _):
    tests, results = unpack("libcache-memcached-fast-perl"), {}
    shutil.copy(f"{HERE}/Memd.pm", tests)
    for name in OF_FAST:
        with Server(program, *OF_THE_PACKAGE) as server:
            results |= of_perl("fast", name, tests, PORT=str(server.port))
    return results


def pymemcache(_, server):
    """Its integration tests, as the package has them; one with several clients passes if it does
    with each."""
    # (the package lacks the certificates of the one over TLS)
    words = ["/usr/bin/python3", "-B", "-m", "pytest", "-p", "no:cacheprovider", "--tb=no", "-rA",
             OF_PYMEMCACHE, "-k", "not tls", "--server", "127.0.0.1", "--port", str(server.port)]
    verdicts = re.findall(r"^(PASSED|FAILED|ERROR) \S+::(\w+)", run(words, SECONDS, WORK)[1], re.M)
    results = {f"pymemcache/{name}": True for _, name in verdicts}
    results.update({f"pymemcache/{name}": False for word, name in verdicts if word != "PASSED"})
    return results


# ---- Debian's monitors of memcached

# Each has to show what it shows of memcached, but for what docs/OPERATIONS.md names. Of those that
# are commands, what they print; a plugin of munin shows one of its graphs by its name, and U for a
# value that it doesn't know.
MUNIN = ("ln -s /usr/share/munin/plugins/memcached_ {folder}/memcached_%s"
         " && host=127.0.0.1 port={port} perl {folder}/memcached_%s")
TOOL = "perl /usr/share/memcached/scripts/memcached-tool 127.0.0.1:{port} "
COMMANDS = {
    **{f"munin's {graph}": (MUNIN % (graph, graph), rf"(\w+\.value \d+\n){{{count}}}")
       for graph, count in (("bytes", 2), ("counters", 3), ("rates", 6))},
    "check_memcached": ("/usr/lib/nagios/plugins/check_memcached -H 127.0.0.1 -p {port}", "OK.*"),
    # (in the cache itself)
    "check_memcached keeps its history": (
        "memccat --servers=127.0.0.1:{port} check_memcached", ".+"),
    "memcstat": ("memcstat --servers=127.0.0.1:{port}", r"(?=.*get_hits).*bytes_written.*"),
    # (`dump` shows keys, of which it is told none)
    **{f"memcached-tool {mode}": (TOOL + mode, wanted) for mode, wanted in (
        ("stats", ".*get_hits.*"), ("display", ".*#.*"), ("settings", ".*"), ("sizes", ".*"),
        ("dump", ".*"))},
}
# How many series collectd shows of memcached, and those that have no field here.
SERIES, MISSING = 24, {"memcached_command-meta"}
# How many charts netdata shows, beside the one of its own time.
CHARTS = 14
COLLECTD = """
Hostname "here"
Interval 1
LoadPlugin csv
LoadPlugin memcached
<Plugin csv>
  DataDir "{folder}"
</Plugin>
<Plugin memcached>
  <Instance "cache">
    Address "127.0.0.1"
    Port "{port}"
  </Instance>
</Plugin>
"""


def use(server):
    """A hit and a miss."""
    with server.connect() as stream:
        ask(stream, put(b"a", b"x") + b"get a\r\nget b\r\n", STORED + hit(b"a", b"x") + END)


def collectd(server, folder):
    """It reads each second, and writes a file for each series."""
    path = pathlib.Path(f"{folder}/collectd.conf")
    path.write_text(COLLECTD.format(folder=folder, port=server.port), encoding="ascii")
    found = set()
    with Process(["/usr/sbin/collectd", "-f", "-C", path], stderr=subprocess.DEVNULL):
        for _ in range(MONITOR_SECONDS):
            use(server)
            time.sleep(1)
            files = map(os.path.basename, glob.glob(f"{folder}/here/memcached-cache/*"))
            known, found = found, {re.sub(r"-\d{4}-\d\d-\d\d$", "", it) for it in files}
            if len(found) >= SERIES - len(MISSING) and known == found:
                break
    return len(found | MISSING) == SERIES and not found & MISSING, " ".join(sorted(found))


def netdata(server, folder):
    path = pathlib.Path(f"{folder}/python.d/memcached.conf")
    path.parent.mkdir()
    path.write_text(f"here:\n  host: '127.0.0.1'\n  port: {server.port}\n", encoding="ascii")
    folders = {f"NETDATA_{it}_DIR": folder for it in ("USER_CONFIG", "LOCK", "LIB")}
    _, said = run(["/usr/lib/netdata/plugins.d/python.d.plugin", "1", "memcached"], 8, **folders)
    charts = set(re.findall(r"^CHART memcached_here\.(\w+)", said, re.MULTILINE))
    values = re.findall(r"^SET '?(\w+)'? = '?(\d+)", said, re.MULTILINE)
    return len(charts) == CHARTS and len(values) >= CHARTS, said


def monitors(_, server):
    """Of each thing that a monitor has to show whether it does; what it said where it doesn't is
    printed."""
    use(server)
    with tempfile.TemporaryDirectory() as folder:
        found = {it.__name__: it(server, folder) for it in (collectd, netdata)}
        for name, (command, wanted) in COMMANDS.items():
            status, said = run(["sh", "-c", command.format(folder=folder, port=server.port)])
            found[name] = status == 0 and re.fullmatch(wanted, said, re.DOTALL), said
    for name, (holds, said) in found.items():
        if not holds:
            print(f"{name}:\n{said}", file=sys.stderr)
    return {f"monitors/{name.replace(' ', '_')}": bool(holds) for name, (holds, _) in found.items()}


# ---- all of them

SUITES = {it.__name__: it for it in (memcached, fast, pymemcache, monitors)}


def read_expected():
    """The tests that are to fail. The sentence above each has to stand in its page."""
    expected = set()
    for line in read(f"{HERE}/expected").splitlines():
        if found := re.match(r"(CLIENTS|OPERATIONS): (.+)", line):
            if found[2] not in " ".join(read(f"{TOP}/docs/{found[1]}.md").split()):
                raise Trouble(f"docs/{found[1]}.md doesn't say: {found[2]}")
        elif line.strip() and not line.startswith("#"):
            # (of `3-5,8,end` each)
            name, _, numbers = line.partition(" ")
            for part in numbers.split(","):
                first, _, last = part.partition("-")
                each = range(int(first), int(last) + 1) if last else [first]
                expected.update(f"{name} {it}".rstrip() for it in each)
    return expected


def in_ranges(failed):
    """Failed tests as lines of the file of what is expected."""
    by_file = {}
    for name in failed:
        file, _, number = name.partition(" ")
        by_file.setdefault(file, []).append(number)
    for file, given in by_file.items():
        numbers = enumerate(sorted(int(it) for it in given if it.isdigit()))
        runs = [[*it] for _, it in itertools.groupby(numbers, lambda it: it[1] - it[0])]
        parts = ["-".join(f"{it}" for it in dict.fromkeys((run[0][1], run[-1][1]))) for run in runs]
        yield f"{file} {','.join(parts + [it for it in given if not it.isdigit()])}".rstrip()


def main():
    parser = argparse.ArgumentParser(description="Other people's suites against segcached.")
    parser.add_argument("--program", help="another build than the proved one")
    parser.add_argument("--only", choices=SUITES)
    words = parser.parse_args()
    if not words.program:
        subprocess.run(["python3", f"{TOP}/tools/prove.py"], check=True)
    names, results = [words.only] if words.only else SUITES, {}
    try:
        told = {it for it in read_expected() if it.partition("/")[0] in names}
        os.makedirs(WORK, exist_ok=True)
        install(*PACKAGES)
        fetch()
        for name in names:
            program = os.path.abspath(words.program or PROGRAM)
            with Server(program, *OF_THE_PACKAGE) as server:
                found = SUITES[name](program, server)
            print(f"{name}: {len(found)} tests", flush=True)
            results |= found
    except Trouble as trouble:
        sys.exit(f"peers: {trouble}")
    failed = [name for name, holds in results.items() if not holds]
    amiss = {"failed, and no document says so": [it for it in failed if it not in told],
             "passed, or wasn't run, though it is expected to fail":
             [it for it in sorted(told) if results.get(it, True)]}
    for what, tests in amiss.items():
        for line in in_ranges(tests):
            print(f"{what}: {line}")
    untold, passing = map(len, amiss.values())
    print(f"{len(results) - len(failed)} passed, {len(failed) - untold} failed as the documents"
          f" say, {untold + passing} otherwise")
    return 1 if untold or passing or not results else 0


if __name__ == "__main__":
    sys.exit(main())
