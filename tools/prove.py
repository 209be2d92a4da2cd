#!/usr/bin/env python3
"""Proves segcached and the crates that it stands on, and builds it in crates/segcached/out.

    tools/prove.py                      with a line for each crate that is proved
    tools/prove.py record --log FILE    writes the record of what the program was proved from; FILE
                                        is what `rt ci` said of the whole repository
    tools/prove.py check [PROGRAM]      ends with a line and status 1 if it can't be packaged
    tools/prove.py package              prints the version of the program's package

`rt ci` proves them in a copy without the other crates and the wrong bodies. It keeps each crate
that is proved, for all runs on this machine: after an interrupt the next one goes on from there.
What it says stands beside the program, as segcached.log.

The record, PROVED, stands there too. It holds for one program, by its sha256, and for one state of
the repository's files, by the sum that git gives them. Of a crate it has the prover's line, or that
an earlier run proved it.
"""
import contextlib
import fcntl
import hashlib
import os
import pathlib
import re
import shutil
import signal
import subprocess
import sys
import tempfile
import time

TOP = os.path.dirname(os.path.dirname(os.path.abspath(__file__)))
NAME = "segcached"
PROGRAM = f"{TOP}/crates/{NAME}/out/{NAME}"
# The last words of the line that `rt version` prints. Kits with other numbers may have them.
LOGIC = f"{TOP}/tools/logic.txt"
# What of a crate isn't a part of its proof or of its stored run.
IGNORED = ("out", "wrong")
# How many of the last characters of what `rt ci` says are shown if it fails.
SHOWN = 3000
# The signals by which a run is ended, and its status then.
ENDS = (signal.SIGINT, signal.SIGTERM, signal.SIGHUP)
INTERRUPTED = 130
# What the proof of a crate may take, in gigabytes, if nothing is kept.
GIGABYTES_A_PROOF = 4.5
# Where the free memory of the machine stands, and the limit of a control group beside the line of
# what it uses, by both versions of such groups.
MEMORY = "/proc/meminfo"
GROUPS = (
    ("/sys/fs/cgroup/memory.max", "/sys/fs/cgroup/memory.stat", "anon"),
    ("/sys/fs/cgroup/memory/memory.limit_in_bytes", "/sys/fs/cgroup/memory/memory.stat",
     "total_rss"),
)
# What `rt ci` says of a crate that it has proved, or that an earlier run did.
IS_PROVED = re.compile(r"rt: (\w+) (?:proved$|is kept: )")
# What the record says of a run over the program's crates alone.
ALONE = ", with no tests and no wrong bodies"
# What the record says behind the commit if files differ from it.
CHANGED = " and changes that aren't committed"


def read(path):
    return pathlib.Path(path).read_text(encoding="utf-8", errors="replace")


def write(path, text):
    os.makedirs(os.path.dirname(path), exist_ok=True)
    pathlib.Path(path).write_text(text, encoding="utf-8")


# ---- what the machine has

def logic():
    return read(LOGIC).strip()


def processors():
    return len(os.sched_getaffinity(0))


def number_in(path, word=""):
    """The number after a word at a line's start, or None if there is none, or no such file."""
    text = pathlib.Path(path).read_text(encoding="ascii") if os.path.exists(path) else ""
    found = re.search(rf"^{word}\W*(\d+)", text, re.MULTILINE)
    return int(found[1]) if found else None


def free_gigabytes(memory=MEMORY, groups=GROUPS):
    """The memory that a program could take now."""
    free = 1024 * number_in(memory, "MemAvailable")
    for limit, used, word in groups:
        limit, used = number_in(limit), number_in(used, word)
        if limit is not None and used is not None:
            free = min(free, limit - used)
    return free / 1024**3


def lacks_kit():
    """What is wrong with the kit here, in one line, or None."""
    wanted = logic()
    if not shutil.which("rt"):
        return f"there is no rt on the path: segcached is proved with a Rattle kit of '{wanted}'"
    ran = subprocess.run(["rt", "version"], stdin=subprocess.DEVNULL, capture_output=True,
                         text=True, errors="replace", check=False)
    found = ran.stdout.strip().partition("\n")[0]
    said = f"the rt on the path has another logic, '{found}': segcached is proved with '{wanted}'"
    return None if f" {found}".endswith(f" {wanted}") else said


def lacks_memory(free=None):
    """What is wrong with the memory here, in one line, or None."""
    free = free_gigabytes() if free is None else free
    wanted = 2 * GIGABYTES_A_PROOF
    said = f"{free:.1f} GB of memory are free, and proving needs {wanted:.0f} GB"
    return said if free < wanted else None


def at_once():
    return max(1, min(processors(), int(free_gigabytes() / GIGABYTES_A_PROOF)))


def stop_where_lacking(lacking):
    if lacking:
        sys.exit(f"segcached: {lacking}")


# ---- the crates

def read_lines():
    """The crates of crates.txt, each with all that it uses."""
    lines = (line.partition("#")[0].partition(":")
             for line in read(f"{TOP}/crates.txt").splitlines())
    return {name.split()[0]: below.split() for name, colon, below in lines if colon}


def read_crates():
    """The crates of crates.txt, each with those of the repository that it stands on."""
    lines = read_lines()
    return {name: [it for it in below if it in lines] for name, below in lines.items()}


def with_those_below(crates, name):
    return {name}.union(*(with_those_below(crates, below) for below in crates[name]))


def sum_of_file(path):
    return hashlib.sha256(pathlib.Path(path).read_bytes()).hexdigest()


# ---- the record

class Trouble(Exception):
    """Why there is no record, or none that fits."""


def output_of(*words, folder=None, **variables):
    how = {"cwd": folder or TOP, "env": {**os.environ, **variables}, "text": True}
    try:
        ran = subprocess.run(words, check=True, capture_output=True, **how)
        return ran.stdout.strip()
    except subprocess.CalledProcessError as fault:
        said = (fault.stderr or fault.stdout).strip()[-300:]
        raise Trouble(f"{' '.join(words)} failed: {said}") from None
    except OSError as fault:
        raise Trouble(f"{words[0]} can't be run: {fault.strerror}") from None


def sum_or_none():
    """The sum that git gives the repository's files as they stand, with what isn't committed; None
    where there is no git or no commit."""
    with contextlib.suppress(Trouble), tempfile.TemporaryDirectory() as folder:
        index = {"GIT_INDEX_FILE": f"{folder}/index"}
        output_of("git", "read-tree", "HEAD", **index)
        output_of("git", "add", "--all", **index)
        return output_of("git", "write-tree", **index)
    return None


def read_record(program):
    """The record beside a program; empty if there is none."""
    path = f"{os.path.dirname(program)}/PROVED"
    lines = read(path).splitlines() if os.path.exists(path) else []
    return dict(line.split(": ", 1) for line in lines if ": " in line)


def package_version(number, commit, folder=None):
    """The version of a package that is built of this commit: a later commit has a later version.
    Behind the number stand the commit's date, in UTC, and its short hash; with changes that aren't
    committed the date is now."""
    form, name = "%Y%m%d.%H%M%S", commit.removesuffix(CHANGED)
    words = ["git", "show", "-s", "--format=%cd g%h", f"--date=format-local:{form}", name]
    date, short = output_of(*words, folder=folder, TZ="UTC").split()
    if name != commit:
        date, short = time.strftime(form, time.gmtime()), f"{short}.changed"
    return f"{number}+{date}.{short}"


def verdicts_of_log(path):
    """By crate, what a run said of its proof, and after them all its last line."""
    verdicts, crate, lines = {}, None, read(path).splitlines()
    for line in lines:
        if line.startswith("== "):
            crate = line[3:]
        elif line.startswith("logic=proved ") and crate:
            verdicts.setdefault(crate, line)
        elif kept := re.match(r"rt: (\w+) is (kept: .*)", line):
            verdicts[kept[1]] = kept[2]
    return verdicts, lines[-1]


def write_record(log, alone):
    crates = read_crates()
    names = [name for name in crates if name in with_those_below(crates, NAME)]
    verdicts, last = verdicts_of_log(log)
    if unproved := [name for name in names if name not in verdicts]:
        raise Trouble(f"{unproved[0]} isn't proved")
    files, at = sum_or_none(), output_of("git", "rev-parse", "HEAD")
    changed = "" if files == output_of("git", "rev-parse", "HEAD^{tree}") else CHANGED
    record = [
        output_of(PROGRAM, "--version").splitlines()[0],
        f"commit: {at}{changed}",
        f"files: {files}",
        f"kit: {output_of('rt', 'version')}",
        f"program: {sum_of_file(PROGRAM)}",
        f"run: {last}{ALONE if alone else ''}",
        f"proved: {len(names)} crates",
        "",
        *(f"{name}: {verdicts[name]}" for name in names),
    ]
    write(f"{os.path.dirname(PROGRAM)}/PROVED", "".join(f"{line}\n" for line in record))


def check(program):
    record = read_record(program)
    built = "built with proofs: run tools/prove.py"
    if not record or not os.path.exists(program):
        raise Trouble(f"no program was {built}")
    if record["program"] != sum_of_file(program):
        raise Trouble(f"the program isn't the one that was {built}")
    if record["files"] != sum_or_none():
        raise Trouble(f"files have changed since the program was {built}")


def is_kept():
    """Whether the program was built of proved crates, and nothing has changed since."""
    with contextlib.suppress(Trouble):
        check(PROGRAM)
        return True
    return False


# ---- the proofs

def copy_crates(names, to):
    for name in names:
        ignored = shutil.ignore_patterns(*IGNORED)
        shutil.copytree(f"{TOP}/crates/{name}", f"{to}/crates/{name}", ignore=ignored)
    lines = read_lines()
    write(f"{to}/crates.txt", "".join(f"{it}: {' '.join(lines[it])}\n" for it in names))
    shutil.copy(f"{TOP}/HANDLES", to)
    os.mkdir(f"{to}/.git")


def minutes_and_seconds(seconds):
    return f"{int(seconds) // 60}:{int(seconds) % 60:02}"


def run_ci(copy, note):
    """Runs `rt ci` over a copy, and gives its status, or INTERRUPTED. Each line of what it says is
    noted."""
    to = {"stdin": subprocess.DEVNULL, "stdout": subprocess.PIPE, "stderr": subprocess.STDOUT}
    with subprocess.Popen(["rt", "ci"], cwd=copy, process_group=0, text=True, **to) as ran:
        for number in ENDS:
            signal.signal(number, signal.default_int_handler)
        try:
            for line in ran.stdout:
                note(line.replace(copy, TOP))
            return ran.wait()
        except KeyboardInterrupt:
            with contextlib.suppress(ProcessLookupError):
                os.killpg(ran.pid, signal.SIGTERM)
            return INTERRUPTED
        finally:
            for number in ENDS:
                signal.signal(number, signal.SIG_IGN)


def prove():
    """Proves what isn't proved yet, with a line for each crate, and gives the status."""
    names, files = with_those_below(read_crates(), NAME), sum_or_none()
    began, lines, proved = time.monotonic(), [], []
    print(f"{len(names)} crates to prove, on {processors()} processors", flush=True)

    def note(line):
        lines.append(line)
        if found := IS_PROVED.match(line):
            proved.append(found[1])
            took = minutes_and_seconds(time.monotonic() - began)
            print(f"  {len(proved):2} of {len(names)}  {found[1]:18} ({took})", flush=True)

    with tempfile.TemporaryDirectory(prefix="segcached-") as copy:
        copy_crates(names, copy)
        status = run_ci(copy, note)
        if status:
            print(f"Interrupted: {len(proved)} of {len(names)} crates are proved and kept; the next"
                  " run goes on from there." if status == INTERRUPTED else
                  "".join(lines)[-SHOWN:].rstrip("\n"), flush=True)
            return status
        os.makedirs(os.path.dirname(PROGRAM), exist_ok=True)
        # (the old one may be running)
        pathlib.Path(PROGRAM).unlink(missing_ok=True)
        shutil.copy(f"{copy}/crates/{NAME}/out/{NAME}", PROGRAM)
    write(f"{PROGRAM}.log", "".join(lines))
    if files and files == sum_or_none():
        write_record(f"{PROGRAM}.log", True)
    else:
        print("Files have changed meanwhile, or there is no git: without a record of the proofs the"
              " program serves, and can't be packaged.", flush=True)
    return 0


def run():
    """Proves and builds the program, unless that was done and nothing has changed since."""
    if is_kept():
        return 0
    stop_where_lacking(lacks_kit())
    with open(__file__, "rb") as held:
        try:
            fcntl.flock(held, fcntl.LOCK_EX | fcntl.LOCK_NB)
        except BlockingIOError:
            print("Waiting for another run of tools/prove.py to end", flush=True)
            fcntl.flock(held, fcntl.LOCK_EX)
        return prove()


def main():
    try:
        match sys.argv[1:]:
            case []:
                return run()
            case ["record", "--log", log]:
                write_record(log, False)
            case ["check"]:
                check(PROGRAM)
            case ["check", program]:
                check(program)
            case ["package"]:
                number = output_of(PROGRAM, "--version").split()[1]
                print(package_version(number, read_record(PROGRAM)["commit"]))
            case _:
                sys.exit(__doc__)
    except Trouble as trouble:
        sys.exit(f"segcached: {trouble}")
    return 0


if __name__ == "__main__":
    sys.exit(main())
