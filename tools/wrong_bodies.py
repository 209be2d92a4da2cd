#!/usr/bin/env python3
"""Tries the wrong bodies of crates/NAME/wrong, many of a crate in one check: the prover must refuse
each for its contract. docs/EDITS.md says how one is written, and what the verdicts mean.

    tools/wrong_bodies.py [NAME[/EDIT]..]   tries those of these crates, or these edits, or all;
                                            the last line is 'N passed, M failed'
    tools/wrong_bodies.py --anew [..]       tries what an earlier run on this machine has passed too

It takes the built libraries of the crates below as they stand: `rt check`, `rt lib` and `rt ci`
leave them in crates/NAME/out. What the prover says stands in out/wrong_bodies.

An edit is written into a copy of its function, beside it: `f` gets `f_wrong0`, `f_wrong1` .., with
its attributes, its contract and its proof files. Each other function of the crate has a hole for
its proof (`?`), so that a caller takes it by its contract, and only the copies are proved. What a
proof sees of another function is that one's contract, and no edit of a body changes that; so a copy
is refused exactly if it is refused alone. A method of a trait's impl can't be copied, nor a
function with a Proof.antt: it is edited in its place, in a check of its own. So is what isn't in
the body of one function. A check goes on after a function that it refuses, and has a line for each:

    fn NAME::f_right: depends on a hole in ..            (or 'no holes') as it must be
    fn NAME::f_wrong0: not proved                        refused by its own proof
    fn NAME::f_wrong0: no proof: expected answers in ..  refused, since a goal stays open
    fn NAME::f_wrong0: no proof: it calls ..             says nothing

Each check has one function's unedited copy as its control, which must be proved: else nothing is
known of the edits. A fault of the copying that the control doesn't meet is a name that some proof
file doesn't find. A check that the compiler refuses is halved until the bad edit stands alone.
"""
import concurrent.futures
import functools
import hashlib
import os
import pathlib
import re
import subprocess
import sys
import tempfile
import threading
import time
from typing import NamedTuple

import edited_copies
import prove

LOGS = f"{prove.TOP}/out/wrong_bodies"
# What passed is kept here, for so many days after its last use.
CACHE = os.environ.get("XDG_CACHE_HOME") or os.path.expanduser("~/.cache")
KEPT, DAYS = f"{CACHE}/segcached/wrong_bodies", 30
# The programs that try an edit.
TOOLS = ("wrong_bodies", "edited_copies", "prove")
# The memory that a check may take.
GIGABYTES = 3
# Set once the run is interrupted, so that no further check begins.
INTERRUPTED = threading.Event()
REFUSED, LOST, MISSED, UNTRIED, BAD = (
    "refused", "refused by a lost name", "NOT REFUSED", "NOT TRIED", "BAD EDIT")
LINE = re.compile(r"^fn (\S+): (.*)$", re.MULTILINE)
HAS_ENDED = re.compile(r"^only=\d+ holes=\d+$", re.MULTILINE)
PROVED = re.compile(r"no holes|depends on a hole")
OPEN = re.compile(r"not proved(; it stands on|$)|no proof: expected answers")
LOST_NAME = re.compile(
    r"has no field|is not in scope|has no `|was not admitted|(was|were) not checked")


class Verdict(NamedTuple):
    """What the try of an edit came to, and why."""

    word: str
    why: str = ""

    def __str__(self):
        return f"{self.word}: {self.why[:300]}" if self.why else self.word


class Said(NamedTuple):
    """What a check said, its status, and the seconds of a processor that it took."""

    text: str
    status: int
    seconds: float

    def has_ended(self):
        return self.status == 1 and bool(HAS_ENDED.search(self.text))

    def of(self, crate, path):
        return dict(LINE.findall(self.text)).get(f"{crate.name}::{path}", "")

    def is_proved(self, crate, path):
        return bool(PROVED.match(self.of(crate, path)))

    def errors_in(self, path):
        """The errors in the proof files of a function, each with the lines that go on with it."""
        file = rf"proofs/{re.escape(path.replace('::', '/'))}/\S+?"
        at = rf"^(?:note: )?(?:\./)?{file}:\d+:\d+: error: (.*(?:\n  .*)*)"
        return [" ".join(it.split()) for it in re.findall(at, self.text, re.MULTILINE)]

    def first_errors(self):
        return " ".join(re.findall(r".*\berror\b.*", self.text)[:2])

    def verdict(self, crate, path):
        words, errors = self.of(crate, path), self.errors_in(path)
        if not words:
            return Verdict(UNTRIED, f"the check has no line for {path}")
        real = [it for it in errors if not LOST_NAME.search(it)]
        if errors and not real and not PROVED.match(words):
            return Verdict(LOST, errors[0])
        if not OPEN.match(words):
            return Verdict(MISSED, words)
        return Verdict(REFUSED, (real or [words])[0])


@functools.cache
def kit_folder():
    return os.path.dirname(prove.output_of("rt", "doc"))


def libraries_below(name):
    below = sorted(prove.with_those_below(prove.read_crates(), name) - {name})
    found = {it: f"{prove.TOP}/crates/{it}/out/rlib/{it}.rlib" for it in below}
    if not all(map(os.path.isdir, found.values())):
        raise edited_copies.Misplaced(f"{name} stands on {', '.join(below)}, and not all of these"
                                      " are built: run rt check")
    return found


def words_of(crate, asked):
    kit, below = kit_folder(), libraries_below(crate.name)
    words = [f"{kit}/bin/rattle", "check", "--crate-name", crate.name, crate.root, "--jobs", "1",
             "--antt-project", f"{kit}/rattle/logic/antt-project.json",
             "--logic-built", f"{kit}/logic_built", "--allow-holes"]
    for it in ["std", *prove.read_lines()[crate.name]]:
        words += ["--extern", f"{it}={below.get(it, f'{kit}/rlibs/{it}.rlib')}"]
    for folder in sorted({os.path.dirname(it) for it in below.values()} | {f"{kit}/rlibs"}):
        words += ["-L", f"dependency={folder}"]
    return [*words, *(word for it in sorted(asked) for word in ("--only", it))]


def checked(room):
    with tempfile.TemporaryFile("w+", errors="replace") as out:
        to = {"stdin": subprocess.DEVNULL, "stdout": out, "stderr": subprocess.STDOUT}
        words = words_of(room.crate, room.asked)
        with subprocess.Popen(words, cwd=room.folder, **to) as ran:
            _, status, used = os.wait4(ran.pid, 0)
            ran.returncode = os.waitstatus_to_exitcode(status)
        out.seek(0)
        return Said(out.read(), ran.returncode, used.ru_utime + used.ru_stime)


@functools.cache
def sum_of_tools():
    """A sum of what tries an edit: these programs and the kit."""
    kit, here = kit_folder(), os.path.dirname(os.path.abspath(__file__))
    paths = [*(f"{here}/{it}.py" for it in TOOLS), f"{kit}/bin/rattle"]
    return f"{prove.output_of('rt', 'version')} {[prove.sum_of_file(it) for it in paths]}"


def sum_of_crate(name):
    """All that the checks of a crate read but its edits, as a sum: the tools, the logic, the
    sources of the crate and of those below, and the libraries, whose other files are held to the
    sums in the file `format`."""
    lines, read = prove.read_lines(), [sum_of_tools(), prove.logic()]
    for crate in sorted(prove.with_those_below(prove.read_crates(), name)):
        read.append(f"{crate}: {lines[crate]}")
        folder = pathlib.Path(f"{prove.TOP}/crates/{crate}")
        files = filter(os.path.isfile, (it for part in edited_copies.PARTS
                                        for it in (folder / part).rglob("*")))
        read += [f"{it.relative_to(folder)} {prove.sum_of_file(it)}" for it in sorted(files)]
    for crate, path in libraries_below(name).items():
        read.append(f"{crate}: {prove.sum_of_file(f'{path}/format')}")
    return hashlib.sha256("\n".join(read).encode()).hexdigest()


class Kept:
    """The edits of a crate that earlier runs on this machine have passed, as empty files. A file's
    name is a sum of all that the check read, so it never goes stale."""

    def __init__(self, name):
        self.name, self.read = name, sum_of_crate(name)

    def place(self, edit):
        whole = f"{self.read} {edit.name} {edit.text}"
        return f"{KEPT}/{self.name}-{hashlib.sha256(whole.encode()).hexdigest()}"

    def has(self, edit):
        try:
            os.utime(self.place(edit))
        except FileNotFoundError:
            return False
        return True

    def keep(self, edits):
        """Keeps that these passed, if what their check read hasn't changed meanwhile."""
        if sum_of_crate(self.name) == self.read:
            for it in edits:
                prove.write(self.place(it), "")


def names_in(words):
    """The crates that these words of the command name, or all that have edits, and of each the
    edits that are named."""
    names = {}
    for word in words or filter(edited_copies.names_of, prove.read_crates()):
        crate, _, edit = word.partition("/")
        names.setdefault(crate, set()).update({edit.removesuffix(".edit")} - {""})
    return names


def workers():
    fitting = int(prove.free_gigabytes() / GIGABYTES)
    return max(1, min(prove.processors(), fitting, int(os.environ.get("JOBS", "99"))))


class Run:
    """A run. It counts the verdicts, and says those that fail and those that were asked for by
    name. Verdicts are by the names of their edits."""

    def __init__(self, anew):
        self.anew, self.lock = anew, threading.Lock()
        self.passed, self.failed, self.seconds = 0, 0, 0.0

    def note(self, crate, verdicts, how, is_named=False):
        fine = sum(it.word == REFUSED for it in verdicts.values())
        with self.lock:
            if verdicts:
                print(f"{crate}: {fine} of {len(verdicts)} wrong bodies refused, {how}", flush=True)
            for name, verdict in verdicts.items():
                if verdict.word != REFUSED or is_named:
                    print(f"  {crate}/{name}: {verdict}", flush=True)
            self.passed, self.failed = self.passed + fine, self.failed + len(verdicts) - fine

    def check(self, crate, edits, control, label):
        """One check: what it said, and the folder that it read."""
        if INTERRUPTED.is_set():
            raise concurrent.futures.CancelledError
        with tempfile.TemporaryDirectory(prefix="wrong-bodies-") as folder:
            room = edited_copies.Room(crate, edits, control, folder)
            said = checked(room)
        prove.write(f"{LOGS}/{label}.log", said.text)
        with self.lock:
            self.seconds += said.seconds
        return said, room

    def verdicts(self, crate, edits, label, is_sound=False):
        """The verdicts on these edits. If their check doesn't come to an end, but that of the
        control alone does, their halves are tried."""
        all_are = lambda word, why: {it.name: Verdict(word, why) for it in edits}
        control = crate.control(edits)
        if not control:
            return all_are(UNTRIED, "the crate has no function whose copy can be the control")
        said, room = self.check(crate, edits, control, label)
        if said.has_ended() and not said.is_proved(crate, room.control):
            why = said.of(crate, room.control)
            return all_are(UNTRIED, f"the control {room.control} isn't proved: {why}")
        if said.has_ended():
            return {name: said.verdict(crate, path) for name, path in room.falls.items()}
        if not is_sound:
            alone, room = self.check(crate, [], control, f"{label}-control")
            if not alone.is_proved(crate, room.control):
                why = f"{alone.of(crate, room.control)} {alone.first_errors()}"
                return all_are(UNTRIED, f"the control alone isn't proved: {why}")
        if len(edits) == 1:
            why = f"its check ended with status {said.status}: {said.first_errors()}"
            return all_are(BAD if said.status == 1 else UNTRIED, why)
        half = len(edits) // 2
        return (self.verdicts(crate, edits[:half], f"{label}a", True)
                | self.verdicts(crate, edits[half:], f"{label}b", True))

    def plan(self, name, chosen):
        """Counts what an earlier run has passed and what can't be placed, and gives the calls that
        try the rest, with how many edits each has."""
        names, is_named = set(edited_copies.names_of(name)), bool(chosen)
        if chosen - names or not names:
            sys.exit(f"crates/{name}/wrong has no {', '.join(sorted(chosen - names)) or 'edit'}")
        chosen = chosen or names
        try:
            # (before the crate is read, so that a change in between is seen)
            kept = Kept(name)
        except edited_copies.Misplaced as why:
            untried = {it: Verdict(UNTRIED, str(why)) for it in chosen}
            self.note(name, untried, "as a crate below isn't built")
            return []
        crate = edited_copies.Crate(name)
        edits = [it for it in crate.edits if it.name in chosen]
        known = [] if self.anew else [it for it in edits if kept.has(it)]
        bad = {it: Verdict(BAD, why) for it, why in crate.bad.items() if it in chosen}
        self.note(name, {it.name: Verdict(REFUSED) for it in known},
                  "by an earlier run on this machine, which read the same", is_named)
        self.note(name, bad, "as they can't be placed", is_named)

        def try_one(label, edits):
            began, verdicts = time.monotonic(), self.verdicts(crate, edits, label)
            self.note(name, verdicts, f"in {time.monotonic() - began:.0f} s", is_named)
            kept.keep([it for it in edits if verdicts[it.name].word == REFUSED])

        rounds = edited_copies.rounds_of([it for it in edits if it not in known])
        return [(len(some), functools.partial(try_one, f"{name}{at}", some))
                for at, some in enumerate(rounds)]

    def try_all(self, names):
        """Tries all, several checks at a time, those with most edits first."""
        planned = [it for name, chosen in names.items() for it in self.plan(name, chosen)]
        with concurrent.futures.ThreadPoolExecutor(workers()) as pool:
            try:
                planned.sort(key=lambda it: -it[0])
                for it in [pool.submit(call) for _, call in planned]:
                    it.result()
            except BaseException:
                INTERRUPTED.set()
                pool.shutdown(wait=False, cancel_futures=True)
                raise


def main(words):
    if {"-h", "--help"} & set(words):
        sys.exit(__doc__)
    # (what was kept and isn't used any more is removed)
    os.makedirs(KEPT, exist_ok=True)
    subprocess.run(["find", KEPT, "-type", "f", "-mtime", f"+{DAYS}", "-delete"], check=True)
    run = Run("--anew" in words)
    run.try_all(names_in([it for it in words if it != "--anew"]))
    print(f"{run.seconds / 60:.1f} processor minutes of the prover\n"
          f"{run.passed} passed, {run.failed} failed")
    return int(run.failed > 0)


if __name__ == "__main__":
    sys.exit(main(sys.argv[1:]))
