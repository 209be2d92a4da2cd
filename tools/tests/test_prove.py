"""Tests of what comes before and around the proofs: what is kept and recorded, the version of the
package, and what `make run` says if something is missing. They prove nothing and take a few
seconds.
"""
import os
import re
import shutil
import signal
import subprocess
import sys
import threading
import time

import prove
import pytest
from served import TOP, ended, read, version


def test_each_crate_of_the_repository_has_a_line():
    folder = f"{TOP}/crates"
    crates = {it for it in os.listdir(folder) if os.path.isdir(f"{folder}/{it}/src")}
    assert set(prove.read_crates()) == crates


def test_the_program_names_its_version_and_the_logic_that_it_is_proved_with(program):
    lines = prove.output_of(program, "--version").splitlines()
    assert lines[0] == f"segcached {version()}"
    assert lines[1] == f"proved with Rattle's {prove.logic()}"


@pytest.fixture
def commit(tmp_path):
    """Makes a commit of all files at a moment, and says its hash."""
    def git(*words, **variables):
        name = ("-c", "user.name=a", "-c", "user.email=a@example")
        return prove.output_of("git", *name, *words, folder=tmp_path, **variables)

    def make(moment):
        git("add", "--all")
        git("commit", "--quiet", "--allow-empty", "--message", moment, GIT_COMMITTER_DATE=moment)
        return git("rev-parse", "HEAD")

    git("init", "--quiet")
    return make


def test_the_package_of_a_later_commit_is_newer(commit, tmp_path):
    moments = ["2026-11-27T09:59:59+0000", "2026-11-27T10:00:00+0000", "2026-11-27T19:00:01+0900",
               "2026-11-27T10:30:00+0000", "2026-11-28T00:00:00+0000"]
    commits = [commit(moment) for moment in moments]
    versions = [prove.package_version("0.6.0", it, tmp_path) for it in commits]
    changed = prove.package_version("0.6.0", f"{commits[-1]}{prove.CHANGED}", tmp_path)
    assert versions[2] == f"0.6.0+20261127.100001.g{commits[2][:7]}"
    versions = ["0.1.0", "0.6.0", *versions, "0.6.1+20250101.000000.g0000000"]
    for earlier, later in zip(versions, versions[1:]):
        subprocess.run(["dpkg", "--compare-versions", later, "gt", earlier], check=True)
    date = r"0\.6\.0\+[0-9]{8}\.[0-9]{6}"
    assert re.fullmatch(rf"{date}\.g{commits[-1][:7]}\.changed", changed)


# In place of the kit's: it says of each crate whether it is proved, and makes the program.
RT = """#!/bin/bash
[ "$*" = version ] && { echo "a kit"; exit; }
[ "$*" = ci ] || exit 9
grep -rq SLOW crates && { echo "rt: low proved"; sleep 60; }
grep -rq WRONG crates && { echo "rt: low NOT PROVED"; echo "0 passed, 2 failed"; exit 1; }
for name in low high; do
  printf '%s\\n' "== $name: its tests" "logic=proved tests=3" "rt: $name: its tests are proved"
  printf '%s\\n' "== $name" "logic=proved functions=1" "rt: $name proved"
done
mkdir -p crates/high/out
printf '#!/bin/sh\\necho high 1.2.3\\n' >crates/high/out/high
chmod 755 crates/high/out/high
echo "with "$(ls crates) "and "$(ls crates/low)
cat crates.txt HANDLES
echo "2 passed, 0 failed"
"""


def write_program(path, text):
    prove.write(path, text)
    path.chmod(0o755)


@pytest.fixture
def unproved(tmp_path, monkeypatch, commit):
    """A small repository with nothing proved, and a kit that isn't one."""
    lines = "# what stands here\nlow:\nhigh: low bytes\nlow_tests: low\n"
    (tmp_path / "crates.txt").write_text(lines)
    (tmp_path / "HANDLES").write_text("Handles allowed: none.\n")
    (tmp_path / ".gitignore").write_text("out/\n")
    for name, root in (("low", "lib.rt"), ("high", "main.rt"), ("low_tests", "lib.rt")):
        prove.write(tmp_path / "crates" / name / "src" / root, f"// {name}\n")
        prove.write(tmp_path / "crates" / name / "wrong" / "one.edit", "file: src/lib.rt\n")
    write_program(tmp_path / "kit" / "rt", RT)
    monkeypatch.setenv("PATH", f"{tmp_path}/kit:{os.environ['PATH']}")
    monkeypatch.setattr(prove, "NAME", "high")
    monkeypatch.setattr(prove, "TOP", str(tmp_path))
    monkeypatch.setattr(prove, "PROGRAM", str(tmp_path / "crates" / "high" / "out" / "high"))
    commit("2026-11-27T10:00:00+0000")
    handlers = {it: signal.getsignal(it) for it in prove.ENDS}
    yield tmp_path
    for number, handler in handlers.items():
        signal.signal(number, handler)


@pytest.fixture
def repository(unproved):
    """The small repository once its program is proved."""
    assert prove.prove() == 0
    return unproved


@pytest.mark.parametrize("verdict, recorded", [
    ("proved", "logic=proved functions=1"), ("is kept: an earlier run", "kept: an earlier run")])
def test_the_crates_of_the_program_alone_are_proved_without_their_wrong_bodies(
        unproved, capsys, verdict, recorded):
    prove.write(unproved / "kit" / "rt", RT.replace("$name proved", f"$name {verdict}"))
    assert prove.prove() == 0
    proved = re.findall(r"^ +(\d of \d  \w+) ", capsys.readouterr().out, re.MULTILINE)
    assert proved == ["1 of 2  low", "2 of 2  high"]
    log = (unproved / "crates" / "high" / "out" / "high.log").read_text().splitlines()
    assert "with high low and src" in log and {"low: ", "high: low bytes"} < set(log)
    assert "Handles allowed: none." in log
    assert log[-1] == "2 passed, 0 failed"
    assert prove.is_kept() and prove.read_record(prove.PROGRAM)["low"] == recorded
    # (a copy of sources, which `rt ci` of the repository would refuse, isn't left)
    assert {it.parent.name for it in unproved.rglob("*.rt")} == {"src"}
    assert not (unproved / "out").exists()


def test_the_record_says_what_was_proved_of_which_files_and_by_which_kit(repository):
    record = prove.read_record(prove.PROGRAM)
    assert record["files"] == prove.output_of("git", "rev-parse", "HEAD^{tree}", folder=repository)
    assert record["commit"] == prove.output_of("git", "rev-parse", "HEAD", folder=repository)
    assert record["kit"] == "a kit"
    assert record["run"] == "2 passed, 0 failed, with no tests and no wrong bodies"
    assert read(f"{repository}/crates/high/out/PROVED").startswith("high 1.2.3\n")
    prove.write(repository / "log", "== low\nlogic=not-proved functions=2\nrt: low NOT PROVED\n")
    with pytest.raises(prove.Trouble, match="low isn't proved"):
        prove.write_record(repository / "log", False)


def test_there_is_no_record_of_files_that_changed_while_they_were_proved(unproved, monkeypatch):
    sums = iter(["before", "after"])
    monkeypatch.setattr(prove, "sum_or_none", lambda: next(sums))
    assert prove.prove() == 0
    assert not prove.read_record(prove.PROGRAM) and not prove.is_kept()


def test_a_crate_that_is_refused_is_named(unproved, capsys):
    (unproved / "crates" / "low" / "src" / "lib.rt").write_text("WRONG")
    assert prove.prove() == 1
    assert "rt: low NOT PROVED\n" in capsys.readouterr().out
    assert not prove.is_kept()


def test_an_interrupt_ends_what_runs_and_says_what_is_proved(unproved, capsys):
    (unproved / "crates" / "high" / "src" / "main.rt").write_text("SLOW")
    threading.Timer(2, os.kill, [os.getpid(), signal.SIGINT]).start()
    began = time.monotonic()
    assert prove.prove() == prove.INTERRUPTED
    assert time.monotonic() - began < 10
    said = capsys.readouterr().out.splitlines()[-1]
    assert said.startswith("Interrupted: 1 of 2 crates are proved and kept")


@pytest.mark.parametrize("path, text", [*((path, "changed") for path in (
    "crates/low/src/lib.rt", "crates/high/src/main.rt", "crates/high/stdout", "README.md",
    "crates/low/specs/More.antt", "crates/high/out/high")),
    ("crates/high/out/high", None), ("crates/high/out/PROVED", None)])
def test_what_is_changed_or_gone_is_seen(repository, path, text):
    assert prove.is_kept()
    (repository / path).unlink(missing_ok=True)
    if text:
        prove.write(repository / path, text)
    assert not prove.is_kept()


def test_the_readme_names_the_logic():
    assert f"`{prove.logic()}`" in read(f"{TOP}/README.md")


def memory_file(folder, gigabytes):
    lines = "MemTotal:       99999999 kB\nMemFree: 1 kB\nMemAvailable:   %d kB\n"
    prove.write(folder / "meminfo", lines % (gigabytes * 1024**2))
    return str(folder / "meminfo")


def test_free_memory_is_that_of_the_machine_or_of_its_group(tmp_path):
    limit, stat, unlimited = (str(tmp_path / it) for it in ("limit", "stat", "unlimited"))
    prove.write(limit, f"{6 * 1024**3}\n")
    prove.write(stat, f"cache 1\nanon {2 * 1024**3}\n")
    prove.write(unlimited, "max\n")
    memory, none = memory_file(tmp_path, 16), "/no/such/file"
    for limits, free in (([], 16), ([limit], 4), ([unlimited, none], 16)):
        groups = [(it, stat, "anon") for it in limits]
        assert prove.free_gigabytes(memory, groups) == free
    assert prove.lacks_memory(9.0) is None


@pytest.fixture
def tree(tmp_path):
    """A repository in which nothing is proved, on a machine with 8.9 GB of free memory."""
    for name in ("tools", "packaging"):
        ignored = shutil.ignore_patterns("tests")
        shutil.copytree(f"{TOP}/{name}", tmp_path / name, ignore=ignored)
    tool = tmp_path / "tools" / "prove.py"
    tool.write_text(tool.read_text().replace("/proc/meminfo", memory_file(tmp_path, 8.9)))
    prove.write(tmp_path / "crates.txt", "segcached:\n")
    return tmp_path


OTHER = "rattle-kit-99x logic 0000000000000000"


# What the rt on the path says, if there is one, and the line with which `make run` ends.
@pytest.mark.parametrize("kit, said", [
    (None, "there is no rt on the path: segcached is proved with a Rattle kit of '{}'"),
    (OTHER, f"the rt on the path has another logic, '{OTHER}': segcached is proved with '{{}}'"),
    ("rattle-kit-99x {}", "8.9 GB of memory are free, and proving needs 9 GB"),
], ids=["no kit", "another logic", "little memory"])
def test_a_run_that_lacks_something_says_so_in_one_line(tree, kit, said):
    if kit:
        write_program(tree / "rt", f"#!/bin/sh\necho '{kit.format(prove.logic())}'\n")
    path = {"PATH": f"{tree}:/usr/bin:/bin" if kit else str(tree)}
    found = ended(sys.executable, f"{tree}/tools/run.py", env=path, text=True, seconds=20)
    assert found == (1, "", f"segcached: {said.format(prove.logic())}\n")
