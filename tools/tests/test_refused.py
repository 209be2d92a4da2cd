"""Each request for memory and each thread refused in turn: in refused_growth, built for it, and in
segcached."""
import os
import pathlib

import pytest
import served
from script_of import Script
from served import TOP

REFUSED_GROWTH = f"{TOP}/crates/refused_growth"
BUILT = f"{REFUSED_GROWTH}/out/refused_growth"
SCRIPT = f"{TOP}/crates/segcached/data/script"


def runs(folder, kind, *words):
    """Runs a command again and again, each time with the next request of a kind refused, until none
    is left to refuse: gives each run's number, and how it ended."""
    for number, environment in served.refusals(kind, folder):
        yield number, served.ended(*words, env=environment)


@pytest.fixture
def two_workers(tmp_path):
    """The words of a replay with a session for each of two workers."""
    script = Script(2)
    for key in (b"a", b"b"):
        script.send(script.open(), b"set %b 0 0 1\r\nx\r\nget %b\r\n" % (key, key))
    (tmp_path / "two_workers").write_text(script.text(), encoding="ascii")
    return ["replay", f"{tmp_path}/two_workers", "--workers", "2"]


@pytest.mark.parametrize("kind", ["REFUSE_NTH", "REFUSE_THREAD"], ids=["memory", "threads"])
def test_what_is_refused_changes_nothing_that_is_written(tmp_path, kind):
    """Of refused_growth; what it writes stands in its file stdout. If a thread is refused none of
    its group begins, of which ports and clocks count how often they are asked; it runs a group of
    three threads twice."""
    assert os.access(BUILT, os.X_OK), "it isn't built: (cd crates/refused_growth && rt run)"
    wanted = 0, pathlib.Path(f"{REFUSED_GROWTH}/stdout").read_bytes()
    for number, ended in runs(tmp_path, kind, BUILT):
        assert ended[:2] == wanted, f"request {number}"
    assert number > 1 if kind == "REFUSE_NTH" else number == 7


def beginnings(lines):
    """The first two words of each line: a session's bytes may be others if memory was refused."""
    return [line.split(b" ")[:2] for line in lines.splitlines()]


FAULTS = {b"fault: out of memory", b"fault: cannot start a thread"}


@pytest.mark.parametrize("words", [
    ["--help"], ["nonsense"], ["replay", f"{TOP}/crates/none"], ["replay", SCRIPT], None,
], ids=["help", "bad words", "a missing script", "a script", "two workers"])
def test_segcached_ends_as_without_a_refusal_or_says_out_of_memory(
        program, tmp_path, two_workers, words):
    words = words or two_workers
    wanted, out, _ = served.ended(program, *words)
    wanted_lines = beginnings(out)
    for number, (status, out, said) in runs(tmp_path, "REFUSE_NTH", program, *words):
        lines = beginnings(out)
        if status == wanted:
            assert lines == wanted_lines, f"request {number}"
        else:
            assert status == 1 and lines == wanted_lines[: len(lines)], f"request {number}"
            assert FAULTS & set(said.splitlines()), f"request {number}"
    assert number > 1


def test_a_refused_thread_is_a_fault_of_its_own_and_nothing_is_printed(
        program, tmp_path, two_workers):
    *ends, _ = (ended for _, ended in runs(tmp_path, "REFUSE_THREAD", program, *two_workers))
    assert ends == [(1, b"", b"fault: cannot start a thread\n")] * 3
