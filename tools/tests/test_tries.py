"""When tries of what takes time have succeeded: tools/tries.py, and what it sees of a machine."""
import contextlib
import os
import subprocess
import sys
import time
import types

import pytest
import tries
import waits
from served import Trouble
from tries import Standstills


def machine(stood_still):
    """Says of each try in turn whether a processor stood still."""
    left = iter(stood_still)
    noted = lambda: types.SimpleNamespace(noted=[(0.0, 1.0)] * next(left))
    return lambda _: contextlib.nullcontext(noted())


NOT, YES = False, True
# Whether each try succeeds, in how many of the first ones the machine stood still, and the numbers
# of the one whose words are given and of all, or none if too many failed.
OUTCOMES = [
    ([YES, YES, NOT], 0, (1, 2)), ([YES, NOT, YES], 0, (2, 3)), ([NOT, YES, YES], 0, (2, 3)),
    ([NOT, NOT, YES], 0, None), ([NOT, YES, NOT], 0, None), ([YES, NOT, NOT], 0, None),
    ([NOT, YES, NOT, YES], 2, (3, 4)),
    # (ten that fail so aren't counted)
    ([NOT] * 11 + [YES] * 2, 13, (12, 13)), ([NOT] * 12 + [YES] * 2, 14, None),
]


@pytest.mark.parametrize("tried, still, said", OUTCOMES)
def test_two_of_three_are_enough(monkeypatch, tried, still, said):
    """One that fails while the machine stands still isn't counted."""
    stood_still = [True] * still + [False] * (len(tried) - still)
    monkeypatch.setattr(tries, "Standstills", machine(stood_still))
    left = list(enumerate(tried))
    with contextlib.nullcontext() if said else pytest.raises(Trouble, match="in 2 of "):
        assert (tries.in_two_of_three(lambda: left.pop(0)[::-1]), len(tried) - len(left)) == said


def test_a_machine_that_stands_still_is_seen():
    """A thread that should wake after a hundredth of a second wakes later than that."""
    with Standstills(late=-0.02) as watch:
        time.sleep(0.1)
    assert watch.noted and watch.seconds_in(*watch.noted[0]) > 0


def test_a_process_that_stands_still_is_seen(monkeypatch):
    """Two tries fail for it, and aren't counted."""
    monkeypatch.setattr(tries, "Standstills", machine([False] * 4))
    script = "sleep 0.1; kill -STOP $0; sleep 1; kill -CONT $0"
    stops, tried = [True, True, False, False], []

    def attempt():
        if stops[len(tried)]:
            subprocess.run(["sh", "-c", f"({script}) &", str(os.getpid())], check=True)
        began = time.monotonic()
        time.sleep(0.3)
        tried.append(time.monotonic() - began)
        return tried[-1] < 0.8, len(tried)

    assert tries.in_two_of_three(attempt) == 4
    assert min(tried[:2]) > 0.8


# (memcached's clients wait 10 and 20 ms)
@pytest.mark.parametrize("longest, others, is_fine", [
    ((0.020, 0.060), 0.9, True), ((0.021, 0.060), 0.04, False), ((0.020, 0.061), 0.04, False),
    ((0.080, 0.180), 0.06, True), ((0.081, 0.180), 0.06, False), ((0.080, 0.181), 0.06, False),
], ids=str)
def test_on_a_busy_machine_clients_may_wait_longer(longest, others, is_fine):
    """Three times as long as on a quiet one, or eight times as long as memcached's."""
    here, beside = waits.Waited(longest, others), waits.Waited((0.010, 0.020), 0.0)
    assert waits.judged(here, waits.MOST, lambda: beside)[0] == is_fine


def test_what_others_take_is_seen():
    """A process that isn't waited for takes a processor meanwhile."""
    class Idle:
        def processor_seconds(self):
            return 0.0

    with subprocess.Popen([sys.executable, "-c", "while True: pass"]) as other:
        with waits.Others(Idle()) as others:
            time.sleep(1)
        other.kill()
    assert others.share * os.cpu_count() > 0.3
