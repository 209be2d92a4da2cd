"""Tries of what takes time, on a machine that may be busy, when a processor of it stood still, and
calls in processes of their own: for tools/hostile.py, what it runs, and the tests.

Each try must succeed in two of three. One that fails while a processor of the machine or the test's
process stood still says nothing, and isn't counted; of these there may be ten.

A try that raises has failed for good: what it asserts must hold however late its process is.
"""
import contextlib
import multiprocessing
import os
import threading
import time

from served import Trouble, together

TRIES, ENOUGH = 3, 2
MOST_UNCOUNTED = 10
# A processor stood still if it woke a thread so late, and this process if it did, in seconds.
LATE, OWN_LATE = 0.05, 0.5


class Beside:
    """A call in a process of its own beside the block, which is given an event that says when that
    is over. What it gives is `noted` then."""

    def __init__(self, call, *given):
        self.is_over, (self.hears, says) = multiprocessing.Event(), multiprocessing.Pipe(False)

        def run():
            try:
                says.send((call(self.is_over, *given), None))
            except Exception as fault:  # (who stops it hears of it)
                says.send((None, f"{type(fault).__name__} {fault}"))

        self.process = multiprocessing.Process(target=run, daemon=True)

    def __enter__(self):
        self.process.start()
        return self

    def __exit__(self, is_amiss, *_):
        self.is_over.set()
        if not self.hears.poll(60):
            raise Trouble("what runs beside doesn't end")
        self.noted, fault = self.hears.recv()
        self.process.join()
        if fault and not is_amiss:
            raise Trouble(fault)


def note_late(is_over, late, noted):
    """When this thread, which sleeps for 10 ms again and again, woke so many seconds late."""
    while not is_over.is_set():
        began = time.monotonic()
        time.sleep(0.01)
        ended = time.monotonic()
        if ended - began > 0.01 + late:
            noted.append((began, ended))


def watch(is_over, late):
    """When a thread of some processor woke so many seconds late."""
    noted = []

    def watch_one(processor):
        os.sched_setaffinity(threading.get_native_id(), {processor})
        note_late(is_over, late, noted)

    together(lambda it=it: watch_one(it) for it in os.sched_getaffinity(0))
    return sorted(noted)


@contextlib.contextmanager
def own_standstills(late):
    """Notes when this process stood still beside the block, so that what it timed says nothing."""
    is_over, noted = threading.Event(), []
    thread = threading.Thread(target=note_late, args=(is_over, late, noted), daemon=True)
    thread.start()
    try:
        yield noted
    finally:
        is_over.set()
        thread.join()


class Standstills(Beside):
    """Notes when a processor stood still, as a virtual one does while its host has other work."""

    def __init__(self, late=0.1):
        super().__init__(watch, late)

    def seconds_in(self, began, ended):
        """For how long some processor stood still in this time."""
        total, until = 0.0, began
        for first, last in self.noted:
            first, last = max(first, until), min(last, ended)
            if last > first:
                total, until = total + last - first, last
        return total


def in_two_of_three(attempt):
    """What the last try says that succeeded. `attempt` gives whether one did, and what it says;
    Trouble if too many failed."""
    fine, failed, uncounted = [], [], 0
    while len(fine) < ENOUGH:
        with Standstills(LATE) as standstills, own_standstills(OWN_LATE) as own:
            is_fine, said = attempt()
        if is_fine:
            fine.append(said)
        elif (standstills.noted or own) and uncounted < MOST_UNCOUNTED:
            uncounted += 1
        else:
            failed.append(said)
        if len(failed) > TRIES - ENOUGH:
            tried = f"in {len(failed)} of {len(fine) + len(failed)} tries"
            raise Trouble(f"{tried}: {'; '.join(map(str, failed))}")
    return fine[-1]


def all_in_time(took, most):
    """As above, of tries that take some seconds, as `took` gives, and may take so many."""
    def attempt():
        seconds = took()
        return seconds <= most, f"{seconds:.3f} s, and {most} are allowed"

    in_two_of_three(attempt)
