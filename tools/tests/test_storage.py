"""`--storage`: which thread executes requests. What is answered doesn't depend on it, and a worker
that executes wakes no thread."""
import concurrent.futures
import random
import time

import pytest
import replays
from asking import END, MISS, ask
from model import Cache
from script_of import Script
from served import comes_true
from test_model import random_request

KINDS = "thread", "workers"
SCRIPTS = 2000
ROOMY = "--segment-size 65536 --segments 64"
SIZES = ("--segment-size 4096 --segments 8", "--segment-size 4096 --segments 9 --tick 3",
         f"{ROOMY} --tick 1")
CHOICES = ("", "--lenient ", "--update-in-place ", "--exact-ttls ", "--evict least-read ",
           "--accept 7 ")


def random_lines(chance, worker, is_alone):
    """Requests for keys of a worker's own. Some are none, and some have no answer. Only one that no
    other worker runs beside has cas numbers, which count the writes of all."""
    left_out = {b"stats", b"flush_all", *([] if is_alone else [b"gets", b"gats", b"cas"])}
    for _ in range(chance.randrange(1, 120)):
        request = random_request(chance, 30, (0, 0, 20, 600, -1), 300)
        if request[0] in left_out:
            request = b"version", b"what", b"is", b"this"
        line, _ = Cache(4096, 8).answer(request, 0)
        end = b" noreply\r\n" if chance.random() < 0.2 else b"\r\n"
        yield line.replace(b"\r\n", end, 1).replace(b"key", b"w%d-" % worker)


def random_script(number, choices=CHOICES):
    """Words and a script that prints the same in each run: each worker has one session, whose
    requests stand in one order, and those of several workers are for keys of their own, in a store
    that forgets none."""
    chance = random.Random(number)
    workers = chance.choice((1, 1, 2, 3))
    words = chance.choice(choices) + (chance.choice(SIZES) if workers == 1 else ROOMY)
    script = Script(workers)
    for worker in range(workers):
        session = script.open()
        left = b"".join(random_lines(chance, worker, workers == 1))
        while left:
            size = chance.choice((1, 30, 500, 5000))
            script.send(session, left[:size])
            left = left[size:]
    return f"--workers {workers} {words}", script.text().encode()


def those_that_differ(ways, count, choices=CHOICES):
    """Which of so many scripts are answered by other bytes, or a fault, in one of these ways."""
    def differs(number):
        words, script = random_script(number, choices)
        ends = {replays.ended(program, *words.split(), *more, script=script)
                for program, *more in ways}
        return len(ends) > 1 or min(ends)[0] != 0

    with concurrent.futures.ThreadPoolExecutor(8) as threads:
        return [number for number, it in enumerate(threads.map(differs, range(count))) if it]


def test_random_scripts_are_answered_alike(program):
    assert those_that_differ([(program, "--storage", kind) for kind in KINDS], SCRIPTS) == []


def test_random_scripts_are_answered_as_by_another_build(program, request):
    """20,000 of them, with the default options, if it is named by `--against`."""
    other = request.config.getoption("--against")
    if not other:
        pytest.skip("asked for by --against alone")
    assert those_that_differ([(program,), (other,)], 20_000, [""]) == []


def storage_sleeps(server, requests):
    """How often storage sleeps beside so many lone requests, but for ten times a second."""
    stream = server.connect()
    ask(stream, MISS, END)
    # (each thread gives itself its name)
    assert comes_true(lambda: "storage" in server.threads())
    storage = server.threads()["storage"]
    before, start = server.sleeps(storage), time.monotonic()
    for _ in range(requests):
        ask(stream, MISS, END)
        # (so long that it has gone to sleep again)
        time.sleep(0.001)
    return server.sleeps(storage) - before - 10 * (time.monotonic() - start)


def test_a_lone_request_wakes_no_thread_where_workers_execute(serve):
    counts = [storage_sleeps(serve("--workers", "2", "--storage", kind), 300) for kind in KINDS]
    assert counts[0] > 150 and counts[1] < 10, counts
