"""The model of waking, models/waking.pml: spin finds no state in which a thread sleeps over work,
and refuses wrong protocols."""
import re

import pytest
from served import TOP, ended, read

MODEL = f"{TOP}/models/waking.pml"
# Two workers over ports that are no sockets; two that execute requests; one worker over sockets,
# with a listener and a client.
LANES = ("-DWORKERS=2", "-DREQUESTS=2")
BY_WORKERS = ("-DWORKERS=2", "-DREQUESTS=1", "-DBY_WORKERS")
SOCKETS = ("-DWORKERS=1", "-DREQUESTS=3", "-DSOCKETS")
SLEEPS = "invalid end state"
TELLS_LATE = "assertion violated (untold<2)"
UNSERVED = "assertion violated (posted[at]==done[at])"
# Wrong protocols, where they are tried, and what spin says of them.
WRONG = {name: (world, fault) for world, fault, names in (
    (LANES, SLEEPS, """NO_SECOND_LOOK WAKE_BEFORE_STORE NO_UNPARK PARKS_OVER_A_WAKE BYE_WITHOUT_WAKE
        UNPARK_BEFORE_TELL"""),
    (LANES, TELLS_LATE, "TELLS_EIGHTHS_ALONE"),
    (BY_WORKERS, SLEEPS, """NO_LAST_LOOK LOOKS_BEFORE_IT_PUTS_BACK TRIES_ONCE TAKES_BACK_LATE
        LEAVES_UNTOLD ENDS_UNTOLD PARKS_HOLDING"""),
    (BY_WORKERS, UNSERVED, "PARKS_WITHOUT_A_LOOK"),
    (SOCKETS, TELLS_LATE, "NO_EIGHTH"),
    (SOCKETS, SLEEPS, """WAITS_OVER_UNSENT OFFER_WITHOUT_WAKE WAKE_BEFORE_OFFER END_WITHOUT_WAKE
        ENDS_BEHIND_ITS_LOOK"""),
) for name in names.split()}


def searched(*words):
    """Whether spin found nothing wrong in all that there is, and what it said."""
    status, printed, said = ended(f"{TOP}/tools/spin.sh", MODEL, *words, text=True, seconds=600)
    assert not said, said
    return status == 0, printed


@pytest.mark.parametrize("world", [LANES, BY_WORKERS, SOCKETS],
                         ids=["lanes", "by workers", "sockets"])
def test_no_thread_sleeps_over_work_and_each_run_ends(world):
    is_right, said = searched(*world)
    assert is_right, said


@pytest.mark.parametrize("name", WRONG)
def test_a_wrong_protocol_is_refused(name):
    world, fault = WRONG[name]
    is_right, said = searched(*world, f"-D{name}")
    assert not is_right
    assert f"pan:1: {fault}" in said


def test_the_wrong_protocols_are_those_of_the_model():
    named = set(re.findall(r"^#ifn?def ([A-Z_]+)", read(MODEL), re.MULTILINE))
    assert named - {"WORKERS", "REQUESTS", "WINDOW", "SOCKETS", "BY_WORKERS"} == set(WRONG)


def test_the_code_beside_the_steps_is_there():
    cited = re.findall(r"/\* (\w+)/(\w+\.rt): (.*?) \*/", read(MODEL))
    assert len(cited) > 40
    for crate, name, items in cited:
        code = read(f"{TOP}/crates/{crate}/src/{name}")
        for item in items.split(", "):
            kinds = "fn|const|struct|trait"
            assert re.search(rf"\b(?:{kinds}) {item}\b", code), f"{crate}/{name}: {item}"
