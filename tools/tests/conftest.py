"""What the tests share: the program, servers that end with their test, and tools in C."""
import contextlib
import os
import resource

import hypothesis
import pytest
import served

# The gate tries the same examples each time; `--hypothesis-profile soak` tries many others.
EXAMPLES = {"gate": {"derandomize": True}, "soak": {"max_examples": 20_000, "print_blob": True}}
for name, settings in EXAMPLES.items():
    hypothesis.settings.register_profile(name, database=None, deadline=None, **settings)
hypothesis.settings.load_profile("gate")


def pytest_addoption(parser):
    add = parser.addoption
    add("--program", default=served.PROGRAM, help="the built segcached")
    add("--all-clients", action="store_true", help="also clients that the gate doesn't install")
    add("--against", help="another build, to compare with")
    add("--model-runs", type=int, default=7, help="how many long runs beside the model")


def pytest_configure():
    _, hard = resource.getrlimit(resource.RLIMIT_NOFILE)
    resource.setrlimit(resource.RLIMIT_NOFILE, (hard, hard))


@pytest.fixture(scope="session")
def program(request):
    return os.path.abspath(request.config.getoption("--program"))


@pytest.fixture
def serve(program):
    """Starts a server with these words, which ends with the test and not badly before."""
    with contextlib.ExitStack() as servers:
        yield lambda *words, **named: servers.enter_context(served.Server(program, *words, **named))


@pytest.fixture
def apart():
    """Gives the command that starts another one in such namespaces of its own, which takes root."""
    def command(*words):
        if os.geteuid() or served.ended("unshare", *words, "true")[0]:
            pytest.skip("this takes root and namespaces")
        return ["unshare", *words]

    return command


@pytest.fixture(params=["thread", "workers"])
def storage(request):
    """The words by which these threads execute requests."""
    return "--storage", request.param


@pytest.fixture(scope="session")
def compiled(tmp_path_factory):
    """Compiles a C file of tools with these words of gcc: the path of what it made."""
    made = tmp_path_factory.mktemp("compiled")
    return lambda name, *words: served.compiled(name, made, *words, "-ldl")
