"""netcat, libmemcached's tools and what applications write against a served program; with
--all-clients all those of docs/CLIENTS.md."""
import os
import subprocess
import sys
import tempfile

import pytest
import served
from asking import END, SET_AND_GET, SET_AND_GET_ANSWER, STORED, ask, put

CLIENTS = f"{served.TOP}/tools/clients"


@pytest.fixture(scope="module")
def servers(program):
    """A strict one, and a lenient one."""
    with served.Server(program) as strict, served.Server(program, "--lenient") as lenient:
        yield strict, lenient


def run(*words, **how):
    return served.ended(*words, seconds=20, **how)[:2]


def of(server):
    return f"--servers=127.0.0.1:{server.port}"


@pytest.mark.parametrize("requests, answers", [
    (b"get a\r\n", END), (SET_AND_GET % (b"a", b"a"), SET_AND_GET_ANSWER % b"a"),
], ids=["a miss", "a write and a hit"])
def test_netcat_closes_its_half_at_once_and_still_prints_the_answers(servers, requests, answers):
    assert run("nc", "-N", "127.0.0.1", str(servers[0].port), input=requests) == (0, answers)


def test_libmemcached_copies_shows_finds_and_removes_a_file(servers, tmp_path):
    (tmp_path / "greeting").write_text("hello", encoding="ascii")
    for tool, status, said in (
        ("memccp", 0, b""), ("memccat", 0, b"hello\n"), ("memcexist", 0, b""), ("memcrm", 0, b""),
        # (a missing key)
        ("memcexist", 1, b""), ("memccat", 1, b""),
    ):
        assert run(tool, of(servers[0]), "greeting", cwd=tmp_path) == (status, said), tool


PARTS = ["quit", "get", "gets", "mget", "flush", "delete", "incr", "decr"]
# (these ask for `version` or for commands that the strict dialect hasn't)
LENIENT_PARTS = ["version", "verbosity", *(f"{it} noreply" for it in PARTS[4:]), *(
    it + quiet for it in ("set", "add", "replace", "cas", "append", "prepend")
    for quiet in ("", " noreply"))]


# (as docs/CLIENTS.md says, `stat` fails)
@pytest.mark.parametrize("is_lenient, part, passes", [
    *((False, part, True) for part in PARTS),
    *((True, part, True) for part in PARTS + LENIENT_PARTS), (True, "stat", False)])
def test_memccapable_passes_but_for_stat(servers, is_lenient, part, passes):
    label, port = f"ascii {part}", str(servers[is_lenient].port)
    words = ["-h", "127.0.0.1", "-p", port, "-a", "-t", "5", "-T", label]
    said = f"{label:<40}" + "[pass]\nAll tests passed\n" * passes
    assert run("memccapable", *words) == (int(not passes), said.encode())


def test_memcflush_writes_a_space_behind_its_request_which_is_a_fault(servers):
    strict, lenient = servers
    assert run("memcflush", of(strict)) == (1, b"")
    stream = lenient.connect()
    ask(stream, put(b"a", b"x"), STORED)
    assert run("memcflush", of(lenient)) == (0, b"")
    ask(stream, b"get a\r\n", END)


PACKAGES = """python3-django python3-memcache python3-binary-memcached php-cli php-memcached
    php-memcache php-symfony-cache libcache-memcached-perl libcache-memcached-fast-perl
    libmemcached-libmemcached-perl ruby ruby-dalli nginx-light php-symfony-http-foundation
    simplesamlphp freeradius-memcached python3-tooz python3-celery python3-limits python3-swift
    php-laravel-framework python3-flask-limiter postfix""".split()
LANGUAGES = {"py": sys.executable, "php": "php", "pl": "perl", "rb": "ruby"}
# Programs of tools/clients, each with the client that it is to try, if it has several; and those
# for the package's options alone. The gate has the first one, and the first two. (With strict lines
# libmemcached ends the process of the second one.)
CALLS = """pymemcache.py, pylibmc.py, python_memcached.py, django.py, nginx.py,
    php_memcached.php, php_memcache.php, perl.pl Cache::Memcached, perl.pl Cache::Memcached::Fast,
    perl.pl Memcached::libmemcached, dalli.rb""".split(",")
APPLICATIONS = """mediawiki.py, cachelib.py, symfony.php, php_sessions.php, simplesamlphp.php,
    php_locks.php, touching.py, freeradius.py, swift.py, ttl.py""".split(",")


@pytest.fixture(scope="module")
def all_clients(request):
    if not request.config.getoption("--all-clients"):
        pytest.skip("asked for by --all-clients alone")
    served.install(*PACKAGES)


def said_by(calls, server):
    """The lines in which these clients say what works, and what doesn't."""
    here = {"PYTHONDONTWRITEBYTECODE": "1", "PYTHONPATH": f"{served.TOP}/tools"}
    said = []
    for call in calls:
        name, *client = call.split()
        name, language = name.split(".")
        line = [LANGUAGES[language], f"{CLIENTS}/{name}_calls.{language}", *client]
        ran = subprocess.run([*line, server.path or str(server.port)], stdout=subprocess.PIPE,
                             text=True, timeout=100, env={**os.environ, **here})
        said += [it.rstrip() for it in ran.stdout.splitlines()]
    return said


def expected_of(name, *clients):
    lines = served.read(f"{CLIENTS}/{name}").splitlines()
    return [line for line in lines if line.startswith(clients or "")]


BOTH = pytest.mark.parametrize("words, expected", [
    ([], "expected"), (served.OF_THE_PACKAGE, "expected_lenient")], ids=["strict", "package"])


@BOTH
def test_each_call_of_each_client_works_or_fails_as_expected(serve, all_clients, words, expected):
    assert said_by(CALLS + APPLICATIONS * bool(words), serve(*words)) == expected_of(expected)


@BOTH
def test_what_the_gate_has_works_as_expected(serve, words, expected):
    wanted = expected_of(expected, "pymemcache ", *("MediaWiki ", "cachelib ") * bool(words))
    calls = CALLS[:1] + APPLICATIONS[:2] * bool(words)
    assert len(wanted) == 2 * len(calls) and said_by(calls, serve(*words)) == wanted


@pytest.fixture
def server_at_path(program):
    """Of the package, where any user may connect, as nginx does."""
    words = [*served.OF_THE_PACKAGE, "--socket-mode", "0777"]
    with tempfile.TemporaryDirectory() as folder:
        os.chmod(folder, 0o755)
        with served.Server(program, *words, listen=f"unix:{folder}/cache") as it:
            yield it


def test_pylibmc_works_by_path_as_by_port(server_at_path):
    wanted = expected_of("expected_lenient", "pylibmc ")
    assert len(wanted) == 2 and said_by(["pylibmc.py"], server_at_path) == wanted


def test_php_memcached_and_nginx_work_by_path_as_by_port(all_clients, server_at_path):
    wanted = expected_of("expected_lenient", "nginx ", "php-memcached ")
    calls = ["nginx.py", "php_memcached.php"]
    assert len(wanted) == 4 and said_by(calls, server_at_path) == wanted
