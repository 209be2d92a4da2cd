"""Tests of the sources. A client's raw stream of either kind stands in the three files of net's
module `sockets`, whose types have these calls and no others, so that nothing reads from a stream or
writes to it beside its log, nor by its descriptor's number. Only the module of the system's clock
makes a reading of it.
"""
import collections
import glob
import os
import re

from served import TOP, read

# The calls of each type that has a raw stream, or makes one. A served stream's bytes are logged by
# `read`, `read_ahead` and `write`; `next_piece` hands out what was read; `peer` asks the system for
# an address. Of a new one the first bytes are looked at, which leaves them there; or it is refused,
# and closed.
CALLS = {
    "sockets.rt": {
        "Acceptor": {"new", "add", "port", "accept"},
        "NewStream": {"serve", "has_probe", "refuse"},
        "EndedStream": {"of", "drain"},
    },
    "sockets/logged_stream.rt": {
        "LoggedStream": {"new", "into_stream", "has_ahead", "read", "read_ahead", "next_piece",
                         "write", "peer"},
    },
    "sockets/raw.rt": {
        "RawStream": {"watch", "peek", "end_sending", "peer"},
        "Read": {"read"},
        "Write": {"write", "flush"},
        "RawListener": {"bind", "bind_path", "watch", "accept", "port"},
    },
}
# Functions of these files: the one accepts a stream, the other clears a path.
FUNCTIONS = {"sockets.rt": {"accept_in_turn"}, "sockets/raw.rt": {"clear_path"}}
# Calls that only these files can make.
PRIVATE = {"sockets/logged_stream.rt": {"new", "into_stream"},
           "sockets/raw.rt": {"watch", "peek", "end_sending", "peer", "accept", "port"}}

# Libraries whose safe calls take any descriptor by its number. Of `os` and of `libc` the product
# uses these calls alone, which take none; but for one file, which reads and closes what it has
# opened itself: it is opened, looked at, read and closed.
BY_NUMBER = {"io", "std_io"}
OF_OS, OF_LIBC = {"set_thread_name"}, {"getpid"}
USAGE = "serving/src/usage.rt"
OF_USAGE = ['os::open_read(b"/proc/self/stat")', "libc::read(file, &mut room)", "libc::close(file)"]
# What it uses of `std::os`: the type of such a number, for standard error; what a file is, and its
# mode; and what owns the descriptor of a path's stream while that comes to be of TCP's type. (Such
# an owner gives out the number and is made of one, so it stands in one call alone.)
OF_STD_OS = {"fd::RawFd", "unix::fs::", "fd::OwnedFd"}
OF_OWNED = ["use std::os::fd::OwnedFd",
            "Ok(RawStream::Unix(TcpStream::from(OwnedFd::from(stream))))"]


def sources(folder="*/src"):
    files = glob.glob(f"{TOP}/crates/{folder}/**/*.rt", recursive=True)
    return {os.path.relpath(it, f"{TOP}/crates"): re.sub(r"//.*", "", read(it))
            for it in files}


def with_word(word):
    return {name.removeprefix("net/src/") for name, text in sources("net/src").items()
            if re.search(rf"\b{word}\b", text)}


def test_only_these_files_name_a_raw_stream():
    assert with_word("RawStream") == set(CALLS)
    for kind in ("TcpStream", "TcpListener", "UnixListener"):
        assert with_word(kind) == {"sockets/raw.rt"}
    # (a hand wakes its port by a pair of its own)
    assert with_word("UnixStream") == {"sockets/raw.rt", "hand.rt"}
    assert {name.split("/")[0] for name, text in sources().items() if "mio::net" in text} == {"net"}


def test_they_have_these_calls_alone():
    assert {f"sockets/{os.path.basename(it)}" for it in sources("net/src/sockets")} | {
        "sockets.rt"} == set(CALLS)
    for name, types in CALLS.items():
        text = sources()[f"net/src/{name}"]
        found = collections.defaultdict(set)
        for it, block in re.findall(r"^impl(?:<[^{]*>)? (\w+)[^{]*\{(.*?)^\}", text, re.S | re.M):
            found[it].update(re.findall(r"\bfn (\w+)", block))
        assert {it: calls for it, calls in found.items() if calls} == types, name
        functions, private = FUNCTIONS.get(name, set()), PRIVATE.get(name, set())
        assert set(re.findall(r"^(?:pub(?:\(\w+\))? )?fn (\w+)", text, re.M)) == functions, name
        assert len(re.findall(r"\bfn ", text)) == sum(map(len, types.values())) + len(functions)
        assert set(re.findall(r"pub\(super\) fn (\w+)", text)) == private, name
        assert not re.search(r"pub(\(\w+\))? \w+:[^,]*\b(Tcp|Unix|Raw)Stream\b", text), name


def test_no_safe_call_takes_a_descriptors_number():
    lines = re.sub("#.*", "", read(f"{TOP}/crates.txt")).splitlines()
    libraries = {word for line in lines for word in line.partition(":")[2].split()}
    assert "os" in libraries and not libraries & BY_NUMBER
    others = {name: text for name, text in sources().items() if name != USAGE}
    code = "\n".join(others.values())
    uses = set(re.findall(r"(std::|)\bos\b(?:::([\w:]+))?", code))
    assert uses == {*(("", it) for it in OF_OS), *(("std::", it) for it in OF_STD_OS)}
    assert set(re.findall(r"\blibc\b(?:::([\w:]+))?", code)) == OF_LIBC
    owned = {name: re.findall(r"\b.*OwnedFd\b.*?(?=;|$)", text, re.M)
             for name, text in others.items() if "OwnedFd" in text}
    assert owned == {"net/src/sockets/raw.rt": OF_OWNED}


def test_one_file_reads_by_the_number_of_what_it_has_opened():
    text = sources()[USAGE]
    assert re.findall(r"\b(?:os|libc)\b[^;]*(?=;)", text) == OF_USAGE
    lines = re.findall(r".*\bfile\b", text)
    assert "let file = " + OF_USAGE[0] in text and lines[1].strip() == "if file"
    assert len(re.findall(r"\bfile\b", text)) == 4


def test_exactly_one_thing_is_unsafe():
    found = [(name, line) for name, text in sources().items()
             for line in re.findall(r"\bunsafe\b.*", text)]
    assert found == [("proto/src/trace.rt", "unsafe impl<T> Send for Trace<T> {}")]


def test_only_its_own_module_makes_a_reading():
    made = {name: text for name, text in sources("proto/src").items()
            if re.search(r"\b(ClockReading|ClockStart) \{", text)}
    assert made.keys() == {"proto/src/logged_clock.rt"}
    for name in ("ClockStart", "ClockReading"):
        form = rf"pub struct {name} \{{(.*?)\}}"
        fields = re.search(form, *made.values(), re.DOTALL)[1]
        # (what proto may read of it, nobody writes: one field at least is the module's own)
        read = re.findall(r"pub\(crate\) (\w+):", fields)
        assert ":" in fields.replace("pub(crate) ", "", len(read)) and "pub " not in fields, name
        assert len(read) < fields.count(":"), name
        written = "|".join(rf"\.{it}\s*=[^=>]|&mut [\w.]*\.{it}\b" for it in read) or "(?!)"
        assert not [it for it, text in sources("proto/src").items() if re.search(written, text)]
