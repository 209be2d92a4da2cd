"""What `segcached replay` prints and says, of scripts and of single sessions."""
import re

import served
from asking import wire
from stats_of import by_name


def ended(program, *words, file="/dev/stdin", script=b"", **how):
    """The exit status of a replay of a script or file, and what it wrote on both outputs."""
    return served.ended(program, "replay", file, *words, seconds=120, input=script, **how)


def printed(program, words, script):
    status, out, said = ended(program, *words.split(), script=script)
    assert (status, said) == (0, b"")
    return out


def in_parts(data, size=16_384):
    """These bytes in parts of as many as a worker reads at a time, or of another size."""
    return [data[at : at + size] for at in range(0, len(data), size)]


def given(program, words, *pieces):
    """What the only session is given, which sends these pieces, in bytes or texts for `wire`."""
    sends = b"".join(b"send 0 1 %b\n" % wire(it).hex().encode() for it in pieces)
    out = printed(program, words, b"open 0 1\n" + sends)
    found = re.fullmatch(rb"0 1 (-|(?:[0-9a-f]{2})+)\n", out)
    assert found, out[:60]
    return bytes.fromhex(found[1].decode().strip("-"))


def must_answer(program, words, rows):
    """Each request is given its answer, of a `stats` these numbers among others, and the session
    nothing else."""
    rows, at = [(wire(request), answer) for request, answer in rows], 0
    answers = given(program, words, *in_parts(b"".join(request for request, _ in rows)))
    for turn, (request, answer) in enumerate(rows):
        place = f"request {turn}, {request[:60]!r}"
        if isinstance(answer, dict):
            end = answers.index(b"END\r\n", at) + len(b"END\r\n")
            found = by_name(answers[at:end])
            assert {name: int(found[name]) for name in answer} == answer, place
        else:
            end = at + len(wire(answer))
            assert answers[at:end] == wire(answer), place
        at = end
    assert answers[at:] == b"", "more bytes than wanted"
