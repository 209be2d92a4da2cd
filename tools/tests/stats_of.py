"""What a `stats` tells."""
from served import Gone, comes_true


def by_name(answer):
    """What the answer to a `stats` tells, by name."""
    lines = [line.split(b" ") for line in answer.removesuffix(b"END\r\n").split(b"\r\n")[:-1]]
    assert all(len(it) == 3 and it[0] == b"STAT" for it in lines)
    found = {name.decode(): value.decode() for _, name, value in lines}
    assert len(found) == len(lines)
    return found


def told(stream, line=b"stats\r\n"):
    stream.sendall(line)
    got = b""
    while not got.endswith(b"END\r\n"):
        piece = stream.recv(65536)
        if not piece:
            raise Gone(f"the server went away after {got!r}")
        got += piece
    return by_name(got)


def numbers(stream):
    return {name: int(it) for name, it in told(stream).items() if it.isdigit()}


def wait_for(stream, **wanted):
    """Asks until these gauges are told: what another worker did last may not be told yet."""
    found, wanted = {}, {name: str(it) for name, it in wanted.items()}

    def are_told():
        found.update(told(stream))
        return wanted.items() <= found.items()

    comes_true(are_told)
    assert {name: found[name] for name in wanted} == wanted
    return found
