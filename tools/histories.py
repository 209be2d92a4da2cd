"""What eight clients ask of a server on shared keys and are answered, and whether one order of it
is a cache's: for tools/hostile.py.

The check knows nothing of the server. For each key it looks for an order of the operations in which
each stands between its beginning and its end, and is answered as one value with one cas number
would answer it (Wing and Gong's search, with what was seen before left out). Nothing may have been
forgotten meanwhile, so the server's segments have to hold all keys.
"""
import collections
import random
import time

from served import Client, together

CLIENTS = 8
KEYS_AT_A_TIME = 4
OPERATIONS_OF_KEY = 60

Operation = collections.namedtuple("Operation", "client begin end key verb words answer")
# A key's value and its cas number: None if there is none, or if nothing has told the number yet.
# `newest` is the greatest number that was told.
State = collections.namedtuple("State", "value number newest")


# What stands before the key of a request that shows a value and its number.
SHOWING = {"gets": b"gets", "gats": b"gats 1000"}


def ask(client, verb, key, words):
    """The answer as words: of `gets` and `gats` the value and its number, or nothing."""
    if verb in SHOWING:
        found = client.get(key.encode(), SHOWING[verb])
        # (memcached leaves spaces after a number that got shorter)
        return [found[0].decode().rstrip(), str(found[1])] if found else []
    if verb in ("set", "add", "replace", "append", "cas"):
        value, *number = words
        tail = "".join(f" {it}" for it in number)
        return [client.set(key.encode(), value.encode(), verb.encode(), tail.encode()).decode()]
    return client.ask(" ".join([verb, key, *words]).encode()).decode().split()


def choose(chance, told):
    """A verb and its words; `told` is the cas number that this client saw last."""
    value = str(chance.randrange(1000))
    verbs = "gets gets gets gats incr incr incr add add set replace delete decr touch append"
    verb = chance.choice(verbs.split() + ["cas"] * (4 if told else 0))
    # (an append of nothing changes the cas number alone)
    words = {"gets": [], "gats": [], "delete": [], "touch": ["1000"], "append": [""],
             "cas": [value, told]}
    return verb, words.get(verb, [value])


def run_client(number, server, until):
    chance, client, told, operations = random.Random(number), Client(server, 30), {}, []
    while time.monotonic() < until:
        # (all clients go on to further keys at about the same time, as each makes about as many)
        group = len(operations) * CLIENTS // (OPERATIONS_OF_KEY * KEYS_AT_A_TIME)
        key = f"history-{group}-{chance.randrange(KEYS_AT_A_TIME)}"
        verb, words = choose(chance, told.get(key))
        begin = time.monotonic_ns()
        answer = ask(client, verb, key, words)
        operations.append(Operation(number, begin, time.monotonic_ns(), key, verb, words, answer))
        if verb in SHOWING and answer:
            told[key] = answer[1]
    return operations


def record(server, seconds):
    until = time.monotonic() + seconds
    runs = together(lambda it=it: run_client(it, server, until) for it in range(CLIENTS))
    return [it for of_client in runs for it in of_client]


def next_state(state, operation):
    """The state after the operation, or None if it would be answered otherwise."""
    value, number, newest = state
    verb, words, answer = operation.verb, operation.words, operation.answer
    there = value is not None
    if verb in SHOWING:
        if not there or not answer:
            return state if not there and not answer else None
        told = int(answer[1])
        if answer[0] != value or (number is None and told <= newest) or number not in (None, told):
            return None
        return State(value, told, max(newest, told))
    acts = verb == "set" or there != (verb == "add")
    if there and verb == "cas":
        acts = number == int(words[-1])
    if not acts:
        stores = verb in ("add", "replace", "append")
        refusal = "NOT_STORED" if stores else "EXISTS" if there and verb == "cas" else "NOT_FOUND"
        return state if answer == [refusal] else None
    if verb == "touch":
        return state if answer == ["TOUCHED"] else None
    if verb == "delete":
        after, wanted = None, "DELETED"
    elif verb in ("incr", "decr"):
        amount = int(words[0]) if verb == "incr" else -int(words[0])
        after = wanted = str(max(int(value) + amount, 0))
    else:
        after, wanted = value if verb == "append" else words[0], "STORED"
    return State(after, None, newest) if answer == [wanted] else None


def has_order(operations):
    """Whether one order of these operations of one key is a cache's."""
    operations = sorted(operations, key=lambda it: it.begin)
    count, begin = len(operations), (0, State(None, None, 0))
    waiting, seen = [begin], {begin}
    while waiting:
        done, state = waiting.pop()
        if done == (1 << count) - 1:
            return True
        left = [at for at in range(count) if not done >> at & 1]
        first_end = min(operations[at].end for at in left)
        for at in left:
            # (one that begins after the end of another that is left can't come before it)
            if operations[at].begin > first_end:
                break
            after = next_state(state, operations[at])
            if after is not None and (place := (done | 1 << at, after)) not in seen:
                seen.add(place)
                waiting.append(place)
    return False


def check(operations):
    """The keys without an order, and how many keys and operations there were."""
    by_key = collections.defaultdict(list)
    for operation in operations:
        by_key[operation.key].append(operation)
    wrong = sorted(key for key, of_key in by_key.items() if not has_order(of_key))
    at_once = sum(any(other.begin < it.end and other.end > it.begin and other is not it
                      for other in by_key[it.key]) for it in operations)
    return wrong, len(by_key), len(operations), at_once
