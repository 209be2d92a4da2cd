"""What is kept and what is forgotten where eight segments of 4,096 bytes are full.

With `oldest` the first merge takes the first four segments, of 32 keys, and the second one what the
first one left and three segments behind it. With `least-read` the first one takes two segments, of
16 keys, and what it leaves stands behind others: so the second and the third one take those of the
keys 17 to 48, and the fourth one that of 49 to 56 with what the first one left. There a key that
was read once stays again, as half its count is rounded up. With a TTL whose bucket is 128 seconds
wide and a tick of a second, segments are opened eight seconds apart, and `oldest` merges none; for
`least-read` those of 64 seconds are opened at one moment, which end at 1,088. With `least-read` a
key that is written again goes over its item: one of a segment that was opened at 1,088 and ends at
3,136, until 1,291, when 2,100 seconds end 255 seconds later.
"""
import pytest
from asking import END, STORED, hits
from replays import must_answer
from test_store_rows import SMALL, found, key, put

# (a segment holds eight items of this size)
VALUE = b"v" * 476
LEAST_READ = "--evict least-read"

# The words; the TTL; how many keys are written; how often the first one is read before the 65th
# write; how often the last one is then written again; and the first and the last key of each part
# that is forgotten, when all are read.
RUNS = [
    ("", 0, 64, 0, 0, []),
    ("", 0, 65, 0, 0, [(1, 24)]),
    ("", 0, 65, 1, 0, [(2, 25)]),
    ("", 0, 89, 0, 0, [(1, 48)]),
    ("", 0, 89, 2, 0, [(2, 49)]),
    ("--evict oldest", 0, 89, 0, 0, [(1, 48)]),
    (LEAST_READ, 0, 65, 0, 0, [(1, 8)]),
    (LEAST_READ, 0, 89, 0, 0, [(1, 24), (33, 40)]),
    (LEAST_READ, 0, 89, 1, 0, [(2, 24), (33, 40), (49, 49)]),
    ("--now 1088 --tick 1", 2100, 65, 0, 0, [(1, 8)]),
    ("--now 1088 --tick 1 --evict least-read", 2100, 65, 0, 0, [(1, 16)]),
    ("--now 1080 --tick 1 --evict least-read", 2100, 65, 0, 0, [(9, 24)]),
    ("", 0, 64, 0, 1, [(1, 24)]),
    (LEAST_READ, 0, 64, 0, 100, []),
    ("--now 1088 --tick 1 --evict least-read", 2100, 64, 0, 140, []),
    ("--now 1088 --tick 1 --evict least-read", 2100, 64, 0, 141, [(1, 16)]),
]


@pytest.mark.parametrize("words, ttl, writes, reads, again, forgotten", RUNS)
def test_merges_keep_what_was_read(program, words, ttl, writes, reads, again, forgotten):
    numbers = range(1, writes + 1)
    gone = {number for first, last in forgotten for number in range(first, last + 1)}
    sets = [(put(key(number), ttl, VALUE), STORED) for number in numbers]
    rows = [*sets[:64], *[found(1, VALUE)] * reads, *sets[64:], *[sets[-1]] * again]
    rows += [found(number, None if number in gone else VALUE) for number in numbers]
    must_answer(program, f"{SMALL} {words}", rows)


# Nine keys are written, each with a life of its own: eight times its number of seconds. They stand
# in nine buckets, of which eight have a segment. Of the first third, the segments of the first
# two keys, the first one has fewest hits, unless the first key was read or touched. The eighth
# segment that is opened halves all hits.
#
# The words; how often the first key is read before and after the eighth write, and how often it is
# touched after it; the key that is forgotten.
LIVES = [
    ("", 0, 0, 0, 1),
    ("--evict oldest", 3, 3, 0, 1),
    (LEAST_READ, 0, 0, 0, 1),
    (LEAST_READ, 0, 1, 0, 2),
    (LEAST_READ, 1, 0, 0, 1),
    (LEAST_READ, 2, 0, 0, 2),
    (LEAST_READ, 3, 1, 0, 2),
    ("--lenient --evict oldest", 0, 0, 1, 1),
    ("--lenient --evict least-read", 0, 0, 1, 2),
]


@pytest.mark.parametrize("words, before, after, touches, forgotten", LIVES)
def test_the_oldest_or_the_least_read_is_cleared(program, words, before, after, touches, forgotten):
    keys = [b"k%d" % number for number in range(1, 10)]
    sets = [(put(it, 8 * number, b"x"), STORED) for number, it in enumerate(keys, 1)]
    read, touch = ("get k1|", "VALUE k1 0 1|x|END|"), ("touch k1 8|", "TOUCHED|")
    rows = [*sets[:7], *[read] * before, sets[7], *[read] * after, *[touch] * touches, sets[8]]
    shown = b"".join(hits(it, b"x") for it in keys if it != keys[forgotten - 1])
    rows.append((b"get %b\r\n" % b" ".join(keys), shown + END))
    must_answer(program, f"{SMALL} {words}", rows)
