"""Lists of calls: refusals in them, what does not fit, and sums that are not sound. second.py looks through the whole sum at every call."""

from second import WORD, bits_of, float_of
from telling import *

NAN = float_of(0x7FF8000000000000)
ABOVE_1024 = 0x4090000000000001
# For each call a sheet of 16 entries has room.
ROOM = 6400

ACCEPTED = [h(0), pauli(0.25, 0.125, 0.0625, 0), loss(0.5, 1), s(1), reset(1)]
OTHERS = [depolarizing(0.03, 1), two_qubit([0.001] * 15, 0, 1), depolarize2(0.1, 1, 0), cnot(0, 1), truncate, normalise]
EVERY_KIND = [*ACCEPTED, *OTHERS, table(SHOWN), pick(bits_of(0.7)), sheet, view(0), page]


def small(capacity=16, cutoff=0.0):
    """n 2, K 2: 23 words an entry."""
    return Sum(2, 2, capacity, 0.5, cutoff)


def with_word(at, v):
    run = small()
    run.put(at, v)
    return run


def both_ways(begun, calls, **more):
    """All of them, and up to the first that is refused."""
    for stop in False, True:
        begun().run(calls, stop=stop, **more)


# A refused call in the middle, first, last; none.


def refusals():
    # 3, 4, 8, 10
    for refused in cnot(0, 2), view(99), loss(NAN, 0), table(1), pick(bits_of(1.0)):
        both_ways(small, [*ACCEPTED[:3], refused, *ACCEPTED[3:], page], room=640)
        both_ways(small, [refused, *ACCEPTED])
        both_ways(small, [*ACCEPTED, refused])
    # 6; 9 by a channel, and on an empty sum; the sheet has no room, the page has
    both_ways(lambda: small(4), [*ACCEPTED[:2], depolarize2(0.3, 0, 1), *ACCEPTED[2:]])
    both_ways(lambda: small(16, 0.5), [h(0), loss(1.0, 1), depolarizing(1.0, 1), reset(1), depolarizing(1.0, 1), *ACCEPTED])
    both_ways(lambda: small(4, 1.0), [pick(0), *ACCEPTED, table(SHOWN)])
    both_ways(small, [*ACCEPTED[:2], sheet, page, *ACCEPTED[2:]], room=300)
    both_ways(small, EVERY_KIND, room=ROOM)


def refused_first():
    """Nothing is known of the sum when the first call comes that may be accepted."""
    early = [h(2), loss(NAN, 0), cnot(1, 1), pauli(0.5, 0.5, 0.5, 1)]
    both_ways(small, [*early, *EVERY_KIND], room=ROOM)
    both_ways(lambda: with_word(1, 4), [*early, *EVERY_KIND], room=ROOM)


# What does not fit gives 19, and changes nothing.


def without_shown_words():
    """Records of 11 words; a table or a view has no room there."""
    plain = [call for call in EVERY_KIND if call.kind not in (TABLE, VIEW)]
    both_ways(small, plain, shown=0, room=ROOM)
    both_ways(small, [*plain[:4], h(2), *plain[4:]], shown=0, room=ROOM)
    for look in table(0), table(2), view(0), view(99):
        both_ways(small, [*ACCEPTED, look], shown=0)
        both_ways(small, [look, *ACCEPTED], shown=SHOWN - 1)
    small().run(plain, shown=5, room=ROOM)


def more_room():
    """Records that are longer than a table or a view asks for, up to what it asked for before request 4 of document 02."""
    for shown in SHOWN + 1, MOST_SHOWN:
        both_ways(small, EVERY_KIND, shown=shown, room=ROOM)
        small().run(ACCEPTED, shown=shown)


def lengths():
    count, length = len(ACCEPTED), NUMBERS + SHOWN
    small().run(ACCEPTED, log=count * length - 1)
    small().run(ACCEPTED, log=count * length + 3)
    small().run(ACCEPTED, shown=0, log=count * NUMBERS - 1)
    small().run(ACCEPTED, shown=MOST_SHOWN + 1)
    small().run(ACCEPTED, shown=WORD, log=count * (NUMBERS + MOST_SHOWN))
    small().run(ACCEPTED, words=count * CALL - 1)
    # a stretch of text for each: as many bytes as there are, one more, far more
    each = len(text.bytes) // count
    for room in each, each + 1, WORD:
        small().run(ACCEPTED, room=room)
    # no call
    small().run([])
    small().run([], shown=0, room=WORD, stop=True)


def kinds():
    for kind in PAGE + 1, 19, WORD:
        unknown = Call(kind, 0, 0, [], None)
        small().run([*ACCEPTED, unknown])
        small().run([unknown, *ACCEPTED], shown=0, stop=True)


# Sums that are not sound: nothing makes them so.


def unsound():
    # loss, coefficient count, a coefficient's part and unused place, x, z and phase of rows, past the count
    for at, v in (1, 4), (4, 3), (6, 0x7FF0000000000000), (8, 1), (11, 4), (21, 4), (22, 4), (23, 1), (16 * 23 - 1, 1):
        run = with_word(at, v)
        run.run(EVERY_KIND, room=ROOM)
        run.run(EVERY_KIND[::-1], room=ROOM, stop=True)
    # numbers 1 and 2
    for change in {"n": 65}, {"capacity": 15}, {"count": 17}, {"cutoff": NAN}:
        run = small()
        run.with_header(**change)
        run.run(EVERY_KIND, room=ROOM)


def weights():
    """Only a weight is bad."""
    for weight in ABOVE_1024, 1 << 63 | 1, 0x7FF8000000000000, 0x7FF0000000000000:
        run = with_word(0, weight)
        run.run(EVERY_KIND, room=ROOM)
        run.run(EVERY_KIND[1:], room=ROOM, stop=True)


def two_of(weight):
    """Live and lost at qubit 0, with this weight each."""
    run = small()
    run.call(loss(0.5, 0))
    run.put(0, bits_of(weight))
    run.put(23, bits_of(weight))
    return run


def lifted():
    """Two weights are merged to one above 1024: all but weights is sound and known to be, and yet every call after it gives 5."""
    both_ways(lambda: two_of(1000.0), [h(1), reset(0), *EVERY_KIND], room=ROOM)
    both_ways(lambda: two_of(1024.0), [page, loss(0.5, 0), h(9), *EVERY_KIND], room=ROOM)
    # 1024 itself is accepted
    both_ways(lambda: two_of(512.0), [reset(0), *EVERY_KIND], room=ROOM)


def main():
    text.fill(20 * ROOM, 120)
    refusals()
    refused_first()
    without_shown_words()
    lengths()
    kinds()
    unsound()
    weights()
    lifted()
    more_room()
