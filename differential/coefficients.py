"""Document 02, request 4: K at its limit, one above it, and 64, the limit before; in calls, in headers made by hand, in lists, and on sheets."""

from second import MOST_COEFFICIENTS, entry_length
from sheets_read import first
from telling import *

SIZES = MOST_COEFFICIENTS, MOST_COEFFICIENTS + 1, 64

CHANNELS = [pauli(0.25, 0.125, 0.125, 0), loss(0.5, 1), depolarizing(0.75, 1), rising_pairs(0.005, 0, 1), depolarize2(0.5, 0, 0)]
CHANGING = [*CHANNELS, reset(1), h(0), s(1), cnot(1, 0), truncate, normalise]
EVERY_KIND = [*CHANGING, table(SHOWN), pick(0), sheet, view(0), page]


def by_hand(k):
    """A header made by hand, with a store of zeros that fits."""
    run = Sum(2, 1, 16, 0.5, 0.0)
    run.with_size(2, k, 16)
    run.with_length(16 * entry_length(2, k))
    return run


def in_calls():
    for k in SIZES:
        Sum(2, k, 16, 0.5, 0.0, fill=7)
        for call in EVERY_KIND:
            by_hand(k).call(call)
        by_hand(k).run(EVERY_KIND, room=16_000)


def counted():
    """At the limit: a coefficient count of K, and of K + 1."""
    for count in MOST_COEFFICIENTS, MOST_COEFFICIENTS + 1:
        for call in EVERY_KIND:
            run = Sum(2, MOST_COEFFICIENTS, 16, 0.5, 0.0)
            run.put(4, count)
            run.call(call)


def listing(k, count):
    """The sheet of an entry with so many coefficients, all the same, and a store that fits."""
    given = first().field(21, k).field(169, count).store(2 * entry_length(1, k))
    given.sheet[191:255] = given.sheet[191:255] * count
    return given


def on_sheets():
    """One coefficient, as many as the limit, one more: read; with a wrong line end; without the last line; and with a threshold below 0."""
    for k in SIZES:
        for count in 1, MOST_COEFFICIENTS, MOST_COEFFICIENTS + 1:
            listing(k, count).read()
            listing(k, count).byte(126, 13).read()
            listing(k, count).cut(127 + 64 * (2 + count)).read()
            listing(k, count).field(84, (1 << 63) + 1).read()


def main():
    text.fill(16 * 16_000, 120)
    in_calls()
    counted()
    on_sheets()
