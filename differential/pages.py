"""Pages at the limits, and sums that are refused, written over a text of 'x'."""

from calls import sums_judged, words_judged
from second import WORD, bits_of
from telling import *

# 0 and -0.0; the least float, the largest without a leading 1, the least with one
LEAST = 0, 1 << 63, 1, 0x000FFFFFFFFFFFFF, 0x0010000000000000
# The float nearest to these decimals is below them, so that the share is one less than the product in f64, which is rounded; to those of
# the second line it is not below.
BELOW = 0.3, 0.7, 0.29, 2.3, 0.6, 0.000001, 0.000002, 0.999999
NOT_BELOW = 0.1, 0.2, 0.25, 0.5, 0.000003, 0.999997
# The floats around a millionth and around 1; the largest weight, and the one below it
EDGES = 0x3EB0C6F7A0B5ED8C, 0x3EB0C6F7A0B5ED8E, 0x3FEFFFFFFFFFFFFF, 0x3FF0000000000000, 0x3FF0000000000001
LARGEST = 0x408FFFFFFFFFFFFF, 0x4090000000000000
# Each digit in each column of the loss word, by rotating these; single bits follow.
DIGITS = 0x0123456789ABCDEF
HALF = 0x3FE0000000000000


def write(run, *rooms):
    for room in rooms:
        text.fill(room, 120)
        run.call(page)


def listed(n, weights, losses=()):
    """A sum with these weights and loss words; the other words of its entries are 0, but for the first one's."""
    run = Sum(n, 1, len(weights), 0.5, 0.0)
    length = second.entry_length(n, 1)
    for e, weight in enumerate(weights):
        run.put(e * length, weight)
    for e, loss_word in enumerate(losses):
        run.put(e * length + 1, loss_word)
    run.with_count(len(weights))
    return run


def rotated(v, by):
    return (v << by | v >> 64 - by) & WORD


def main():
    text.fill(640, 120)
    sums_judged(page)
    words_judged(page)
    # an empty list prints nothing, also into nothing
    write(Sum(1, 1, 1, 0.5, 1.0), 0, 1, 40)
    # exact, one short, none, one more
    write(Sum(1, 1, 1, 0.5, 0.0), 35, 34, 0, 36)
    weights = [*LEAST, *map(bits_of, BELOW + NOT_BELOW), *EDGES, *LARGEST]
    write(listed(3, weights), 35 * len(weights), 35 * len(weights) - 1)
    # loss words: every digit in every column, every bit, all bits
    losses = [rotated(DIGITS, 4 * i) for i in range(16)] + [1 << q for q in range(64)] + [WORD, 0]
    write(listed(64, [HALF] * len(losses), losses), 35 * len(losses))
    # places of one, two and three digits; the last entry has weight 1024
    for count in 9, 10, 99, 100, 256:
        run = Sum(1, 1, count, 0.5, 0.0)
        run.with_count(count)
        run.put((count - 1) * 14, LARGEST[1])
        write(run, 35 * count, 35 * count - 1)
    # 256 entries that calls made, each with its own loss word
    run = Sum(8, 1, 256, 0.5, 0.0)
    run.call(*(loss(0.3, q) for q in range(8)))
    write(run, 35 * 256)
    # a dirty sum, and one whose keys are wrong; before and after calls
    run = Sum(2, 1, 16, 0.5, 0.0)
    run.call(h(0), cnot(0, 1))
    write(run, 100)
    run.call(loss(0.3, 1), depolarizing(0.1, 0), page)
    text.fill(600, 120)
    run.put(2, 77)
    run.call(page, reset(1), page)
