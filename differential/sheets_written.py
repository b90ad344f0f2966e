"""Sheets at the limits, and sums that are refused, written over a text of 'x'."""

from second import MOST_COEFFICIENTS, WORD, float_of
from telling import *


def write(run, *rooms):
    for room in rooms:
        text.fill(room, 120)
        run.call(sheet)


def changed():
    """The fresh sum for n 3, K 2, capacity 4."""
    return Sum(3, 2, 4, 0.5, 0.0)


def with_word(at, value):
    run = changed()
    run.put(at, value)
    write(run, 720)


def with_bounds(threshold, cutoff):
    run = changed()
    run.with_bounds(float_of(threshold), float_of(cutoff))
    write(run, 720)


def main():
    write(Sum(1, 1, 1, 0.5, 0.0), 383, 382, 400, 0)
    # an empty sum is one line
    write(Sum(1, 1, 1, 0.5, 1.0), 127, 126)
    write(Sum(64, MOST_COEFFICIENTS, 256, 0.5, 0.0), 8447, 8446)
    # weight: 1024, the next above, the least, -0.0, below 0, NaN
    for weight in 0x4090000000000000, 0x4090000000000001, 1, 1 << 63, (1 << 63) + 1, 0x7FF8000000000000:
        with_word(0, weight)
    # loss: bit n - 1, bit n; keys are not judged; coefficient count K, K + 1
    for at, value in (1, 4), (1, 8), (2, WORD), (3, 0), (4, 2), (4, 3):
        with_word(at, value)
    # a coefficient's index, infinite and largest parts; an unused place
    for at, value in (5, WORD), (6, 0x7FF0000000000000), (7, 0x7FEFFFFFFFFFFFFF), (7, 0xFFF8000000000001), (8, 1), (10, 1 << 63):
        with_word(at, value)
    # x, z and phase of the last row; words past the count
    for at, value in (26, 7), (26, 8), (27, 8), (28, 3), (28, 4), (29, 1), (115, 1):
        with_word(at, value)
    # count: less than there is, one more than there is (a slot of zeros), capacity, above it
    for count in 0, 2, 4, 5, WORD:
        run = changed()
        run.with_count(count)
        write(run, 1300)
    with_bounds(1 << 63, 0x7FEFFFFFFFFFFFFF)
    for threshold, cutoff in (0x7FF0000000000000, 0), (0, 0xBFF0000000000000), (0, 0x7FF8000000000000):
        with_bounds(threshold, cutoff)
