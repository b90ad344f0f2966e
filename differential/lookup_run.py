"""What crates/lookup_run is given, and what it must write: values looked up among coefficients (document 02, request 3)."""

import itertools
import random

from second import MOST_COEFFICIENTS, WORD, bits_of, looked_up
from telling import give, given, numbers

# A case, as crates/lookup_run has it.
CASE = 33

places = itertools.count(1)


def look_up(index, counted, unused=()):
    """A case: coefficients that are counted, and those in places behind them, which are not read, whatever they hold."""
    flat = [part for coefficient in (*counted, *unused) for part in coefficient]
    give(CASE, len(counted), index, len(counted) + len(unused), *flat)
    (re, im), read = looked_up(counted, index)
    print(f" {next(places)}: value{numbers([bits_of(re), bits_of(im)])}, read {read}")


def values(indices):
    """Coefficients with these indices, each with a value of its own."""
    return [(index, 1.0 + j, -0.5 - j) for j, index in enumerate(indices)]


def one_list():
    """No coefficient; one, hit and missed; places that are not counted have the index, or are 0 and it is 0."""
    for unused in [], [(0, 0.0, 0.0)], values([0]), values([7, 0, 7]):
        look_up(0, [], unused)
        look_up(7, [], unused)
        for index in 0, 6, 7, 8, WORD:
            look_up(index, values([7]), unused)
            look_up(index, values([0]), unused)


def hits():
    """The hit first, in the middle, last from the far end, and none; indices that rise, fall, are mixed, at both ends of the words."""
    for indices in [1, 2, 3, 4], [4, 3, 2, 1], [3, 1, 4, 2], [0, WORD, 1, WORD - 1]:
        for index in 0, 1, 2, 3, 4, 5, WORD - 1, WORD:
            look_up(index, values(indices))
            look_up(index, values(indices), values([index]))


def repeated():
    """Repeated indices: next to each other, apart, thrice, at both ends; the last value is one of every sign of 0, or the least."""
    for indices in [5, 5], [5, 5, 6], [5, 6, 5], [6, 5, 5], [5, 5, 5], [5, 6, 6, 5], [6, 5, 5, 6], [5, 6, 5, 6]:
        for index in 5, 6, 7:
            look_up(index, values(indices))
    for last in (0.0, 0.0), (-0.0, -0.0), (5e-324, -5e-324), (1.7976931348623157e308, -1.7976931348623157e308):
        look_up(5, [(5, 1.0, 2.0), (6, 3.0, 4.0), (5, *last), (6, 5.0, 6.0)])


def limits():
    """As many as can be: counts K - 1 and K; the same index K times; the hit at either end, beside it, and none."""
    most = MOST_COEFFICIENTS
    rising = values(range(most))
    for counted in most - 1, most:
        for index in 0, 1, 2, 11, most - 2, most - 1, most:
            look_up(index, rising[:counted], rising[counted:])
    for k in 1, 2, 3, 16, most:
        same = values([9] * k)
        look_up(9, same)
        look_up(8, same)
        look_up(9, same[:-1], same[-1:])


def at_random():
    draw = random.Random(3)
    for _ in range(300):
        k = draw.choice([1, 2, 3, 4, 6, 8, 12, 16])
        indices = draw.choice([2, 3, k, 2 * k, WORD])
        coefficients = [(draw.randrange(indices), draw.gauss(0, 1), draw.gauss(0, 1)) for _ in range(k)]
        counted = draw.randrange(k + 1)
        index = draw.choice([draw.randrange(indices), draw.choice(coefficients)[0]])
        look_up(index, coefficients[:counted], coefficients[counted:])


def main():
    one_list()
    hits()
    repeated()
    limits()
    at_random()
