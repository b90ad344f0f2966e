"""Tables, picks and views: ties, limits, and sums that are refused."""

from second import MOST_COEFFICIENTS, WORD, bits_of, entry_length, float_of
from telling import *

NAN = float_of(0x7FF8000000000000)

# 0, -0.0, the least; a total and its neighbours; just below 1, 1, above; infinite, below 0, NaN
DRAWS = [0, 1 << 63, 1, 0x3FD0000000000000, 0x3FD7FFFFFFFFFFFF, 0x3FD8000000000000, 0x3FD8000000000001, 0x3FE0000000000000]
DRAWS += [0x3FE6666666666666, 0x3FEFFFFFFFFFFFFF, 0x3FF0000000000000, 0x3FF0000000000001, 0x7FF0000000000000, (1 << 63) + 1]
DRAWS += [0xBFD0000000000000, 0x7FF8000000000000]


def laid(n, k, capacity, weights):
    """Entries of these weights, all other words 0."""
    run = Sum(n, k, capacity, 0.5, 1.0)
    for i, w in enumerate(weights):
        run.put(i * entry_length(n, k), w)
    run.with_bounds(0.5, 0.0)
    run.with_count(len(weights))
    return run


def small(weights):
    return laid(1, 1, 8, weights)


def many(n, k):
    """256 entries with ties, 0.0 and -0.0."""
    rest = {5: 0, 6: 1 << 63}
    return laid(n, k, 256, [rest.get(i * 53 % 97, 0x3F50000000000000 + i * 53 % 97 * 0x300000000001) for i in range(256)])


def weights(*floats):
    return [bits_of(x) for x in floats]


def tables():
    rising = weights(0.1, 0.2, 0.3, 0.4, 0.5, 0.6, 0.7, 0.8)
    small(weights(0.25, 0.5, 0.25, 0.5, 0.25)).call(table(10), table(9), table(0), table(13))
    small([0, 1 << 63, 0, 1, 1 << 63]).call(table(10))
    small([1 << 63]).call(table(2), table(3), table(1))
    small([]).call(table(0), table(2))
    small(rising).call(table(16), table(15))
    small(rising[::-1]).call(table(16), table(18))
    small(weights(0.3, 0.8, 0.1, 0.3, 0.8) + [0x3FD3333333333334] + weights(0.1)).call(table(14))
    small(weights(1024.0, 1024.0) + [1] + weights(1024.0)).call(table(8))
    small([0x4090000000000001]).call(table(2), table(1))
    small([0, 0x7FF8000000000000]).call(table(4))
    small([(1 << 63) + 1]).call(table(2))
    many(1, 1).call(table(512), table(511), table(520))
    many(64, MOST_COEFFICIENTS).call(table(512))


def picks():
    small(weights(0.25, 0.375, 0.125, 0.25)).call(*map(pick, DRAWS))
    small(weights(0.125, 0.125, 0.25)).call(*map(pick, DRAWS))
    small([0, 1 << 63, 0]).call(*map(pick, DRAWS))
    small(weights(1.0)).call(*map(pick, DRAWS))
    small([]).call(*map(pick, DRAWS))
    small(weights(0.5) + [0x4090000000000001]).call(*map(pick, DRAWS))
    many(1, 1).call(*map(pick, DRAWS))


def views():
    run = small(weights(0.25, 0.5, 0.125))
    # each entry, the first slot of zeros, past the store, the largest word
    run.call(*map(view, (0, 1, 2, 3, 8, WORD)))
    run.with_count(8)
    run.call(view(7), view(8))
    small([]).call(view(0))
    run = Sum(3, 2, 4, 0.5, 0.0)
    run.call(pauli(0.25, 0.125, 0.125, 2), h(1), *map(view, range(5)))
    many(64, MOST_COEFFICIENTS).call(view(0), view(255), view(256))


def refused(change):
    """The lowest number, with an output that is short, a draw that is NaN and a place past the count."""
    run = small([0])
    change(run)
    run.call(table(1))
    run.call(pick(0x7FF8000000000000), view(1))


def refusals():
    refused(lambda run: None)
    refused(lambda run: run.with_length(111))
    refused(lambda run: run.with_size(0, 1, 8))
    refused(lambda run: run.with_count(9))
    refused(lambda run: run.with_bounds(0.5, NAN))
    refused(lambda run: run.put(111, 1))


def main():
    Sum(1, 1, 8, 0.5, 0.0).call(table(2))
    tables()
    picks()
    views()
    refusals()
