"""Every number that each call on a sum can give, the limits and their neighbours, and the traps."""

from second import MOST_COEFFICIENTS, WORD, float_of
from telling import *

NAN, INFINITE = float_of(0x7FF8000000000000), float_of(0x7FF0000000000000)
BELOW_0, MINUS_0 = float_of(0x8000000000000001), -0.0
ABOVE_1 = float_of(0x3FF0000000000001)
ABOVE_1024 = 0x4090000000000001


def small(capacity, threshold=0.5, cutoff=0.0):
    """n 2, K 2: 23 words an entry, coefficients from word 5 on, rows from word 11 on."""
    return Sum(2, 2, capacity, threshold, cutoff)


def four(capacity):
    """Four entries of equal rows, by Pauli."""
    run = small(capacity)
    run.call(pauli(0.25, 0.125, 0.125, 0))
    return run


# What is wrong with the sum, for every call.


def with_word(call, at, v):
    run = small(4)
    run.put(at, v)
    run.call(call)


def with_count(call, count):
    run = small(4)
    run.with_count(count)
    run.call(call)


def with_bounds(call, threshold, cutoff):
    run = small(4)
    run.with_bounds(threshold, cutoff)
    run.call(call)


def with_size(call, n, k, capacity):
    run = small(4)
    run.with_size(n, k, capacity)
    run.call(call)


def with_length(call, length):
    run = small(4)
    run.with_length(length)
    run.call(call)


def sums_judged(call):
    for n, k, capacity in (0, 2, 4), (65, 2, 4), (2, 0, 4), (2, MOST_COEFFICIENTS + 1, 4), (2, 2, 0), (2, 2, 257), (WORD, 2, 4), (2, 2, 3):
        with_size(call, n, k, capacity)
    with_length(call, 91)
    with_length(call, 93)
    for count in 5, WORD:
        with_count(call, count)
    for bound in NAN, INFINITE, BELOW_0, MINUS_0:
        with_bounds(call, bound, 0.0)
        with_bounds(call, 0.5, bound)


def words_judged(call):
    # weight 1024, the next above, -0.0, below 0, NaN
    for weight in 0x4090000000000000, ABOVE_1024, 1 << 63, (1 << 63) + 1, 0x7FF8000000000000:
        with_word(call, 0, weight)
    # loss bit n; wrong keys; coefficient count K, K + 1; infinite and NaN parts; an unused place
    for at, v in (1, 4), (2, 77), (3, 77), (4, 2), (4, 3), (6, 0x7FF0000000000000), (7, 0xFFF8000000000001), (8, 1), (10, 1 << 63):
        with_word(call, at, v)
    # x, z and phase of the last row; the words past the count
    for at, v in (20, 3), (20, 4), (21, 4), (22, 3), (22, 4), (23, 1), (91, 1):
        with_word(call, at, v)


def every_call_judges():
    calls = [
        pauli(0.25, 0.125, 0.125, 0),
        loss(0.5, 1),
        depolarizing(0.75, 1),
        pairs(0.0, 3, 0.5, 0, 1),
        depolarize2(0.5, 0, 0),
        reset(1),
        h(0),
        s(1),
        cnot(1, 0),
        truncate,
        normalise,
        table(2),
        pick(0),
        sheet,
        view(0),
    ]
    for call in calls:
        sums_judged(call)
        words_judged(call)


# The lowest number that applies: 1 with 2, 3, 4, 5; then 2 with 3, 4, 5; and so on.


def lowest(worst, bad_rate, good):
    run = small(1)
    run.put(0, ABOVE_1024)
    run.with_size(2, 2, 2)
    run.with_count(3)
    run.call(worst)
    run.with_size(2, 2, 1)
    run.call(worst)
    run.with_count(1)
    run.call(worst, bad_rate, good)


def lowest_numbers():
    lowest(pauli(0.0, NAN, 0.0, 2), pauli(0.0, NAN, 0.0, 1), pauli(0.5, 0.0, 0.0, 1))
    lowest(loss(NAN, 2), loss(NAN, 1), loss(0.5, 1))
    lowest(depolarizing(2.0, 2), depolarizing(2.0, 1), depolarizing(0.5, 1))
    lowest(pairs(0.0, 9, NAN, 2, 0), pairs(0.0, 9, NAN, 1, 0), pairs(0.0, 9, 0.5, 1, 0))
    lowest(depolarize2(NAN, 0, 2), depolarize2(NAN, 0, 1), depolarize2(0.5, 0, 1))
    lowest(reset(2), reset(1), reset(0))
    lowest(cnot(0, 0), cnot(0, 1), cnot(1, 0))
    lowest(view(1), view(0), view(WORD))


# Qubits n - 1, n and the largest word, on a fresh and on an empty sum.


def on_both(call):
    small(16).call(call)
    run = small(16, 0.5, 1.0)
    run.with_bounds(0.5, 0.0)
    run.call(call)


def qubits():
    for q in 1, 2, 64, WORD:
        for call in pauli(0.25, 0.125, 0.0625, q), loss(0.25, q), depolarizing(0.3, q), reset(q), h(q), s(q):
            on_both(call)
    for a, b in (0, 1), (1, 0), (1, 1), (2, 0), (0, 2), (2, 2), (WORD, 1):
        for call in rising_pairs(0.0078125, a, b), depolarize2(0.5, a, b), cnot(a, b):
            on_both(call)


# Rates, and totals of rates.


def rate(p):
    for call in pauli(p, 0.0, 0.0, 0), pauli(0.0, p, 0.0, 0), pauli(0.0, 0.0, p, 0), loss(p, 0), depolarizing(p, 0):
        on_both(call)
    for at in 0, 7, 14:
        on_both(pairs(0.0, at, p, 0, 1))
    on_both(depolarize2(p, 0, 1))


def rates():
    for p in NAN, INFINITE, BELOW_0, MINUS_0, 1.0, ABOVE_1:
        rate(p)
    # three rates: a total of 1; 2^-53 more, which is rounded away; 2^-52 more
    on_both(pauli(0.5, 0.25, 0.25, 0))
    on_both(pauli(0.5, 0.5, float_of(0x3CA0000000000000), 0))
    on_both(pauli(0.5, 0.5, float_of(0x3CB0000000000000), 0))
    on_both(pauli(float_of(0x3CB0000000000000), 1.0, 0.0, 0))
    # 15 rates: fifteenths; a total of 1 in the fold though above 1 exactly; above 1 in the fold though below exactly
    on_both(pairs(1.0 / 15.0, 0, 1.0 / 15.0, 0, 1))
    on_both(pairs(0.04, 14, 0.44, 0, 1))
    on_both(pairs(0.02, 0, 0.72, 0, 1))
    on_both(rising_pairs(1.0 / 120.0, 1, 0))
    on_both(rising_pairs(1.0 / 119.0, 1, 0))


# Numbers 6 and 9.


def five(run, p):
    """All five channels with the one rate."""
    run.call(pauli(p, 0.0, 0.0, 0), loss(p, 0), depolarizing(p, 1), pairs(0.0, 14, p, 0, 1), depolarize2(p, 1, 0))


def no_room():
    run = small(1)
    five(run, 0.5)
    # no branch is above the cutoff
    five(run, 0.0)


def full_store():
    run = four(4)
    # all merge
    run.call(pauli(0.25, 0.125, 0.125, 0), depolarize2(0.3, 0, 0), rising_pairs(0.001, 0, 0))
    # some merge, the others are dropped
    run.call(pairs(0.0, 0, 0.5, 1, 0), loss(0.0, 0))
    # no room but for the first
    five(run, 0.3)
    run.call(rising_pairs(0.001, 0, 1))
    # three places: four entries don't fit, three do
    small(3).call(pauli(0.25, 0.125, 0.125, 0), pauli(0.25, 0.125, 0.0, 0))


def no_total(weight):
    run = small(4, 0.5, 0.5)
    run.put(0, weight)
    run.with_bounds(0.5, 1.0)
    run.call(pauli(0.5, 0.5, 0.0, 0))
    five(run, 1.0)


def depolarized_whole():
    # thirds add up to 1, fifteenths to a little less
    small(4, 0.5, 0.5).call(depolarizing(1.0, 0), depolarize2(1.0, 0, 1))
    small(16).call(depolarizing(1.0, 0), depolarizing(1.0, 0))
    small(16).call(depolarize2(1.0, 0, 1), depolarize2(1.0, 1, 0))


def parts():
    # a third of this rate isn't the rate times a third, nor a fifteenth the rate times a fifteenth
    small(16).call(depolarizing(0.011, 0), depolarizing(0.011, 0), depolarize2(0.011, 0, 1), depolarize2(0.011, 1, 0))


# The flag and the keys.


def dirty():
    run = small(4)
    run.call(h(0), pauli(0.25, 0.125, 0.125, 0), s(1), cnot(0, 1), h(1))
    # refused with 6 and with 9: keys and flag stay
    run.call(loss(0.5, 0), depolarize2(0.5, 0, 1))
    run.with_bounds(0.5, 1.0)
    run.call(loss(1.0, 0), loss(1.0, 1))
    # the keys move, the flag stays
    run.with_bounds(0.5, 0.2)
    run.call(normalise, truncate)
    # nothing is lost, but keys are rebuilt
    run.call(reset(0), s(0), loss(0.25, 0), h(0), reset(0))


def wrong_keys():
    # an entry that is not found, so that alike entries are listed
    run = four(16)
    run.put(25, 77)
    run.call(pauli(0.25, 0.125, 0.0625, 0), depolarize2(0.1, 0, 0), loss(0.0, 0), reset(0))
    # one that is tested in vain, its key being that of its neighbour
    run = four(16)
    run.put(3, run.words[26])
    run.call(pauli(0.25, 0.125, 0.0625, 0))
    # the halves exchanged: the full key is the same
    run = four(16)
    halves = run.words[25:27]
    run.put(25, halves[1])
    run.put(26, halves[0])
    run.call(pauli(0.25, 0.125, 0.0625, 0))
    # a loss word that is not the one of the key: entries that differ in it alone are tested, and are not alike
    run = small(16)
    run.call(loss(0.5, 0))
    run.put(24, 2)
    run.call(loss(0.5, 0))


# Weights.


def above_1024():
    run = small(4)
    run.call(loss(0.5, 0))
    run.put(0, 0x408F400000000000)
    run.put(23, 0x408F400000000000)
    run.call(reset(0), normalise, truncate, pauli(0.0, 0.0, 0.0, 0), reset(0), h(0), depolarize2(0.0, 0, 1))
    run = small(4)
    run.call(loss(0.5, 0))
    run.put(0, 0x4090000000000000)
    run.put(23, 0x4090000000000000)
    run.call(loss(0.5, 0), loss(0.5, 0), s(0))


def no_branch():
    run = small(4)
    run.call(pauli(0.25, 0.0, 0.0, 1), loss(1.0, 0), s(1))
    run.with_bounds(0.5, 0.25)
    run.call(pauli(0.1, 0.1, 0.1, 0), h(1), depolarize2(0.5, 0, 1), h(1), rising_pairs(0.001, 1, 0), loss(1.0, 0))


def cutoff_met():
    small(4, 0.5, 0.25).call(pauli(0.25, 0.25, 0.25, 0))
    run = small(4)
    run.call(pauli(0.25, 0.125, 0.0625, 0))
    run.with_bounds(0.5, 0.125)
    run.call(truncate, truncate)
    run.with_bounds(0.5, 1.0)
    run.call(truncate)
    on_empty(run)


def on_empty(run):
    run.call(normalise, truncate, h(0), normalise, truncate, loss(0.5, 0), cnot(0, 1), reset(1))


def lowered_by_normalising():
    # a branch is stored, another dropped; normalising takes the first under the cutoff, so truncate normalises again
    run = small(4, 0.5, 0.25)
    run.put(0, 0x4010000000000000)
    run.call(pauli(0.1, 0.05, 0.01, 0))
    # a branch of rate 0 is dropped, and the weight of 0.5 becomes 1
    run = small(4)
    run.put(0, 0x3FE0000000000000)
    run.call(loss(0.0, 0))


def all_weights(run, weights):
    for i, weight in enumerate(weights):
        run.put(23 * i, weight)


def emptied():
    # every branch merges and every weight is 0: no normalise, and truncate takes all
    run = four(4)
    all_weights(run, [1, 1, 1, 1])
    run.call(pauli(0.5, 0.5, 0.0, 0))
    on_empty(run)


def four_weights(a, b, c, d):
    run = four(4)
    all_weights(run, [a, b, c, d])
    run.call(normalise)
    run.with_bounds(0.5, 0.2)
    run.call(truncate)


def normalised():
    # 0.1, 0.2, 0.3, 0.7; with 0, -0.0 and the least; all 0; all -0.0
    four_weights(0x3FB999999999999A, 0x3FC999999999999A, 0x3FD3333333333333, 0x3FE6666666666666)
    four_weights(0, 1 << 63, 1, 0x3FF0000000000000)
    four_weights(1, 2, 0, 0x4090000000000000)
    four_weights(0, 0, 0, 0)
    four_weights(1 << 63, 1 << 63, 1 << 63, 1 << 63)


# Likeness.


def thresholds():
    # 0, one whose square is 0, the least with a square above 0, one whose square is infinite
    for threshold in 0.0, 1e-170, 1e-150, 1e200:
        run = small(16, threshold)
        run.call(pauli(0.25, 0.125, 0.125, 0), pauli(0.25, 0.125, 0.125, 0), pauli(0.1, 0.1, 0.1, 0))
    # no coefficients: alike for every threshold
    run = small(16, 0.0)
    run.put(4, 0)
    run.put(6, 0)
    run.call(pauli(0.25, 0.125, 0.125, 0), pauli(0.25, 0.125, 0.125, 0))


def two_values(first, last):
    # both at index 0
    run = small(16)
    run.put(4, 2)
    run.put(6, first)
    run.put(9, last)
    run.call(depolarize2(0.3, 0, 0), pauli(0.1, 0.2, 0.3, 0))


def live_and_lost(index, value, other_index, other_value):
    """The coefficient of a live entry, and of one that is lost and comes back to it."""
    run = small(4)
    run.call(loss(0.5, 0))
    for at, v in (5, index), (6, value), (28, other_index), (29, other_value):
        run.put(at, v)
    run.call(reset(0))


def last_counts(first, last):
    """Two coefficients of a live entry, 1 at index 0 and 0.25 at 5; and of one that comes back to it, both at index 0."""
    run = small(4)
    run.call(loss(0.5, 0))
    for at, v in (4, 2), (8, 5), (9, 0x3FD0000000000000), (27, 2), (29, first), (32, last):
        run.put(at, v)
    run.call(reset(0))


def coefficients():
    # 5 and 1; 1 and 1.25: the last one counts, and each is compared
    two_values(0x4014000000000000, 0x3FF0000000000000)
    two_values(0x3FF0000000000000, 0x3FF4000000000000)
    last_counts(0x4014000000000000, 0x3FF0000000000000)
    last_counts(0x3FF0000000000000, 0x4014000000000000)
    # 0.25 at 7 listed and 10^9 at 9 coming: alike; the other way round: not
    live_and_lost(7, 0x3FD0000000000000, 9, 0x41CDCD6500000000)
    live_and_lost(9, 0x41CDCD6500000000, 7, 0x3FD0000000000000)
    # 1 and 1.5: the threshold met exactly; 1 and the float before 1.5; the largest and its opposite
    live_and_lost(0, 0x3FF0000000000000, 0, 0x3FF8000000000000)
    live_and_lost(0, 0x3FF0000000000000, 0, 0x3FF7FFFFFFFFFFFF)
    live_and_lost(WORD, 0x7FEFFFFFFFFFFFFF, WORD, 0xFFEFFFFFFFFFFFFF)
    live_and_lost(WORD, 0, WORD, 1 << 63)


# Rows, resets and gates.


def every_row(run):
    """Four entries of four rows: x and z at qubit 0 by the entry, at qubit 1 by the row, four different phases."""
    for e in range(4):
        for r in range(4):
            at = 23 * e + 11 + 3 * r
            run.put(at, e % 2 + 2 * (r % 2))
            run.put(at + 1, e // 2 + 2 * (r // 2))
            run.put(at + 2, e ^ r)


def gates():
    run = four(4)
    every_row(run)
    run.call(h(0), s(0), h(1), s(1), cnot(0, 1), h(0), cnot(1, 0), s(1), cnot(0, 1), h(1), cnot(1, 0))
    run.call(normalise, reset(0), cnot(0, 1))
    # an entry that has lost both is passed over
    run.put(1, 3)
    run.call(h(0), s(1), cnot(0, 1))


def any_rows():
    run = four(16)
    every_row(run)
    run.call(h(0), pauli(0.1, 0.2, 0.3, 0))
    run = small(16)
    # one entry more than there is: a slot of zeros, which no Pauli changes
    run.with_count(2)
    run.call(h(0), pauli(0.1, 0.2, 0.3, 0), rising_pairs(0.001, 0, 1))


def back():
    # lost and merged back; lost and unmatched, with a weight at the cutoff; a live weight of 0 stays
    run = small(4)
    run.call(pauli(0.25, 0.0, 0.0, 0), loss(0.25, 1), reset(1), loss(1.0, 1))
    run.put(1, 0)
    run.put(0, 0)
    run.with_bounds(0.5, 0.25)
    run.call(h(0), reset(1))


def resets():
    back()
    for losses in (0, 1, 1, 1), (1, 1, 1, 0), (1, 2, 0, 3), (3, 1, 2, 3), (1, 1, 1, 1):
        run = four(4)
        run.call(s(1))
        for e, lost in enumerate(losses):
            run.put(23 * e + 1, lost)
        run.call(reset(0), reset(1))


def lost_at_either():
    run = small(64)
    run.call(loss(0.5, 0), loss(0.25, 1), depolarize2(0.3, 0, 1), rising_pairs(0.002, 1, 0), pairs(0.0, 6, 1.0, 0, 1))


def main():
    text.fill(640, 120)
    every_call_judges()
    lowest_numbers()
    qubits()
    rates()
    no_room()
    full_store()
    no_total(0x3FF0000000000000)
    no_total(1)
    depolarized_whole()
    parts()
    dirty()
    wrong_keys()
    above_1024()
    no_branch()
    cutoff_met()
    lowered_by_normalising()
    emptied()
    normalised()
    thresholds()
    coefficients()
    gates()
    any_rows()
    resets()
    lost_at_either()
