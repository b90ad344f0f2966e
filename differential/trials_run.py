"""What crates/trials_run is given, and what it must write: cutoffs tried on channel steps (document 02, request 2)."""

import itertools
import math
import random

import second
from second import MOST_COEFFICIENTS, WORD, entry_length, float_of
from telling import *

# A case, as crates/trials_run has it: an item, and its steps behind it.
CASE = 32
# What every word that is lent is beforehand.
LENT = 0x5555555555555555
CHANNELS = {PAULI: second.pauli, LOSS: second.loss, DEPOLARIZING: second.depolarizing}
NAN, INF = math.nan, math.inf
BELOW_ONE, ABOVE_ONE = math.nextafter(1.0, 0.0), math.nextafter(1.0, 2.0)

places = itertools.count(1)


def tried(cutoffs, steps, n, k, capacity, threshold, words, room):
    """What the second program gives, on words that were lent."""
    calls = [(CHANNELS[step.kind], step.rates, step.p) for step in steps]
    return second.try_cutoffs(n, k, capacity, threshold, cutoffs, calls, [LENT] * words, room)


def try_cutoffs(cutoffs, steps, n=2, k=1, capacity=8, threshold=0.5, words=None, room=None):
    """A case. Its store and its output are as long as they need to be, or as said."""
    words = capacity * entry_length(n, k) if words is None else words
    room = 2 * len(cutoffs) * len(steps) if room is None else room
    give(CASE, n, k, capacity, threshold, words, room, len(steps), len(cutoffs), *cutoffs)
    for step in steps:
        give(step.kind, step.p, step.q, *step.rates)
    tell(len(steps), *tried(cutoffs, steps, n, k, capacity, threshold, words, room))


def tell(steps, a, shown):
    """Words are counted that are not as they are to be: there are none."""
    record = record_of(a, Shown(0, len(shown), shown))
    line = f" {next(places)} gives{numbers(record[:9])}, header{numbers(header_words(a.header))}"
    if a.number:
        print(f"{line}, changed 0 0")
        return
    print(f"{line}, behind 0 0, one by one 0 0 0")
    length = entry_length(a.header.n, a.header.k)
    for words, width in (shown, 2 * steps), (a.words[: a.header.count * length], length):
        for i in range(0, len(words), width):
            print(numbers(words[i : i + width]))


FEW = [loss(0.25, 0), pauli(0.1, 0.05, 0.02, 1), depolarizing(0.3, 0)]


def counted():
    """How many cutoffs and steps: the limits and their neighbours."""
    eight = [0.0, 0.001, 0.004, 0.01, 0.02, 0.05, 0.1, 0.3]
    for cutoffs in [], [0.01], eight, [*eight, 0.4]:
        try_cutoffs(cutoffs, FEW, capacity=32)
    many = [(loss(0.01, i % 2), pauli(0.02, 0.0, 0.01, i % 2), depolarizing(0.03, i % 2))[i % 3] for i in range(65)]
    for steps in many[:0], many[:1], many[:64], many:
        try_cutoffs([0.001, 0.01], steps, capacity=64)
    # both at their limits, and one of them above
    try_cutoffs(eight, many[:64], capacity=64)
    try_cutoffs([*eight, 0.4], many[:64], capacity=64)
    try_cutoffs(eight, many, capacity=64)
    try_cutoffs([], [])


def faults():
    """1, 11, 2 and 8, and two of them together."""
    many = [loss(0.01, 0)] * 65
    short, room = dict(words=39, capacity=2), dict(room=0)
    # 1 alone: a store one word short, one word long, none; each size past its limits
    for words in 39, 41, 0:
        try_cutoffs([0.1], FEW, capacity=2, words=words)
    for n, k, capacity in (0, 1, 1), (65, 1, 1), (1, 0, 1), (1, MOST_COEFFICIENTS + 1, 1), (1, 1, 0), (1, 1, 257):
        try_cutoffs([0.1], FEW, n, k, capacity)
    for n, k, capacity in (WORD, 1, 1), (1, WORD, 1), (1, 1, WORD):
        try_cutoffs([0.1], FEW, n, k, capacity, words=14)
    # 1 and 11
    for cutoffs, steps in ([], FEW), ([0.1] * 9, FEW), ([0.1], []), ([0.1], many):
        try_cutoffs(cutoffs, steps, **short)
    # 1 and 2, 1 and 8
    try_cutoffs([NAN], FEW, **short)
    try_cutoffs([0.1], FEW, threshold=NAN, **short)
    try_cutoffs([0.1], FEW, **short, **room)
    # 11 and 2: by the threshold, a cutoff, the ninth
    for cutoffs, steps in ([], FEW), ([0.1] * 9, FEW), ([0.1], []), ([0.1], many):
        try_cutoffs(cutoffs, steps, threshold=NAN)
    for cutoffs, steps in ([-1.0] + [0.1] * 8, FEW), ([0.1] * 8 + [NAN], FEW), ([NAN], []), ([INF], many):
        try_cutoffs(cutoffs, steps)
    # 11 and 8. (With no steps, or no cutoffs, nothing is needed.)
    try_cutoffs([0.1] * 9, FEW, **room)
    try_cutoffs([0.1], many, **room)
    try_cutoffs([0.1], many, room=128)
    # 2 and 8
    try_cutoffs([0.1, NAN], FEW, **room)
    try_cutoffs([0.1], FEW, threshold=-1.0, **room)
    # all four
    try_cutoffs([NAN] * 9, FEW, threshold=NAN, **short, **room)
    # beside steps that a trial would refuse
    bad = [loss(NAN, 2)]
    try_cutoffs([0.1], bad, **short)
    try_cutoffs([0.1] * 9, bad)
    try_cutoffs([NAN], bad)
    try_cutoffs([0.1], bad, room=1)


def bounds():
    for bound in NAN, INF, -INF, -1.0, float_of((1 << 63) + 1):
        try_cutoffs([bound, 0.01], FEW)
        try_cutoffs([0.01, bound], FEW)
        try_cutoffs([0.01], FEW, threshold=bound)
    try_cutoffs([0.01] * 7 + [NAN], FEW)
    # accepted: 0 and -0.0, as the last; the least and the largest; about 1, where the fresh sum is empty
    for cutoff in 0.0, -0.0, 5e-324, 1.7976931348623157e308, BELOW_ONE, 1.0, ABOVE_ONE, 7.0:
        try_cutoffs([0.01, cutoff], FEW, capacity=32)
        try_cutoffs([cutoff, 0.01], FEW, capacity=32)
    for threshold in 0.0, -0.0, 1.7976931348623157e308:
        try_cutoffs([0.0], FEW, threshold=threshold, capacity=32)
    # an empty sum refuses as well
    try_cutoffs([1.0, 2.0], [loss(0.5, 0), loss(0.5, 2), pauli(0.1, 0.1, 0.1, 0)])
    try_cutoffs([1.0], [loss(1.5, 1), loss(0.5, 0)])


def outputs():
    """Exact, one word short, longer."""
    for room in 11, 12, 13, 40:
        try_cutoffs([0.01, 0.1], FEW, capacity=32, room=room)
    for room in 0, 1, 2, 3:
        try_cutoffs([0.01], FEW[:1], room=room)


def with_step(bad, place):
    return FEW[:place] + [bad] + FEW[place:]


def refused_steps():
    # 3 as the first, a middle and the last step; far past n
    for place in 0, 1, 3:
        try_cutoffs([0.0, 0.1], with_step(loss(0.1, 2), place), capacity=32, room=20)
    for q in 63, 64, WORD:
        try_cutoffs([0.0], with_step(depolarizing(0.1, q), 1), capacity=32)
    # 4: NaN, below 0, above 1, their sum above 1; a sum of 1 and a rate of -0.0 are none
    for rates in (NAN, 0.0, 0.0), (0.0, NAN, 0.0), (0.0, 0.0, -0.1), (INF, 0.0, 0.0), (0.5, 0.5, 0.1), (0.5, 0.25, 0.25), (-0.0, 0.1, -0.0):
        try_cutoffs([0.0, 0.01], with_step(pauli(*rates, 1), 2), capacity=32)
    for rate in NAN, -0.25, ABOVE_ONE, INF, 1.0, -0.0, BELOW_ONE:
        try_cutoffs([0.0, 0.01], with_step(loss(rate, 1), 1), capacity=32)
        try_cutoffs([0.0, 0.01], with_step(depolarizing(rate, 1), 1), capacity=32)
    # the first refusal stands in all places that follow, whatever their steps are; 3 before 4
    try_cutoffs([0.0, 0.5], [FEW[0], loss(2.0, 0), loss(0.1, 2), FEW[1]])
    try_cutoffs([0.0, 0.5], [FEW[0], loss(0.1, 2), loss(2.0, 0), FEW[1]])
    try_cutoffs([0.0, 0.5], [FEW[0], loss(2.0, 2), FEW[1]])


def full_and_empty():
    # 9: nothing is left that could be normalised; in every trial, in one of them
    nine = [loss(0.0, 0), depolarizing(1.0, 0), loss(0.1, 1)]
    for cutoffs in [0.5], [0.5, 0.5], [0.5, 0.1], [0.1, 0.5], [0.1, 0.5, 0.2], [1 / 3, 0.34]:
        try_cutoffs(cutoffs, nine)
    try_cutoffs([0.5], [depolarizing(1.0, 0)])
    # 6: room for one entry; for as many as a trial has but for one, by its cutoff
    six = [loss(0.0, 0), pauli(0.1, 0.0, 0.0, 0), loss(0.1, 1)]
    for cutoffs in [0.0], [0.0, 0.2], [0.2, 0.0], [0.2, 0.15]:
        try_cutoffs(cutoffs, six, capacity=1)
    # 3, 6 and 9 in one call
    mixed = [loss(0.4, 0), depolarizing(1.0, 1), loss(0.2, 0), loss(0.1, 2)]
    for capacity in 1, 2, 4, 7, 8:
        try_cutoffs([0.0, 0.19, 0.21, 0.5, 0.9], mixed, capacity=capacity)


def sizes():
    try_cutoffs([0.0, 0.1], [loss(0.2, 0), depolarizing(0.4, 0), pauli(0.1, 0.2, 0.3, 0)], n=1)
    try_cutoffs([0.0, 0.02], [*FEW, loss(0.1, 2), pauli(0.0, 0.1, 0.1, 2)], n=3, capacity=100)
    far = [loss(0.1, 63), pauli(0.1, 0.05, 0.02, 0), depolarizing(0.3, 63), loss(0.1, 64), loss(0.1, 1)]
    for steps in far[:3], far:
        try_cutoffs([0.06, 0.02], steps, n=64, capacity=16)
    # K 2, and at its limit
    try_cutoffs([0.05, 0.0], FEW, k=2, capacity=30)
    try_cutoffs([0.05, 0.0], FEW, n=1, k=MOST_COEFFICIENTS, capacity=8)
    try_cutoffs([0.01], FEW[:1], n=64, k=MOST_COEFFICIENTS, capacity=2)
    # the largest capacity, and a sum that outgrows it at the smallest cutoff
    steps = [channel for q in range(3) for channel in (depolarizing(0.2 + q / 10, q), loss(0.3, q))]
    try_cutoffs([0.01, 0.0], [*steps, loss(0.1, 0)], n=3, capacity=256)


def some_steps(r, n):
    """Now and then one that is refused."""
    q = lambda: r.randrange(n) if r.random() < 0.99 else n
    small = lambda most: r.choice([0.0, most, most * r.random()])
    kinds = [
        lambda: pauli(small(0.2), small(0.2), small(0.2), q()),
        lambda: loss(small(0.3), q()),
        lambda: depolarizing(small(0.4) if r.random() < 0.98 else 1.5, q()),
    ]
    return [r.choice(kinds)() for _ in range(r.randrange(3, 16))]


def ends(shown, trials):
    """How many entries the trials have at their end that were not refused."""
    width = len(shown) // trials
    last = [shown[i : i + 2] for i in range(width - 2, len(shown), width)]
    return {entries for number, entries in last if number == 0}


def at_random():
    """Cutoffs that lead to different counts."""
    r = random.Random(2)
    cases = 0
    while cases < 48:
        n, k, capacity = r.choice([1, 2, 2, 3, 3, 4, 7]), r.choice([1, 1, 2, 3]), r.choice([12, 24, 40, 100])
        steps = some_steps(r, n)
        cutoffs = [r.choice([0.0, 0.3, 0.1]) * r.random() ** 2 for _ in range(r.randrange(2, 9))]
        words, room = capacity * entry_length(n, k), 2 * len(steps) * len(cutoffs)
        _, shown = tried(cutoffs, steps, n, k, capacity, 0.5, words, room)
        if len(ends(shown, len(cutoffs))) > 1:
            try_cutoffs(cutoffs, steps, n, k, capacity, room=room + r.randrange(3))
            cases += 1


def coefficients():
    """K at its limit (document 02, request 4), one above it, and 64, each with a store that fits."""
    for k in MOST_COEFFICIENTS, MOST_COEFFICIENTS + 1, 64:
        try_cutoffs([0.05, 0.0], FEW, k=k, capacity=30)


def main():
    for cases in counted, faults, bounds, outputs, refused_steps, full_and_empty, sizes, at_random, coefficients:
        cases()
