"""Document 02, request 5: H, S and CNOT pass over the entries that have lost one of their qubits; the keys are marked all the same."""

from second import entry_length
from telling import *

ENTRY = entry_length(3, 1)
GATES = [h(0), s(0), h(1), s(1), cnot(0, 1), cnot(1, 0), cnot(1, 2), h(2), cnot(2, 0)]
# Channels whose branches meet one another and, once reset, what was live.
MERGING = [pauli(0.25, 0.125, 0.125, 0), pauli(0.125, 0.25, 0.125, 1), pauli(0.25, 0.0, 0.25, 2), pauli(0.125, 0.125, 0.125, 0)]


def entangled(capacity=256, cutoff=0.0):
    """Three atoms whose x, z and phases differ from row to row."""
    run = Sum(3, 1, capacity, 0.5, cutoff)
    run.call(h(0), cnot(0, 1), s(1), h(2), cnot(2, 1), s(2), h(1))
    return run


def after_losses():
    """One qubit of a CNOT lost, the other one, both, the third one, and all; then channels, resets, and gates again."""
    for lost in (0,), (1,), (0, 1), (2,), (0, 1, 2):
        run = entangled()
        run.call(*(loss(0.25, q) for q in lost), *GATES, *MERGING)
        run.call(*(reset(q) for q in lost), *GATES, depolarizing(0.375, lost[0]))


def every_pattern():
    """Eight entries, one for each loss pattern, with stored keys that are wrong: each gate turns those that it may and leaves the keys."""
    run = entangled()
    run.call(pauli(0.25, 0.125, 0.125, 0), loss(0.5, 1))
    for place in range(8):
        run.put(place * ENTRY + 1, place)
        run.put(place * ENTRY + 2, 7)
        run.put(place * ENTRY + 3, place)
    for gate in GATES:
        run.call(gate)
        run.with_flag(False)
    run.run([*GATES, *MERGING, reset(2), *GATES, depolarize2(0.375, 0, 1), reset(0), normalise])


def all_lost():
    """Nothing is turned, and the keys, which are wrong, are marked: the next channel finds what it merges into."""
    for lost, gate in (1, h(0)), (1, s(0)), (1, cnot(0, 1)), (2, cnot(0, 1)), (3, cnot(1, 0)):
        run = entangled(16)
        run.call(pauli(0.25, 0.125, 0.125, 2))
        for place in range(4):
            run.put(place * ENTRY + 1, lost)
            run.put(place * ENTRY + 3, place)
        run.with_flag(False)
        run.call(gate, pauli(0.25, 0.125, 0.125, 2), reset(0), reset(1), gate, pauli(0.0, 0.5, 0.0, 2))


def none_listed():
    run = entangled(4, 1.0)
    run.call(truncate, pauli(0.25, 0.0, 0.0, 0), h(0), truncate, pauli(0.25, 0.0, 0.0, 0), cnot(2, 1), reset(1), s(1), normalise)


def refused():
    """Number 3 is judged by the arguments alone."""
    run = entangled(4)
    run.call(loss(1.0, 0), h(3), s(3), cnot(0, 3), cnot(3, 0), cnot(0, 0), cnot(1, 1))


def highest_qubit():
    run = Sum(64, 1, 16, 0.5, 0.0)
    run.call(h(63), cnot(63, 0), s(63), loss(0.25, 63), loss(0.25, 62), h(62), cnot(62, 63), cnot(0, 63), s(62), cnot(63, 62), cnot(62, 1))
    run.call(pauli(0.25, 0.125, 0.125, 1), pauli(0.25, 0.125, 0.125, 1), reset(63), h(63), reset(62), cnot(63, 62), loss(0.5, 0))


def main():
    text.fill(640, 120)
    after_losses()
    every_pattern()
    all_lost()
    none_listed()
    refused()
    highest_qubit()
