"""The marked runs a to j: after each call the entries, one on a line."""

from telling import *

# n 1, K 1: 14 words an entry.
LENGTH = 14


class Shown(Sum):
    def begin(self, *given):
        super().begin(*given)
        self.show(LENGTH * self.header.count, LENGTH)

    def make(self, call):
        super().make(call)
        self.show(LENGTH * self.header.count, LENGTH)


def begin(name, capacity=8, cutoff=0.0):
    title(name)
    return Shown(1, 1, capacity, 0.5, cutoff)


def four(name):
    """A, B, C, D with phases 00, 02, 22, 20 and weight 0.25; a lost one is marked by its loss word, the keys by the flag."""
    run = begin(name)
    run.call(pauli(0.25, 0.25, 0.25, 0))
    run.with_flag(True)
    return run


def main():
    run = begin("a")
    run.call(pauli(0.25, 0.125, 0.125, 0))
    title("b")
    run.call(pauli(0.25, 0.0, 0.0, 0))
    begin("c").call(pauli(0.0, 0.0, 0.0, 0))
    begin("d", cutoff=0.25).call(pauli(0.25, 0.0, 0.0, 0))
    begin("e").call(loss(1.0, 0), loss(1.0, 0))
    begin("f", capacity=1).call(loss(1.0, 0))
    channels = [pauli(0.25, 0.0, 0.0, 0), loss(1.0, 0), depolarizing(0.5, 0), pairs(0.0, 4, 0.5, 0, 0), depolarize2(0.5, 0, 0)]
    begin("g", cutoff=1.0).call(*channels)
    run = four("h")
    run.put(1, 1)
    run.call(reset(0))
    run = four("i")
    run.put(15, 1)
    run.put(43, 1)
    run.call(reset(0))
    run = begin("j")
    run.put(0, 1)
    run.call(pauli(0.5, 0.5, 0.0, 0))
