"""Sheets read into a store of sevens: damaged ones of each kind, and sizes past their limits."""

import second
from second import MOST_COEFFICIENTS, WORD
from telling import *


class Read(Sum):
    """The sheet of a fresh sum, what is changed of it, and its reading."""

    def __init__(self, n, k, capacity):
        self.length = capacity * second.entry_length(n, k)
        a = second.fresh(n, k, capacity, 0.5, 0.0, [0] * self.length)
        self.sheet = bytearray(second.sheet_text(a.header, a.words).encode())

    def byte(self, at, v):
        self.sheet[at] = v
        return self

    def field(self, at, v):
        self.sheet[at : at + 21] = f"{v:>21}".encode()
        return self

    def copy(self, start, end, to):
        """The text grows, if it must, to hold the copied bytes."""
        self.sheet[to : to + end - start] = self.sheet[start:end]
        return self

    def cut(self, length):
        self.sheet = self.sheet[:length]
        return self

    def store(self, length):
        self.length = length
        return self

    def read(self):
        text.become(bytes(self.sheet))
        self.lend(self.length, 7)
        self.begin(second.read_sheet(text.bytes, self.words), READ)


def first():
    """Lines from bytes 0 (six fields), 127 (the entry), 191 (its coefficient), 255 and 319 (rows); 383 bytes."""
    return Read(1, 1, 2)


def digits():
    # a leading zero; a letter, a sign, a point, a carriage return, a blank between digits, no digit at all
    first().byte(19, 48).read()
    for b in 65, 43, 46, 13, 0, 255:
        first().byte(20, b).read()
    first().byte(124, 32).read()
    first().byte(20, 32).read()
    first().byte(105, 45).read()
    # 2^64 - 1 and 2^64 as a loss word, 20 digits and 21
    first().field(148, WORD).read()
    wide = first().field(148, WORD)
    wide.byte(168, 54).read()
    first().field(148, 10**19).byte(148, 49).read()


def columns():
    # a field one column off to the left, a number that ends before its last column
    first().copy(128, 148, 127).byte(147, 32).read()
    first().copy(1, 21, 0).byte(20, 32).read()


def ends():
    # line ends: byte 13, a blank, a digit; a missing last one; text that is cut, or goes on
    for b in 13, 32, 48:
        first().byte(126, b).read()
        first().byte(190, b).read()
        first().byte(382, b).read()
    for length in 382, 381, 320, 319, 255, 128, 127, 126, 64, 1, 0:
        first().cut(length).read()
    first().copy(319, 320, 383).read()
    first().copy(126, 127, 383).read()


def numbers_of_lines():
    # a row line missing or too many; a coefficient line too many; counts that ask for more or fewer lines
    first().copy(319, 383, 383).read()
    first().cut(319).read()
    first().copy(191, 383, 255).read()
    for count in 0, 2, 3, WORD:
        first().field(63, count).read()
    for coefficients in 0, 2, 3, WORD:
        first().field(169, coefficients).read()
    for n in 0, 2, 1 << 63, WORD, (1 << 63) + 1:
        first().field(0, n).read()


def numbers():
    # K, capacity, store length
    for k in 0, 2, MOST_COEFFICIENTS, MOST_COEFFICIENTS + 1, WORD:
        first().field(21, k).read()
        first().field(21, k).store(2 * (11 + 3 * (k % 100))).read()
    for capacity in 0, 1, 256, 257, WORD:
        first().field(42, capacity).read()
        first().field(42, capacity).store(14 * (capacity % 300)).read()
    first().store(27).read()
    first().store(29).read()
    # as many entries as capacity, and one more
    first().copy(127, 383, 383).field(63, 2).read()
    first().copy(127, 383, 383).copy(127, 383, 639).field(63, 3).read()
    # threshold and cutoff: infinite, NaN, below 0, -0.0, the largest
    for v in 0x7FF0000000000000, 0x7FF8000000000000, (1 << 63) + 1, 1 << 63, 0x7FEFFFFFFFFFFFFF:
        first().field(84, v).read()
        first().field(105, v).read()


def entries():
    # weight 1024, above it, NaN, -0.0; loss bit 0 and 1; coefficient parts; x, z and phase
    for v in 0x4090000000000000, 0x4090000000000001, 0x7FF8000000000000, 1 << 63:
        first().field(127, v).read()
    for v in 1, 2:
        first().field(148, v).read()
    for at, v in (191, WORD), (212, 0x7FF0000000000000), (233, 0x7FEFFFFFFFFFFFFF), (233, 0xFFF8000000000001):
        first().field(at, v).read()
    for at, v in (255, 0), (255, 2), (276, 1), (276, 2), (297, 3), (297, 4), (361, 3), (361, WORD):
        first().field(at, v).read()
    # coefficient count K + 1, with its line
    first().copy(191, 383, 255).field(169, 2).read()
    # no coefficient
    first().copy(255, 383, 191).cut(319).field(169, 0).read()
    # the lowest number: 7 before 1, 2 and 5; then 1, 2, 5
    all_wrong = [(21, MOST_COEFFICIENTS + 1), (84, 0x7FF8000000000000), (127, 0x7FF8000000000000)]
    for right in range(3):
        run = first()
        for at, v in all_wrong[right:]:
            run.field(at, v)
        run.read()
    run = first()
    for at, v in all_wrong:
        run.field(at, v)
    run.byte(126, 13).read()


def main():
    digits()
    columns()
    ends()
    numbers_of_lines()
    numbers()
    entries()
