"""The limits of fresh and their neighbours, in a store of sevens."""

from second import MOST_COEFFICIENTS, WORD, entry_length, float_of
from telling import *


def bounds(threshold, cutoff):
    Sum(2, 1, 3, float_of(threshold), float_of(cutoff), 60, 7)


def main():
    for n, k, capacity, length in (
        # n, K, capacity
        *((0, 1, 1, 8), (1, 1, 1, 14), (64, 1, 1, 392), (65, 1, 1, 398)),
        *((1, k, 1, entry_length(1, k)) for k in (0, MOST_COEFFICIENTS, MOST_COEFFICIENTS + 1)),
        *((1, 1, 0, 0), (1, 1, 256, 3584), (1, 1, 257, 3598)),
        # the largest, and a store one word short and one word long
        *((64, MOST_COEFFICIENTS, 256, 118016), (3, 2, 4, 116), (3, 2, 4, 115), (3, 2, 4, 117)),
        # sizes whose product would overflow
        *((WORD, 1, 1, 14), (1, WORD, 1, 14), (1, 1, WORD, 14)),
    ):
        Sum(n, k, capacity, 0.5, 0.0, length, 7)
    # NaN, infinite, below 0, -0.0, the largest; the same as a cutoff, then just below 1, 1, just above
    for bits in 0x7FF8000000000000, 0x7FF0000000000000, (1 << 63) + 1, 1 << 63, 0x7FEFFFFFFFFFFFFF:
        bounds(bits, 0)
    for bits in 0x7FF8000000000000, 0x7FF0000000000000, 0xBFF0000000000000, 1 << 63:
        bounds(0, bits)
    for bits in 0x3FEFFFFFFFFFFFFF, 0x3FF0000000000000, 0x3FF0000000000001:
        bounds(0, bits)
