"""Calls of every kind on 256 entries with n 64, K 24, made from outputs of SplitMix64 as crates/test_support (large.rt) says."""

import second
from second import MOST_COEFFICIENTS, WORD, row_mask
from telling import *


def output(seed, k):
    """Output k of SplitMix64 with this seed."""
    return row_mask(k, seed)


def part_bits(r, variant):
    return 0x3FE0000000000000 + r // 0x1000 + variant * 0x100000000 + (r % 2 << 63) & WORD


def large_entry(e):
    """16 groups of 16 variants: X at qubit 0, Z at qubit 0, lost at qubit 3, other indices."""
    group, variant = divmod(e, 16)
    x_applied, z_applied, lost, moved = (variant >> bit & 1 for bit in range(4))
    count = group * MOST_COEFFICIENTS // 15
    words = [0x3F50000000000000 + output(100, e) // 0x1000, lost << 3, 0, 0, count]
    for c in range(MOST_COEFFICIENTS):
        re, im = output(group, 3 * c + 1), output(group, 3 * c + 2)
        words += [c + 1000 * moved, part_bits(re, variant), part_bits(im, variant)] if c < count else [0, 0, 0]
    for r in range(128):
        x, z, phase = (output(group, 1000 + 3 * r + part) for part in range(3))
        words += [x, z, phase % 4 ^ 2 * (x_applied & z & 1 ^ z_applied & x & 1)]
    return words


def large_words():
    return [w for e in range(256) for w in large_entry(e)]


def large():
    """That sum, its keys not worked out."""
    run = Sum(64, MOST_COEFFICIENTS, 256, 0.5, 0.0)
    give(LARGE)
    run.words = large_words()
    run.with_header(count=256, dirty=True)
    return run


def largest_sheet():
    """Every entry with 24 coefficients, most of them 0: written, read into a store of sevens, and written back."""
    run = large()
    for e in range(256):
        run.put(e * second.entry_length(64, MOST_COEFFICIENTS) + 4, MOST_COEFFICIENTS)
    text.fill(127 + 64 * 256 * (1 + MOST_COEFFICIENTS + 128), 120)
    run.call(sheet)
    written = text.bytes
    run.lend(len(run.words), 7)
    run.begin(second.read_sheet(written, run.words), READ)
    text.fill(len(written), 120)
    run.call(sheet)


def main():
    run = large()
    # a dirty sum; a full store whose branches all merge
    run.call(normalise, h(5), s(17), cnot(5, 63), pauli(0.1, 0.2, 0.05, 0), h(0), depolarizing(0.3, 0))
    run.call(loss(0.25, 3), rising_pairs(0.005, 0, 0), depolarize2(0.2, 0, 0))
    # no room, also on a dirty sum; no such qubit
    run.call(loss(0.5, 9), s(63), depolarize2(0.5, 0, 3), pauli(0.1, 0.1, 0.1, 63), h(64))
    # half of the entries are lost; then the other half is filled
    run.call(reset(3), pauli(0.25, 0.0, 0.0, 7))
    # about half of the entries go; then all but 16, whose branches fill the store to the last place
    run.with_bounds(0.5, 0.004)
    run.call(truncate, cnot(0, 63))
    run.with_bounds(0.5, 0.0086)
    run.call(truncate)
    run.with_bounds(0.5, 0.0)
    run.call(depolarize2(0.3, 62, 63), rising_pairs(0.004, 63, 62), pairs(0.0, 4, 0.5, 62, 1))
    # 47 stay; branches of two qubits; all lost at the last qubit
    run.with_bounds(0.5, 0.0036)
    run.call(truncate)
    run.with_bounds(0.5, 0.0)
    run.call(pairs(0.0, 4, 0.5, 62, 1), normalise)
    run.call(loss(1.0, 63), pauli(0.1, 0.2, 0.3, 63), reset(63))
    largest_sheet()
