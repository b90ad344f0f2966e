"""Masks and keys."""

from second import IMAG, LOSS, SIGN, phase_loss_key, row_mask, triples, word_key


def show(*keys):
    for key in keys:
        print(f"{key:016x}")


def keys_of(words, loss):
    """Rows on two qubits: x, z, phase."""
    rows = triples(words)
    word, phase = word_key(rows), phase_loss_key(rows, loss, 2)
    show(word, phase, word ^ phase)


def main():
    show(*(row_mask(k, 0) for k in range(1, 6)))
    for index in 0, 1, 127:
        show(*(row_mask(index, salt) for salt in (SIGN, IMAG, LOSS)))
    keys_of([1, 0, 0, 2, 0, 0, 0, 1, 0, 0, 2, 0], 0)
    keys_of([1, 2, 3, 2, 3, 1, 3, 1, 2, 0, 2, 0], 2)
    keys_of([3, 0, 2, 0, 0, 2, 1, 1, 2, 2, 2, 2], 3)
