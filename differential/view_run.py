"""What views show: four entries on two qubits, and the place behind them."""

import second
from second import bits_of, triples

SHOWN = 23  # n 2, K 2: 5 + 3 * 2 + 6 * 2 words an entry


def made():
    a = second.fresh(2, 2, 5, 0.5, 0.0, [0] * (5 * SHOWN))
    words = list(a.words)
    words[4] = 2
    words[8:11] = [3, bits_of(0.25), bits_of(-0.25)]
    for turned, qubits in (second.turned_h, [0]), (second.turned_s, [0]), (second.turned_cnot, [0, 1]):
        a = second.gate(a.header, words, turned, *qubits)
        words = a.words
    a = second.pauli(a.header, a.words, 0.0, 0.0, 0.1, 0)
    return second.loss(a.header, a.words, 0.3, 1)


def show(name, *numbers):
    print(name, *numbers, sep=" ")


def main():
    a = made()
    for place in range(5):
        number, shown = second.view(a.header, a.words, place)
        part = shown + [0] * (SHOWN + 1 - len(shown))
        show(f"view {place} gives {number}:", *part[:5])
        # one more of each than there are: it is not there, and shows as 0
        for j, coefficient in enumerate(triples(part[5:11]) + [(0, 0, 0)]):
            show(f"coefficient {j}:", *coefficient)
        for r, row in enumerate(triples(part[11:23]) + [(0, 0, 0)]):
            show(f"row {r}:", *row)
        show("words:", *part)
