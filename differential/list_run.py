"""What crates/list_run is given, and what it must write: worked out from entries without keys, as demand 3 says.

The entries are kept with no keys; where second.py would look at keys, an entry is found by likeness alone, and the keys that clashes are
counted by are worked out from the entries by point 1.
"""

import random

import second
from telling import *

N, K, CAPACITY, THRESHOLD, CUTOFF = 5, 2, 60, 0.5, 0.0005
LENGTH = second.entry_length(N, K)
TEXT = 32768


def key(e):
    return second.word_key(e.rows) ^ second.phase_loss_key(e.rows, e.loss, N)


def find(entries, branch, threshold):
    """By likeness alone. Comparisons: the one that merges, and the unlike entries of equal key that were passed."""
    clashes = 0
    for e in entries:
        if second.alike(e, branch, threshold):
            return e, clashes + 1
        clashes += key(e) == key(branch)
    return None, clashes


def without_keys(words):
    return [0 if i % LENGTH in (2, 3) else w for i, w in enumerate(words)]


def some_calls(r):
    """Every kind, with qubits and places now and then past their limits."""
    q = lambda: r.choice(range(N)) if r.random() < 0.95 else N
    small = lambda most: r.choice([0.0, most, most * r.random()])
    kinds = [
        lambda: pauli(small(0.2), small(0.2), small(0.2), q()),
        lambda: loss(small(0.3), q()),
        lambda: depolarizing(small(0.2), q()),
        lambda: two_qubit([small(0.05) for _ in range(15)], q(), q()),
        lambda: depolarize2(small(0.1), q(), q()),
        lambda: reset(q()),
        lambda: h(q()),
        lambda: s(q()),
        lambda: cnot(q(), q()),
        lambda: truncate,
        lambda: normalise,
        lambda: table(r.choice([120, 512])),
        lambda: pick(bits_of(r.random())),
        lambda: sheet,
        lambda: view(r.randrange(12)),
        lambda: page,
    ]
    return [kind() for kind in kinds] + [r.choice(kinds)() for _ in range(47)] + [sheet]


def flag_after(dirty, call, number):
    """Document 01's flag: set by a reading or an accepted gate, until the next accepted channel or reset."""
    if number or call.kind > CNOT:
        return dirty
    return call.kind > RESET


def run(start, dirty, calls):
    header, words = start.header, start.words
    lines, last = [], None
    for call in calls:
        a, shown = call.make(header._replace(dirty=True), without_keys(words), TEXT)
        header, words, last = a.header, a.words, shown.text
        dirty = flag_after(dirty, call, a.number)
        if call.kind == VIEW:
            shown = shown._replace(words=without_keys(shown.words))
        record = record_of(a._replace(header=header._replace(dirty=dirty)), shown)
        text = shown.text + b"x" * (TEXT - len(shown.text))
        lines.append(f"{numbers([call.kind])}:{numbers(record[:NUMBERS])}, record {digest_record(record)}, text {digest(text)}")
    print(f"gives 0 {len(calls)}, count {header.count}, flag {int(dirty)}, digest {digest(without_keys(words))}")
    print(*lines, sep="\n")
    return last


def main():
    second.find = find
    # of the first forty seeds the one with most pages whose last sheet has room
    calls = some_calls(random.Random(24))
    give(FRESH, N, K, CAPACITY, THRESHOLD, CUTOFF, LENGTH, len(calls))
    for call in calls:
        give(call.kind, call.p, call.q, *call.rates)
    store = [7] * (CAPACITY * LENGTH)
    sheet_text = run(second.fresh(N, K, CAPACITY, THRESHOLD, CUTOFF, store), False, calls)
    assert sheet_text, "the second run begins with the last sheet"
    run(second.read_sheet(sheet_text, store), True, calls)
