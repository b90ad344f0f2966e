"""What examples/c/planner.c prints: a GHZ state under noise, its table, picks, page, sheet, and a refusal."""

from second import *

N, K, CAPACITY, SHOTS = 3, 1, 32, 10000
NO_QUBIT = "a qubit is not below n, both qubits of a CNOT are the same, or no entry is at that place"


def run_circuit(header, words):
    steps = [
        ("h 0", gate, turned_h, 0),
        ("cnot 0 1", gate, turned_cnot, 0, 1),
        ("cnot 1 2", gate, turned_cnot, 1, 2),
        ("depolarize1 0, 3%", depolarizing, 0.03, 0),
        ("loss_channel 1, 10%", loss, 0.1, 1),
        ("reset_loss_channel 1", reset_loss_channel, 1),
        ("loss_channel 2, 2%", loss, 0.02, 2),
    ]
    print("call                  merged  stored  dropped  entries  weight dropped  truncated")
    kept = 1.0
    for name, call, *arguments in steps:
        number, header, counts, lost, words = call(header, words, *arguments)
        assert number == 0
        print(f"{name:<20}  {counts.merged:6}  {counts.stored:6}  {counts.dropped:7}  {header.count:7}  ", end="")
        print(f"{lost.dropped:14.6f}  {lost.truncated:9.6f}")
        kept = kept * (1 - lost.dropped) * (1 - lost.truncated)
    print(f"lost in all: {1 - kept:.6f} of the weight; what is left adds up to 1 all the same")
    return header, words


def print_table(header, words):
    print("\nplace    weight     total  lost              shots")
    number, rows = table(header, words, 2 * CAPACITY)
    assert number == 0
    spent = 0
    for place, bits in zip(rows[::2], rows[1::2]):
        total, at = float_of(bits), place * entry_length(N, K)
        shots = int(total * SHOTS + 0.5)
        print(f"{place:5}  {float_of(words[at]):.6f}  {total:.6f}  {words[at + 1]:016x}  {shots - spent:5}")
        spent = shots


def print_picks(header, words):
    print()
    for draw in (0.0, 0.5, 0.96, 0.98, 0.999):
        number, place = pick(header, words, draw)
        assert number == 0
        print(f"draw {draw:.3f} picks entry {place}")


def print_page(header, words):
    number, text = write_page(header, words, 1 << 20)
    assert number == 0
    print(f"\nthe page:\n{text.decode()}", end="")


def print_sheet(header, words):
    number, text = write_sheet(header, words, 1 << 20)
    assert number == 0
    print(f"\nthe sheet, {len(text)} bytes:\n{text.decode()}", end="")
    read = read_sheet(text, words)
    assert read.number == 0
    copy = read.header
    same = write_sheet(copy, read.words, 1 << 20) == (0, text)
    print(f"\nread back: {copy.count} entries, {'dirty' if copy.dirty else 'not dirty'}; its sheet is {'the same' if same else 'ANOTHER'}")


def main():
    begun = fresh(N, K, CAPACITY, 1e-6, 1e-3, [0] * (CAPACITY * entry_length(N, K)))
    header, words = run_circuit(begun.header, begun.words)
    print_table(header, words)
    print_picks(header, words)
    print_page(header, words)
    print_sheet(header, words)
    refusal = loss(header, words, 0.02, 3)
    print(f"\nloss_channel 3, 2%: refused with {refusal.number}, {NO_QUBIT if refusal.number == 3 else ''}")
    print(f"the store is {'as it was' if refusal.words == words else 'CHANGED'}")
