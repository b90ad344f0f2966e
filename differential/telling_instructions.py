"""examples/instructions.stim has every instruction, and each shows: left out, or with another in its place, the sheet is another one.

    python3 -B differential/telling_instructions.py

Another in its place: another name for the same arguments and targets; qubits or two rates exchanged; another rate; another qubit; a block
repeated once more or less. The sheets are those of circuits.py.
"""

import itertools
import sys

import circuits
from circuits import Block, Instruction

CIRCUIT = circuits.EXAMPLES / "instructions.stim"
# Instructions that could be taken for each other; a channel of several rates for one of their total.
LIKE = [["H", "S", "I"], ["X_ERROR", "Y_ERROR", "Z_ERROR", "I_ERROR", "DEPOLARIZE1"]]
OF_TOTAL = {"PAULI_CHANNEL_1": "DEPOLARIZE1", "PAULI_CHANNEL_2": "DEPOLARIZE2"}


def all_of(items):
    for item in items:
        yield item
        if isinstance(item, Block):
            yield from all_of(item.items)


def replaced(items, old, new):
    for item in items:
        if item is old:
            yield from new
        elif isinstance(item, Block):
            yield item._replace(items=list(replaced(item.items, old, new)))
        else:
            yield item


def sheet(items, options):
    header, words = circuits.begun(options, None)
    for instruction, qubits in circuits.calls(items):
        a = circuits.made(header, words, instruction.name, instruction.rates, qubits)
        header, words = a.header, a.words
        if a.number:
            return f"refused with {a.number}"
    return circuits.sheet(header, words, None, None)


def other_blocks(block):
    return [("repeated otherwise", block._replace(times=times)) for times in (block.times - 1, block.times + 1)]


def other_instructions(old, n):
    for name in (name for names in LIKE if old.name in names for name in names if name != old.name):
        yield name, old._replace(name=name)
    if old.name in OF_TOTAL:
        yield OF_TOTAL[old.name], old._replace(name=OF_TOTAL[old.name], rates=[sum(old.rates)])
    for i, j in itertools.combinations(range(len(old.rates)), 2):
        rates = list(old.rates)
        rates[i], rates[j] = rates[j], rates[i]
        yield f"rates {i} and {j} exchanged", old._replace(rates=rates)
    for i, rate in enumerate(old.rates):
        yield f"half of rate {i}", old._replace(rates=[*old.rates[:i], rate / 2, *old.rates[i + 1 :]])
    for i, call in enumerate(old.calls):
        for qubits in itertools.permutations(range(n), len(call)):
            if qubits != call:
                yield f"on {qubits}, not {call}", old._replace(calls=[*old.calls[:i], qubits, *old.calls[i + 1 :]])


def others(items, n):
    """What each is replaced by; TICK does nothing."""
    for old in (item for item in all_of(items) if getattr(item, "name", None) != "TICK"):
        yield old, "left out", []
        more = other_blocks(old) if isinstance(old, Block) else other_instructions(old, n)
        yield from ((old, what, [new]) for what, new in more)


def main():
    data = CIRCUIT.read_bytes()
    options, looked = circuits.options_of(data), circuits.look(data)
    here = list(all_of(looked.items))
    missing = set(circuits.TAKES) - {item.name for item in here if isinstance(item, Instruction)}
    assert not looked.bad and not missing and any(isinstance(item, Block) for item in here), (looked.bad, missing)
    assert set(options) == {"qubits", "threshold", "cutoff", "capacity"}, options
    own, tried, same = sheet(looked.items, options), 0, []
    for old, what, new in others(looked.items, int(options["qubits"])):
        tried += 1
        if sheet(list(replaced(looked.items, old, new)), options) == own:
            same.append(f"line {old.line}, {what}: the sheet is the same")
    print("\n".join([*same, f"{tried} others were tried, {len(same)} give the same sheet"]))
    sys.exit(1 if same else 0)


main()
