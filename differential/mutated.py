"""Circuits mutated at random: run_circuit and circuits.py give the same sheet, or the same table of tried cutoffs, or refuse the same lines.

    python3 -B differential/mutated.py [COUNT [SEED]]     20000 and 1, if they are not named

The circuits of examples/, the bad ones too, and a few made here are taken as they are, and then mutated COUNT times. A bad line is compared
by its number, a refused call by its line and number, an instruction that no trial has by its line; a circuit that makes many calls is passed
over. A difference is told by the smallest circuit that was found to show it, which is kept in target/mutated.stim, and ends the run with
status 1. RUN_CIRCUIT can name another program than target/bin/run_circuit.
"""

import itertools
import os
import pathlib
import random
import re
import subprocess
import sys
from collections import Counter

import circuits

TOP = circuits.EXAMPLES.parent
PROGRAM = pathlib.Path(os.environ.get("RUN_CIRCUIT", TOP / "target/bin/run_circuit")).resolve()
KEPT = TOP / "target/mutated.stim"
MOST_CALLS = 120
MOST_TOLD = 20

MADE = [
    b"",
    b"TICK\n",
    b"H 0\nS 1\nCX 0 1\nCNOT 1 0\nX_ERROR(0.01) 0\nY_ERROR(0.02) 1\nZ_ERROR(0.03) 0 1\n",
    b"PAULI_CHANNEL_1(0.1, 0.02, 0.003) 0\nDEPOLARIZE1(0.3) 1\nDEPOLARIZE2(0.15) 1 0\nI_ERROR[loss](0.25) 1\nI[reset_loss] 1\n",
    b"PAULI_CHANNEL_2(.01,.02,.03,.04,.05,.06,.07,.08,.09,.1,.11,.12,.06,.05,.04) 2 0\n",
    b"REPEAT 2 {\n  H 0\n  REPEAT 3 { # inner\n    Z_ERROR(1e-2) 0\n  }\n}\nREPEAT[tag] 18446744073709551615 {\nTICK\n}\n",
    b"h[a tag # in it] 0 # H\r\n\tx_error(+.5e0)\t1 00\r\nTick\r\n",
    b"X_ERROR(0.1234567890123456789) 0\nZ_ERROR(5.e-1) 1\nY_ERROR(0.00000000000000000000012345678901234567890e1) 0\n",
    b"REPEAT 0 {\nH 0\n} H\nREPEAT x\n}\n}\nREPEAT 2 H {\n",
    b"H 64\n" * 25,
]
NUMBERS = b"""0 1 2 3 7 63 64 065 00 -1 -0 +0 .5 5. . 1e0 1E-1 1e 1e+ 1e+1 0.5e-0 1.0000000000000000001 0.9999999999999999999 1.5 -0.25
    0.3333 0.123456789012345 0.1234567890123456 1234567890123456789e-19 12345678901234567890e-20 1e308 1e309 2e308 1e-308 5e-324 2e-324
    1e-400 1e99999999999999999999 0e999 18446744073709551615 18446744073709551616 99999999999999999999 1e-3 0.001 nan inf 0x1 1_0""".split()
TOKENS = b"""H S CX CNOT X_ERROR(0.1) Y_ERROR(0.2) Z_ERROR(.3) PAULI_CHANNEL_1(.1,.2,.3) DEPOLARIZE1(0.3) DEPOLARIZE2(0.3)
    I_ERROR[loss](0.1) I_ERROR I I[reset_loss] TICK REPEAT M [ ] [loss] [reset_loss] [x] ( ) , { } # 0 1 2 0.1""".split()
TOKENS += [b" ", b"\t", b"\r", b"\n", b"\v", b"\0", b"\xa0", b"\nREPEAT 2 {\n", b"\n}\n"]


# ---- mutations: each takes the chance and the bytes


def place(chance, data):
    return chance.randrange(len(data) + 1)


def byte_changed(chance, data):
    at = place(chance, data)
    return data[:at] + bytes([chance.choice([chance.randrange(256), *b"0123456789 .,()[]{}#eE-\n"])]) + data[at + 1 :]


def bytes_deleted(chance, data):
    at = place(chance, data)
    return data[:at] + data[at + chance.randint(1, 4) :]


def token_inserted(chance, data):
    at = place(chance, data)
    return data[:at] + chance.choice([b"", b" "]) + chance.choice(TOKENS) + chance.choice([b"", b" "]) + data[at:]


def number_changed(chance, data):
    numbers = list(re.finditer(rb"[0-9.]+(?:[eE][+-]?[0-9]+)?", data))
    if not numbers:
        return data
    old = chance.choice(numbers)
    return data[: old.start()] + chance.choice(NUMBERS) + data[old.end() :]


def name_in_another_case(chance, data):
    at = place(chance, data)
    return data[:at] + data[at : at + 8].swapcase() + data[at + 8 :]


def on_lines(change):
    def changed(chance, data):
        lines = data.split(b"\n")
        change(chance, lines, chance.randrange(len(lines)))
        return b"\n".join(lines)

    return changed


@on_lines
def line_doubled(chance, lines, at):
    to = chance.randrange(len(lines) + 1)
    lines[to:to] = [lines[at]] * chance.choice([1, 1, 1, 1, 2, MOST_TOLD + 1])


@on_lines
def line_removed(chance, lines, at):
    del lines[at]


@on_lines
def lines_swapped(chance, lines, at):
    other = chance.randrange(len(lines))
    lines[at], lines[other] = lines[other], lines[at]


@on_lines
def line_put_into_a_block(chance, lines, at):
    lines[at : at + 1] = [b"REPEAT %d {" % chance.randint(1, 3), lines[at], b"}"]


@on_lines
def line_made_long(chance, lines, at):
    lines[at] += chance.choice([b" ", b"#", b"x"]) * (chance.randint(65534, 65537) - len(lines[at]))


def put_into_many_blocks(chance, data):
    depth = circuits.DEEPEST + chance.randint(-1, 2)
    return b"REPEAT 1 {\n" * depth + data + b"\n" + b"}\n" * (depth + chance.choice([-1, 0, 0, 0, 1]))


def cut(chance, data):
    return data[: place(chance, data)]


def with_carriage_returns(chance, data):
    return data.replace(b"\n", b"\r\n")


def with_mark(chance, data):
    return circuits.MARK[: chance.choice([3, 3, 3, 2])] + data


COMMON = [byte_changed, bytes_deleted, token_inserted, number_changed, number_changed, name_in_another_case]
COMMON += [line_doubled, line_removed, lines_swapped, line_put_into_a_block]
RARE = [cut, with_carriage_returns, with_mark]
VERY_RARE = [line_made_long, put_into_many_blocks]


def mutated(chance, data):
    """A few lines of a circuit, mutated once or more."""
    lines = data.split(b"\n")
    first = chance.randrange(len(lines))
    data = b"\n".join(lines[first : first + chance.randint(1, 12)]) if chance.random() < 0.9 and len(lines) > 12 else data
    for _ in range(chance.choice([1, 1, 1, 2, 3, 5])):
        kinds = chance.choices([COMMON, RARE, VERY_RARE], [89, 9, 2])[0]
        data = chance.choice(kinds)(chance, data)
    return data


def options_for(chance):
    cutoffs = ["1e-3", "0.02", "0", "1"]
    options = {"capacity": "16", "cutoff": chance.choice(cutoffs)}
    if chance.random() < 0.3:
        options = {"capacity": "16", "try-cutoffs": ",".join(chance.choices(cutoffs, k=chance.randint(1, circuits.second.MOST_CUTOFFS)))}
    if chance.random() < 0.4:
        options["qubits"] = str(chance.randint(1, 6))
    return options


NO_STEPS = re.compile(rb"[ \t]*(H|S|CX|CNOT|I|DEPOLARIZE2|PAULI_CHANNEL_2)\b", re.IGNORECASE)


def channels_alone(data):
    """The lines of a circuit that no trial refuses for their instruction."""
    return b"\n".join(line for line in data.split(b"\n") if not NO_STEPS.match(line))


# ---- both sides: a sheet, a table of trials and what ended them, bad lines and whether there are more, a refused call, an instruction that
# no trial has, no step, or no qubits


def tried(looked, options):
    try:
        if not circuits.steps_of(looked.items):
            return ("no step at all",)
        return "tried", *circuits.tried(looked, options)
    except circuits.NoStep as none:
        line, which = none.args
        return which, line


def wanted(data, options):
    """By circuits.py; None if it makes too many calls."""
    looked = circuits.look(data, int(options.get("qubits", 64)))
    if looked.bad:
        return "bad", looked.bad[:MOST_TOLD], len(looked.bad) > MOST_TOLD
    if "try-cutoffs" in options:
        return tried(looked, options)
    if not looked.qubits and "qubits" not in options:
        return ("no qubits",)
    if len(list(itertools.islice(circuits.calls(looked.items), MOST_CALLS + 1))) > MOST_CALLS:
        return None
    header, words = circuits.begun(options, looked.qubits)
    for instruction, qubits in circuits.calls(looked.items):
        a = circuits.made(header, words, instruction.name, instruction.rates, qubits)
        header, words = a.header, a.words
        if a.number:
            return "refused", instruction.line, a.number
    return "sheet", circuits.sheet(header, words, None, None).encode()


ENDED = re.compile(r"# cutoff (.*): step (\d+) \(line (\d+), qubit (\d+)\) (?:was refused with (\d+)|ends with no entry): .*")


def table(text):
    """The rows, as circuits.py has them, and what ended trials."""
    rows = [[int(word) if word.isdigit() else word for word in row] for row in circuits.numbers(text)]
    return rows, [(cutoff, *(int(word or 0) for word in others)) for cutoff, *others in ENDED.findall(text)]


def given(data, options):
    """By the program."""
    words = [word for name, value in options.items() for word in (f"--{name}", value)]
    try:
        ran = subprocess.run([PROGRAM, "--quiet", *words], input=data, capture_output=True, timeout=20)
    except subprocess.TimeoutExpired:
        return ("no end",)
    if ran.stdout and "try-cutoffs" in options:
        return "tried", *table(ran.stdout.decode())
    if ran.stdout:
        return "sheet", ran.stdout
    told = ran.stderr.decode("latin-1")
    none = re.fullmatch(r"standard input:(\d+): .*--try-cutoffs takes (channels|64 steps) .*\n", told)
    if none:
        return {"channels": "no step", "64 steps": "too many"}[none[2]], int(none[1])
    if "there is no step to try cutoffs on" in told:
        return ("no step at all",)
    refused = re.fullmatch(r"standard input:(\d+): .* was refused with (\d+): .*\n", told)
    if refused:
        return "refused", int(refused[1]), int(refused[2])
    lines = [int(line) for line in re.findall(r"^standard input:(\d+): ", told, re.MULTILINE)]
    if lines:
        return "bad", lines, f"run_circuit: more than {MOST_TOLD} lines are bad" in told
    return ("no qubits",) if "the circuit makes no call" in told else ("nothing", told)


def differs(data, options):
    want = wanted(data, options)
    return want is not None and given(data, options) != want


def smallest(data, options, unit):
    """Parts of the data, split by a unit, are taken out, many at once and then fewer, as long as it still differs."""
    parts = data.splitlines(keepends=True) if unit == "lines" else [data[i : i + 1] for i in range(len(data))]
    size = max(1, len(parts) // 2)
    while True:
        at = 0
        while at < len(parts):
            fewer = parts[:at] + parts[at + size :]
            if differs(b"".join(fewer), options):
                parts = fewer
            else:
                at += size
        if size == 1:
            return b"".join(parts)
        size //= 2


def tell(data, options):
    for unit in ("lines", "bytes", "lines"):
        data = smallest(data, options, unit) if unit == "lines" or len(data) < 4000 else data
    KEPT.write_bytes(data)
    print("THEY DIFFER:", " ".join(f"--{name} {value}" for name, value in options.items()), data if len(data) < 2000 else len(data))
    print("circuits.py:", wanted(data, options))
    print("run_circuit:", given(data, options))
    sys.exit(1)


# ---- all of it


def main(count=20000, seed=1):
    chance = random.Random(seed)
    good, bad = ([path.read_bytes() for path in sorted(circuits.EXAMPLES.glob(names))] for names in ("*.stim", "bad/*.stim"))
    seeds = [MADE, good, bad]
    tally = Counter()
    for data in itertools.chain(*seeds, (mutated(chance, chance.choice(chance.choice(seeds))) for _ in range(count))):
        options = options_for(chance)
        if "try-cutoffs" in options and chance.random() < 0.7:
            data = channels_alone(data)
        want = wanted(data, options)
        tally[want[0] if want else "passed over"] += 1
        if want is not None and given(data, options) != want:
            tell(data, options)
    print(f"run_circuit agrees on {count} mutated circuits, seed {seed}:", ", ".join(f"{n} {kind}" for kind, n in sorted(tally.items())))


if __name__ == "__main__":
    if len(sys.argv) > 3 or not all(word.isdigit() for word in sys.argv[1:]):
        print(__doc__, file=sys.stderr)
        sys.exit(2)
    main(*map(int, sys.argv[1:]))
