"""What run_circuit does with a circuit, by a parser of its own over the calls of second.py.

    circuits.py                                               examples/expected/ agrees with it
    circuits.py sheet|page|table|trace|summary|tried FILE     prints one, with the options that the file names

A comment in an example names the options that it is run with, and another one those with which cutoffs are tried on it. Of a table, a trace
or a summary the numbers are compared, floats to 8 digits: run_circuit works its digits out in floats.
"""

import math
import pathlib
import re
import sys
from collections import namedtuple

import second

EXAMPLES = pathlib.Path(__file__).resolve().parent.parent / "examples"


# ---- the language

# How many arguments an instruction takes, and how many targets each of its calls.
TAKES = {
    **dict.fromkeys(["H", "S"], (0, 1)),
    **dict.fromkeys(["CX", "CNOT"], (0, 2)),
    **dict.fromkeys(["X_ERROR", "Y_ERROR", "Z_ERROR", "DEPOLARIZE1", "I_ERROR"], (1, 1)),
    "PAULI_CHANNEL_1": (3, 1),
    "PAULI_CHANNEL_2": (15, 2),
    "DEPOLARIZE2": (1, 2),
    "I": (0, 1),
    "TICK": (0, 0),
}
# What is taken with one tag only; other tags have no effect.
TAGS = {"I_ERROR": b"[loss]", "I": b"[reset_loss]"}

MARK = b"\xef\xbb\xbf"
BLANKS = b" \t\r"
LONGEST_LINE = 65535
MOST_DIGITS = 19
DEEPEST = 64

# Name, tag, arguments; then a blank, a comment or the end; what stands before the comment.
INSTRUCTION = re.compile(rb"(\w+)(\[[^]]*\])?(\([^)#]*\))?(?![^ \t\r#])([^#]*)")
# How often, `{`, and what follows it.
REPEAT = re.compile(rb"[ \t\r]*(\d*)[ \t\r]*(.?)[ \t\r]*(.?)", re.DOTALL)
DECIMAL = re.compile(rb"[+-]?(\d*)\.?(\d*)(?:[eE][+-]?\d+)?")

# An instruction: its line, its name, that name as it is written, its rates, the qubits of each call.
Instruction = namedtuple("Instruction", "line name written rates calls")
# A block: the line of its REPEAT, how often, what is in it.
Block = namedtuple("Block", "line times items")
CLOSE = "}"


class Bad(Exception):
    """A bad line. If it has a block it still begins that, and with CLOSE it ends one."""

    def __init__(self, item=None):
        self.item = item


# ---- one line


def decimal(word):
    parts = DECIMAL.fullmatch(word)
    digits = parts and parts[1] + parts[2]
    if not digits or len(digits.lstrip(b"0")) > MOST_DIGITS or math.isinf(float(word)):
        raise Bad
    return float(word)


def whole(word, limit):
    """The number that digits write, if it is below the limit; else None."""
    if not word.isdigit() or len(word.lstrip(b"0")) > 20:
        return None
    value = int(word.lstrip(b"0") or b"0")
    return value if value < limit else None


def rates_sound(name, rates):
    """Number 4 is not given for them."""
    parts = {"DEPOLARIZE1": 3, "DEPOLARIZE2": 15}.get(name)
    arms = [rates[0] / parts] * parts if parts else rates
    return all(0 <= rate <= 1 for rate in rates) and not second.folded(arms) > 1


def rates_of(name, arguments):
    words = arguments[1:-1].split(b",") if arguments else []
    rates = [decimal(word.strip(BLANKS)) for word in words]
    if len(rates) != TAKES[name][0] or not rates_sound(name, rates):
        raise Bad
    return rates


def calls_on(name, targets, limit):
    """The qubits of each call."""
    each = TAKES[name][1]
    qubits = [whole(word, limit) for word in re.findall(rb"[^ \t\r]+", targets)]
    if None in qubits or (len(qubits) % each if each else qubits):
        raise Bad
    calls = [tuple(qubits[i : i + each]) for i in range(0, len(qubits), each or 1)]
    if any(len(set(call)) < each for call in calls):
        raise Bad
    return calls


def block(number, text):
    digits, bracket, rest = REPEAT.match(text).groups()
    times = whole(digits, 1 << 64)
    opened = Block(number, times, [])
    if not times:
        raise Bad(opened)
    if bracket != b"{":
        raise Bad
    if rest:
        raise Bad(opened)
    return opened


def parsed(number, line, limit):
    """An instruction, a block that begins, CLOSE, or None."""
    line = line.lstrip(BLANKS)
    if not line or line.startswith(b"#"):
        return None
    if line.startswith(b"}"):
        if line[1:].partition(b"#")[0].strip(BLANKS):
            raise Bad(CLOSE)
        return CLOSE
    parts = INSTRUCTION.match(line)
    if not parts:
        raise Bad
    written, tag, arguments, rest = parts.groups()
    name = written.decode().upper()
    if name == "REPEAT" and not arguments:
        return block(number, rest)
    if name not in TAKES or tag != TAGS.get(name, tag):
        raise Bad
    return Instruction(number, name, written.decode(), rates_of(name, arguments), calls_on(name, rest, limit))


# ---- all lines

# The lines that are told as bad, in that order; the items; how many qubits the targets need.
Looked = namedtuple("Looked", "bad items qubits")


def lines_of(data):
    """A byte order mark at the start counts as part of its line, but is passed over."""
    lines = data.split(b"\n")
    if not lines[-1]:
        lines.pop()
    for at, line in enumerate(lines):
        if len(line) > LONGEST_LINE:
            yield None
            return
        yield line if at else line.removeprefix(MARK)


class Look:
    """Items are laid into the innermost block that is open; the first stands for the circuit."""

    def __init__(self):
        self.bad, self.blocks, self.qubits = [], [Block(0, 1, [])], 0

    def take(self, number, line, limit):
        try:
            item, sound = parsed(number, line, limit), True
        except Bad as bad:
            item, sound = bad.item, False
        if not self.lay(item) or not sound:
            self.bad.append(number)

    def lay(self, item):
        """Whether a block may begin or end here, if one does."""
        blocks = self.blocks
        if item == CLOSE:
            return len(blocks) > 1 and bool(blocks.pop())
        if item:
            blocks[-1].items.append(item)
        if isinstance(item, Block):
            blocks.append(item)
            return len(blocks) <= DEEPEST + 1
        if item:
            self.qubits = max([self.qubits, *(q + 1 for call in item.calls for q in call)])
        return True


def look(data, limit=64):
    """The whole circuit. A line that is too long ends it; a block that is never closed is told last, the innermost of the first 64."""
    looked = Look()
    for number, line in enumerate(lines_of(data), 1):
        if line is None:
            return Looked([*looked.bad, number], [], 0)
        looked.take(number, line, limit)
    unclosed = looked.blocks[1 : DEEPEST + 1]
    return Looked(looked.bad + [b.line for b in unclosed[-1:]], looked.blocks[0].items, looked.qubits)


def any_call(items):
    return any(any_call(item.items) if isinstance(item, Block) else item.calls for item in items)


def instructions(items):
    """Each in its turn. A block without calls is gone through once."""
    for item in items:
        if isinstance(item, Instruction):
            yield item
        else:
            for _ in range(item.times if any_call(item.items) else 1):
                yield from instructions(item.items)


def calls(items):
    """Each call: its instruction and qubits."""
    return ((instruction, qubits) for instruction in instructions(items) for qubits in instruction.calls)


# ---- calls


def options_of(data, comment="options"):
    """The options that a comment names, each with its value."""
    words = b"".join(re.findall(b"^# %s:(.*)" % comment.encode(), data, re.MULTILINE)).decode().split()
    return {name.lstrip("-"): value for name, value in zip(words[::2], words[1::2])}


def lent(options, needed):
    """Qubits, K and capacity, the threshold, and the words of a store."""
    n, capacity = int(options.get("qubits", needed)), int(options.get("capacity", 256))
    return n, 1, capacity, float(options.get("threshold", 1e-8)), [0] * (capacity * second.entry_length(n, 1))


def begun(options, needed):
    """The header and words of the fresh sum."""
    *given, words = lent(options, needed)
    a = second.fresh(*given, float(options.get("cutoff", 0)), words)
    assert a.number == 0
    return a.header, a.words


def channel_of(name, p):
    """A channel on one qubit: its call and its rates. None for another instruction."""
    if name in ("I_ERROR", "DEPOLARIZE1"):
        return (second.loss if name == "I_ERROR" else second.depolarizing), p
    paulis = {"X_ERROR": [*p, 0.0, 0.0], "Y_ERROR": [0.0, *p, 0.0], "Z_ERROR": [0.0, 0.0, *p], "PAULI_CHANNEL_1": p}
    return (second.pauli, paulis[name]) if name in paulis else None


def made(header, words, name, p, qubits):
    channel = channel_of(name, p)
    if channel:
        return channel[0](header, words, *channel[1], *qubits)
    gates = {"H": second.turned_h, "S": second.turned_s, "CX": second.turned_cnot, "CNOT": second.turned_cnot}
    if name in gates:
        return second.gate(header, words, gates[name], *qubits)
    if name == "PAULI_CHANNEL_2":
        return second.two_qubit_pauli_error(header, words, p, *qubits)
    if name == "I":
        return second.reset_loss_channel(header, words, *qubits)
    return second.depolarize2(header, words, *p, *qubits)


def lost_too(lost, part, whole):
    """A part of what is left is lost as well."""
    return lost + (1 - lost) * (part / whole if whole > 0 else 0.0)


def lost_after(lost, a, whole):
    """What is lost of the initial weight after a call on a sum of this total. If a branch was dropped, truncating was on a total of 1."""
    if not a.header.count:
        return 1.0
    return lost_too(lost_too(lost, a.lost.dropped, whole), a.lost.truncated, 1.0 if a.counts.dropped else whole)


def tagged(instruction):
    return instruction.written + TAGS.get(instruction.name, b"").decode()


def run(data):
    """The header and words at the end, what a trace shows for each call, and what was lost of the initial weight."""
    options = options_of(data)
    looked = look(data, int(options.get("qubits", 64)))
    assert not looked.bad, looked.bad
    header, words = begun(options, looked.qubits)
    shown, lost = [], 0.0 if header.count else 1.0
    for instruction, qubits in calls(looked.items):
        whole = second.total_weight(second.entries_of(header, words))
        a = made(header, words, instruction.name, instruction.rates, qubits)
        header, words, lost = a.header, a.words, lost_after(lost, a, whole)
        on = ",".join(map(str, qubits))
        shown.append([instruction.line, tagged(instruction), on, a.number, *a.counts, header.count, *a.lost])
        assert a.number == 0, shown[-1]
    return header, words, shown, lost


# ---- cutoffs tried


class NoStep(Exception):
    """An instruction that is no step of a trial, or has one step too many: its line, and which of the two."""


def steps_of(items):
    """Each step: its instruction and qubit."""
    steps = []
    for instruction in instructions(items):
        if instruction.name != "TICK" and not channel_of(instruction.name, instruction.rates):
            raise NoStep(instruction.line, "no step")
        steps += [(instruction, q) for (q,) in instruction.calls]
        if len(steps) > second.MOST_STEPS:
            raise NoStep(instruction.line, "too many")
    return steps


def tried(looked, options):
    """The rows; and of each trial that ended early or lost everything its cutoff, and the step's number, line, qubit and refusal."""
    cutoffs = options["try-cutoffs"].split(",")
    steps = steps_of(looked.items)
    *given, words = lent(options, looked.qubits)
    channels = [(*channel_of(i.name, i.rates), q) for i, q in steps]
    room = 2 * len(cutoffs) * len(steps)
    a, places = second.try_cutoffs(*given, list(map(float, cutoffs)), channels, words, room)
    assert a.number == 0
    rows = [[at, i.line, tagged(i), q] for at, (i, q) in enumerate(steps, 1)]
    ended = []
    for cutoff, first in zip(cutoffs, range(0, room, 2 * len(steps))):
        shown = list(zip(rows, places[first :: 2], places[first + 1 :: 2]))
        for row, number, entries in shown:
            row.append(f"!{number}" if number else entries)
        ended += [(cutoff, *row[:2], row[3], number) for row, number, entries in shown if number or not entries][:1]
    return rows, ended


def tried_rows(data):
    options = options_of(data, "trials")
    return tried(look(data, int(options.get("qubits", 64))), options)[0]


# ---- what is printed


def sheet(header, words, shown, lost):
    return second.write_sheet(header, words, 1 << 24)[1].decode()


def page(header, words, shown, lost):
    return second.write_page(header, words, 1 << 24)[1].decode()


def table(header, words, shown, lost):
    length = second.entry_length(header.n, header.k)
    rows = []
    for place, total in second.table_rows(header, words):
        weight = words[place * length]
        rows.append([place, second.float_of(weight), total, f"{weight:016x}", f"{second.bits_of(total):016x}"])
    return rows


def trace(header, words, shown, lost):
    return shown


def summary(header, words, shown, lost):
    totals = [sum(row[i] for row in shown) for i in range(4, 8)]
    named = zip(("merged", "stored", "dropped", "compared"), totals)
    head = [["qubits", header.n], ["calls", len(shown)], ["entries", header.count]]
    return head + [list(row) for row in named] + [["lost", lost, "of", "the", "initial", "weight"]]


def numbers(text):
    """The rows of a table, a trace or a summary, with no comments."""
    return [line.split() for line in text.splitlines() if not line.startswith("#")]


def same(given, wanted):
    if isinstance(wanted, float):
        return abs(float(given) - wanted) <= 2e-8 * abs(wanted)
    return given == str(wanted)


def agrees(name, kind, given, wanted):
    if isinstance(wanted, str):
        assert given == wanted, f"{name}: another {kind}"
        return
    rows = numbers(given)
    assert len(rows) == len(wanted), f"{name}.{kind}: {len(rows)} rows, {len(wanted)} wanted"
    for row, want in zip(rows, wanted):
        assert len(row) == len(want) and all(map(same, row, want)), f"{name}.{kind}: {row}, wanted {want}"


KINDS = {"sheet": sheet, "page": page, "table": table, "trace": trace, "summary": summary}


def one(kind, data):
    given = tried_rows(data) if kind == "tried" else KINDS[kind](*run(data))
    print(given if isinstance(given, str) else "\n".join(" ".join(map(str, row)) for row in given), end="")


def all_agree():
    for circuit in sorted(EXAMPLES.glob("*.stim")):
        data = circuit.read_bytes()
        ran = run(data)
        wanted = {kind: give(*ran) for kind, give in KINDS.items()}
        if options_of(data, "trials"):
            wanted["tried"] = tried_rows(data)
        for kind, want in wanted.items():
            agrees(circuit.stem, kind, (EXAMPLES / "expected" / f"{circuit.stem}.{kind}").read_text(), want)


def main(words):
    if not words:
        all_agree()
    elif len(words) == 2 and words[0] in [*KINDS, "tried"]:
        one(words[0], pathlib.Path(words[1]).read_bytes())
    else:
        print(__doc__, file=sys.stderr)
        sys.exit(2)


if __name__ == "__main__":
    main(sys.argv[1:])
