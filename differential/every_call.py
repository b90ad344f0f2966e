"""What examples/c/every_call.c prints: every call, and every number, one line each; and lists of calls, which are made here one by one."""

import math

from second import *

N, K, CAPACITY = 2, 2, 64
RATES = [(i + 1) / 256 for i in range(15)]
# Of a list: the calls that there is room for, and the bytes of a stretch of text; what is in both before it.
MOST, TEXT, PAINT = 16, 127 + CAPACITY * (1 + K + 2 * N) * 64, 7


def digest(words):
    h = 0
    for word in words:
        h = (h ^ word) * 0x100000001B3 & WORD
        h ^= h >> 32
    return h


def tell(call, number, header, h, counts=NO_COUNTS, lost=NO_LOSS, place=0, length=0):
    weights = [f"{bits_of(w):016x}" for w in lost]
    print(call, number, *counts, *weights, place, length, header.count, int(header.dirty), f"{h:016x}")


def put_field(text, at, x):
    return text[:at] + f"{bits_of(x):>21}".encode() + text[at + 21 :]


class Made:
    """What a call of a list gave: the answer of one that changes the sum, or the number of one that looks, and what it shows."""

    def __init__(self, header, words, given):
        looks = not isinstance(given, Answer)
        self.answer = refused(given[0], header, words) if looks else given
        shown = given[1] if looks else []
        self.place = shown if isinstance(shown, int) else 0
        self.words = shown if isinstance(shown, list) else []
        self.text = shown if isinstance(shown, bytes) else b""
        self.length = len(self.words) + len(self.text)

    def told(self, name):
        a = self.answer
        tell(name, a.number, a.header, 0, a.counts, a.lost, self.place, self.length)

    def record(self):
        a = self.answer
        numbers = [a.number, *a.counts, self.place, self.length, *map(bits_of, a.lost), a.header.count, int(a.header.dirty)]
        return numbers + self.words


def digest_records(records):
    """By the digests of all records, each without the paint at its end: the same however much room a record has."""
    for record in records:
        while record and record[-1] == PAINT:
            record.pop()
    return digest([*map(digest, records), *[digest([])] * (MOST - len(records))])


def digest_texts(texts):
    """Each at the start of its stretch; the paint shows behind it."""
    stretches = [text + bytes([PAINT]) * (TEXT - len(text)) for text in texts]
    return digest(b"".join([*stretches, bytes([PAINT]) * TEXT * (MOST - len(texts))]))


class Sum:
    def __init__(self, capacity, cutoff):
        self.words = [0] * (capacity * entry_length(N, K))
        self.changed("fresh", fresh(N, K, capacity, 0.5, cutoff, self.words))

    def changed(self, call, answer):
        self.header, self.words = answer.header, answer.words
        self.told(call, answer)

    def told(self, call, answer):
        """A refused call shows the words that it was given."""
        tell(call, answer.number, answer.header, digest(answer.words), answer.counts, answer.lost)

    def refused(self, call, number):
        tell(call, number, self.header, digest(self.words))

    def call(self, name, made, *arguments):
        self.changed(name, made(self.header, self.words, *arguments))

    def channels(self):
        self.call("pauli_error", pauli, 0.25, 0.125, 0.0625, 0)
        self.call("loss_channel", loss, 0.5, 1)
        self.call("depolarize1", depolarizing, 0.1875, 0)
        self.call("h", gate, turned_h, 0)
        self.call("s", gate, turned_s, 1)
        self.call("cnot", gate, turned_cnot, 0, 1)
        self.call("two_qubit_pauli_error", two_qubit_pauli_error, RATES, 1, 0)
        self.call("depolarize2", depolarize2, 0.25, 0, 1)
        self.call("reset_loss_channel", reset_loss_channel, 1)

    def looks(self):
        number, words = table(self.header, self.words, 2 * CAPACITY)
        tell("table", number, self.header, digest(words), length=len(words))
        number, place = pick(self.header, self.words, 0.75)
        tell("pick", number, self.header, 0, place=place)
        number, words = view(self.header, self.words, 3)
        tell("view", number, self.header, digest(words), length=len(words))
        print(f"view_word {words[3]:016x} {0:016x}")
        number, text = write_page(self.header, self.words, 35 * CAPACITY)
        tell("write_page", number, self.header, digest(text), length=len(text))

    def sheet(self):
        number, text = write_sheet(self.header, self.words, 1 << 20)
        tell("write_sheet", number, self.header, digest(text), length=len(text))
        text = put_field(put_field(text, 105, 1 / 32), 127, 2.0)
        self.changed("read_sheet", read_sheet(text, self.words))
        self.call("normalise", normalise)
        self.call("truncate", truncate)
        return text

    def refusals(self, text):
        header, words = self.header, self.words
        self.told("fresh", fresh(65, K, CAPACITY, 0.5, 0.0, words))
        self.told("fresh", fresh(N, MOST_COEFFICIENTS + 1, 16, 0.5, 0.0, words))
        self.told("fresh", fresh(N, K, CAPACITY, 0.5, math.nan, words))
        self.told("h", gate(header, words, turned_h, N))
        self.told("cnot", gate(header, words, turned_cnot, 1, 1))
        self.refused("view", view(header, words, header.count)[0])
        self.told("pauli_error", pauli(header, words, 0.5, 0.5, 0.5, 0))
        text = put_field(text, 127, 1025.0)
        self.told("read_sheet", read_sheet(text, words))
        self.told("read_sheet", read_sheet(text[:-1], words))
        self.refused("write_sheet", write_sheet(header, words, 126)[0])
        self.refused("write_page", write_page(header, words, 35 * header.count - 1)[0])
        self.refused("pick", pick(header, words, 1.0)[0])

    def list_told(self, call, number, made):
        print(call, number, made, self.header.count, int(self.header.dirty), f"{digest(self.words):016x}")

    def made(self, calls, stop=False):
        """These calls, or those up to the first that is refused."""
        made = []
        for _, call, *arguments in calls:
            made.append(Made(self.header, self.words, call(self.header, self.words, *arguments)))
            self.header, self.words = made[-1].answer.header, made[-1].answer.words
            if stop and made[-1].answer.number:
                break
        return made

    def circuit(self, text, calls, stop=False):
        self.changed("read_sheet", read_sheet(text, self.words))
        made = self.made(calls, stop)
        self.list_told("run_calls", 0, len(made))
        for (name, *_), m in zip(calls, made):
            m.told(name)

    def run(self, number, made):
        self.list_told("run", number, len(made))
        print(f"written {digest_records([m.record() for m in made]):016x} {digest_texts([m.text for m in made]):016x}")

    def shows(self, calls):
        made = self.made(calls)
        self.run(0, made)
        for (name, *_), m in zip(calls, made):
            m.told(name)

    def unfit_lists(self):
        for _ in range(6):
            self.run(19, [])
        self.list_told("run_calls", 19, 0)
        print("not made: no number of this library")
        self.list_told("run_calls", 19, 0)
        self.list_told("run_calls", 0, 0)


    def trials(self, n, cutoffs, qubits, room=8 * 4, number=None):
        """The steps of every_call.c at these qubits; a number of its own is given for slices that do not fit."""
        steps = [(*step, q) for step, q in zip(STEPS, qubits)]
        a, places = try_cutoffs(n, K, CAPACITY, 0.5, cutoffs, steps, self.words, room)
        if number:
            a, places = refused(number, a.header, self.words), []
        self.words = a.words
        tell("try_cutoffs", a.number, ZERO_HEADER if a.number else a.header, digest(self.words), length=len(places))
        for i in range(0, len(places), 8):
            print("trial", *places[i : i + 8])


STEPS = [(pauli, (0.25, 0.125, 0.0625)), (loss, (0.25,)), (depolarizing, (1.0,)), (loss, (0.125,))]
CIRCUIT = [
    ("normalise", normalise),
    ("truncate", truncate),
    ("h", gate, turned_h, 0),
    ("cnot", gate, turned_cnot, 0, 1),
    ("pauli_error", pauli, 0.25, 0.125, 0.0625, 0),
    ("loss_channel", loss, 0.25, 1),
    ("cnot", gate, turned_cnot, 1, 1),
    ("two_qubit_pauli_error", two_qubit_pauli_error, RATES, 1, 0),
    ("depolarize2", depolarize2, 0.25, 0, 1),
    ("pauli_error", pauli, 0.5, 0.5, 0.5, 0),
    ("s", gate, turned_s, 1),
    ("depolarize1", depolarizing, 0.1875, 0),
    ("loss_channel", loss, 0.875, 0),
    ("reset_loss_channel", reset_loss_channel, 1),
    ("h", gate, turned_h, N),
]
SHOWS = [
    ("loss_channel", loss, 0.25, 0),
    ("table", table, 4),
    ("pick", pick, 0.75),
    ("view", view, 1),
    ("sheet", write_sheet, TEXT),
    ("page", write_page, TEXT),
    ("h", gate, turned_h, 1),
    ("table", table, 3),
    ("pick", pick, 1.0),
    ("view", view, 2),
    ("page", write_page, TEXT),
]


def main():
    run = Sum(CAPACITY, 0.0)
    run.channels()
    run.looks()
    text = run.sheet()
    run.refusals(text)
    Sum(1, 0.0).call("loss_channel", loss, 1.0, 0)
    empty = Sum(CAPACITY, 1.0)
    empty.refused("table", table(empty.header, empty.words, 2 * CAPACITY)[0])
    empty.refused("pick", pick(empty.header, empty.words, 0.0)[0])
    run.circuit(text, CIRCUIT)
    run.circuit(text, CIRCUIT, stop=True)
    run.circuit(text, [])
    run = Sum(CAPACITY, 0.0)
    run.shows(SHOWS)
    run.unfit_lists()
    cutoffs, qubits = [0.0, 1 / 64, 0.5, 1.0], [0, 1, 0, 0]
    run.trials(N, cutoffs, qubits)
    run.trials(N, cutoffs[:2], [0, N, 0, 0])
    run.trials(65, cutoffs[:2], qubits)
    run.trials(N, [], qubits)
    run.trials(N, [0.0, math.nan], qubits)
    run.trials(N, cutoffs, qubits, room=8 * 4 - 1)
    for _ in range(3):
        run.trials(N, cutoffs, qubits, number=19)
