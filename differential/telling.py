"""Calls on a sum, made by second.py and told on a line as crates/replay does it; and what crates/replay is given to make them."""

from collections import namedtuple

import second
from second import bits_of

# Kinds of calls, as crates/perform has them.
PAULI, LOSS, DEPOLARIZING, PAIRS, DEPOLARIZE2, RESET, H, S, CNOT, TRUNCATE, NORMALISE, TABLE, PICK, SHEET, VIEW, PAGE = range(16)
# Other items of crates/replay.
FRESH, READ, WORD_AT, ALL_WORDS, LARGE, SHOW, BYTE_AT, ALL_BYTES, TITLE = range(20, 29)
LENT, LIST = 30, 31
# The words of a call; the numbers of a record, and behind them what a table or a view shows; the most room that there may be for it.
CALL, NUMBERS, SHOWN, MOST_SHOWN = 18, 11, 512, 581
# What a list gives that does not fit.
DOES_NOT_FIT = 19

# What is given, one item on a line: a kind, how many values follow, and these.
given = []

# A call: its kind, p and q (or a place, or a room), its rates, and the function that makes it of a header, words and a text's room.
Call = namedtuple("Call", "kind p q rates make")
# What a call gives besides the sum: place, length, what goes to the record and what to the text.
Shown = namedtuple("Shown", "place length words text", defaults=(0, 0, [], b""))


def give(kind, *values):
    """Floats stand for their bits."""
    numbers = [bits_of(v) if isinstance(v, float) else int(v) for v in values]
    given.append([kind, len(numbers), *numbers])


def changing(kind, p, q, rates, make):
    """A call that changes the sum: it shows nothing."""
    return Call(kind, p, q, rates, lambda h, w, room: (make(h, w), Shown()))


def pauli(x, y, z, q):
    return changing(PAULI, q, 0, [x, y, z], lambda h, w: second.pauli(h, w, x, y, z, q))


def loss(p, q):
    return changing(LOSS, q, 0, [p], lambda h, w: second.loss(h, w, p, q))


def depolarizing(p, q):
    return changing(DEPOLARIZING, q, 0, [p], lambda h, w: second.depolarizing(h, w, p, q))


def two_qubit(rates, a, b):
    return changing(PAIRS, a, b, rates, lambda h, w: second.two_qubit_pauli_error(h, w, rates, a, b))


def pairs(rest, at, one, a, b):
    """15 rates, all the same but for the one at a place."""
    return two_qubit([one if i == at else rest for i in range(15)], a, b)


def rising_pairs(unit, a, b):
    """15 rates: once, twice, .. 15 times the unit."""
    return two_qubit([i * unit for i in range(1, 16)], a, b)


def depolarize2(p, a, b):
    return changing(DEPOLARIZE2, a, b, [p], lambda h, w: second.depolarize2(h, w, p, a, b))


def reset(q):
    return changing(RESET, q, 0, [], lambda h, w: second.reset_loss_channel(h, w, q))


def h(q):
    return changing(H, q, 0, [], lambda h, w: second.gate(h, w, second.turned_h, q))


def s(q):
    return changing(S, q, 0, [], lambda h, w: second.gate(h, w, second.turned_s, q))


def cnot(a, b):
    return changing(CNOT, a, b, [], lambda h, w: second.gate(h, w, second.turned_cnot, a, b))


truncate = changing(TRUNCATE, 0, 0, [], second.truncate)
normalise = changing(NORMALISE, 0, 0, [], second.normalise)


def looked(number, header, words):
    """A call that changes nothing: accepted or not, its answer is that of a refusal but for the number."""
    return second.refused(number, header, words)


def table(room):
    """A room above that of the record counts as that."""

    def make(h, w, _):
        number, out = second.table(h, w, min(room, SHOWN))
        return looked(number, h, w), Shown(0, len(out), out)

    return Call(TABLE, room, 0, [], make)


def pick(bits):
    def make(h, w, _):
        number, place = second.pick(h, w, second.float_of(bits))
        return looked(number, h, w), Shown(place)

    return Call(PICK, 0, 0, [second.float_of(bits)], make)


def writing(kind, write):
    """A call that writes text."""

    def make(h, w, room):
        number, text = write(h, w, room)
        return looked(number, h, w), Shown(0, len(text), [], text)

    return Call(kind, 0, 0, [], make)


sheet = writing(SHEET, second.write_sheet)
page = writing(PAGE, second.write_page)


def view(place):
    def make(h, w, _):
        number, out = second.view(h, w, place)
        return looked(number, h, w), Shown(0, len(out), out)

    return Call(VIEW, place, 0, [], make)


def digest(numbers):
    """FNV-1a, over bytes or over words."""
    d = 0xCBF29CE484222325
    for v in numbers:
        d = (d ^ v) * 0x100000001B3 & second.WORD
    return d


def digest_record(record):
    """In words that were 7, without those that are 7 at its end: the same however much room it has."""
    used = len(record)
    while used and record[used - 1] == 7:
        used -= 1
    return digest(record[:used])


def digest_log(log, length):
    """By the digests of its records. What is behind the last whole one counts as one more."""
    return digest(digest_record(log[i : i + length]) for i in range(0, len(log), length))


def numbers(values):
    return "".join(f" {v}" for v in values)


def header_words(h):
    return [h.n, h.k, h.capacity, h.count, bits_of(h.threshold), bits_of(h.cutoff), int(h.dirty)]


def record_of(a, shown, room=SHOWN):
    """In words that were 7."""
    record = [a.number, *a.counts, shown.place, shown.length, *map(bits_of, a.lost), a.header.count, int(a.header.dirty), *shown.words]
    return record + [7] * (NUMBERS + room - len(record))


# What is lent: the header's seven words, how many words of the store, how many bytes of the text.
lent = [0] * 9


def lend(**parts):
    """Says what is lent, where it is another: header, words, bytes."""
    old = list(lent)
    if "header" in parts:
        lent[:7] = header_words(parts["header"])
    lent[7] = parts.get("words", lent[7])
    lent[8] = parts.get("bytes", lent[8])
    if lent != old:
        give(LENT, *lent)


class Text:
    """The lent text, which all sums share; its digest is worked out again only where it changed."""

    def __init__(self):
        self.bytes, self.digest = b"", digest(b"")

    def put(self, data):
        if data != self.bytes:
            self.bytes, self.digest = data, digest(data)

    def put_at(self, at, data):
        self.put(self.bytes[:at] + data + self.bytes[at + len(data) :])

    def fill(self, length, v):
        lend(bytes=length)
        give(ALL_BYTES, v)
        self.put(bytes([v]) * length)

    def become(self, data):
        """Byte by byte, where it is another."""
        lend(bytes=len(data))
        old = self.bytes.ljust(len(data), b"\0")
        for at, (a, b) in enumerate(zip(old, data)):
            if a != b or at >= len(self.bytes):
                give(BYTE_AT, at, b)
        self.put(data)


text = Text()


class Sum:
    """A header and a store, with what is done to them."""

    def __init__(self, n, k, capacity, threshold, cutoff, length=None, fill=0):
        self.lend(capacity * second.entry_length(n, k) if length is None else length, fill)
        self.begin(second.fresh(n, k, capacity, threshold, cutoff, self.words), FRESH, n, k, capacity, float(threshold), float(cutoff))

    def lend(self, length, fill):
        lend(words=length)
        give(ALL_WORDS, fill)
        self.words = [fill] * length

    def left(self, a):
        """The sum as a call left it."""
        self.header, self.words = a.header, a.words
        lent[:7] = header_words(a.header)

    def told(self):
        return f", header{numbers(lent[:7])}, digest {digest(self.words)}"

    def begin(self, a, *item):
        give(*item)
        self.left(a)
        print(f" {item[0]} begins {a.number}{self.told()}")

    def call(self, *calls):
        for call in calls:
            self.make(call)

    def make(self, call):
        give(call.kind, call.p, call.q, *call.rates)
        a, shown = call.make(self.header, self.words, len(text.bytes))
        record = record_of(a, shown)
        self.left(a)
        text.put_at(0, shown.text)
        line = f"{numbers([call.kind, call.p, call.q])} gives{numbers(record[:NUMBERS])}{self.told()}"
        line += f", record {digest_record(record)}, text {text.digest}"
        if shown.words:
            line += f", shown{numbers(shown.words[:20])}"
        print(line)

    def run(self, calls, stop=False, shown=SHOWN, room=0, **lengths):
        """The calls as one list. Its log and its words are as long as they need to be, or as said."""
        length = NUMBERS + shown
        log, words = lengths.get("log", len(calls) * length), lengths.get("words", len(calls) * CALL)
        give(LIST, len(calls), stop, shown, room, log, words)
        for call in calls:
            give(call.kind, call.p, call.q, *call.rates)
        sizes = words % CALL == 0 and shown <= MOST_SHOWN and len(calls) * length <= log and len(calls) * room <= len(text.bytes)
        fits = sizes and all(call.kind <= PAGE and (shown >= SHOWN or call.kind not in (TABLE, VIEW)) for call in calls)
        records = self.made(calls, stop, shown, room) if fits else []
        left = [w for record in records for w in record] + [7] * (log - len(records) * length)
        print(f" {LIST} gives {0 if fits else DOES_NOT_FIT} {len(records)}{self.told()}, log {digest_log(left, min(length, NUMBERS + MOST_SHOWN))}, text {text.digest}")
        for i in range(len(calls) if fits else 0):
            print(numbers(left[i * length : i * length + NUMBERS]))

    def made(self, calls, stop, shown, room):
        """The records of the calls that are made."""
        records = []
        for i, call in enumerate(calls):
            a, seen = call.make(self.header, self.words, room)
            self.left(a)
            text.put_at(i * room, seen.text)
            records.append(record_of(a, seen, shown))
            if stop and a.number:
                break
        return records

    def put(self, at, v):
        give(WORD_AT, at, v)
        self.words = self.words[:at] + [v] + self.words[at + 1 :]

    def show(self, count, width):
        give(SHOW, count, width)
        for i in range(0, count, width):
            print(numbers(self.words[i : i + width]))

    def with_header(self, **fields):
        self.header = self.header._replace(**fields)
        lend(header=self.header)

    def with_size(self, n, k, capacity):
        self.with_header(n=n, k=k, capacity=capacity)

    def with_count(self, count):
        self.with_header(count=count)

    def with_bounds(self, threshold, cutoff):
        self.with_header(threshold=threshold, cutoff=cutoff)

    def with_flag(self, dirty):
        self.with_header(dirty=dirty)

    def with_length(self, length):
        """A store of zeros that has another length."""
        self.lend(length, 0)


def title(letter):
    give(TITLE, ord(letter))
    print(letter)
