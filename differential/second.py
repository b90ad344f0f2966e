#!/usr/bin/env python3
"""A second program for document 01, and for the requests of document 02 that are built.

Masks, keys, likeness, merging, channels, reset, gates, truncate, normalise and fresh were written from document 01's text; of the code
only the calls' names, arguments and contracts were known. The table, the pick, the view, the sheet, written and read, the page, the
trials and the lookup were written with the code known, so they show slips more than misreadings.

A sum is a header and a list of 64-bit words, laid out as "Store words" says. Each call takes both and gives the number,
the header, the four counts, the weights that were lost and the words as they are afterwards; a refused call gives back what it was given.

    python3 differential/second.py replay [FILE]    prints what the program of that name must write, and what it is given into the file
"""

import functools
import importlib
import math
import struct
import sys
from collections import namedtuple

WORD = (1 << 64) - 1
GOLDEN = 0x9E3779B97F4A7C15
SIGN, IMAG, LOSS = 0xA1A1A1A1A1A1A1A1, 0xB2B2B2B2B2B2B2B2, 0xC3C3C3C3C3C3C3C3
PAULI_PAIRS = [a + b for a in "IXYZ" for b in "IXYZ" if a + b != "II"]

Header = namedtuple("Header", "n k capacity count threshold cutoff dirty")
Counts = namedtuple("Counts", "merged stored dropped compared")
# By weight: the branches that were dropped, before normalising; the entries that truncating took.
Lost = namedtuple("Lost", "dropped truncated")
Answer = namedtuple("Answer", "number header counts lost words")
NO_COUNTS, NO_LOSS = Counts(0, 0, 0, 0), Lost(0.0, 0.0)
ZERO_HEADER = Header(0, 0, 0, 0, 0.0, 0.0, False)


def float_of(bits):
    return struct.unpack("<d", struct.pack("<Q", bits))[0]


def bits_of(x):
    return struct.unpack("<Q", struct.pack("<d", x))[0]


# Point 1: masks and keys.


def mixed(z):
    z ^= z >> 30
    z = z * 0xBF58476D1CE4E5B9 & WORD
    z ^= z >> 27
    z = z * 0x94D049BB133111EB & WORD
    return z ^ z >> 31


@functools.lru_cache(maxsize=None)
def row_mask(index, salt):
    return mixed(index * GOLDEN + salt & WORD)


def word_key(rows):
    h = 0
    for x, z, _ in rows:
        for word in (x, z):
            h = mixed((h + GOLDEN & WORD) ^ word)
    return h


def phase_loss_key(rows, loss, n):
    key = 0
    for i, (_, _, phase) in enumerate(rows):
        if phase & 1:
            key ^= row_mask(i, IMAG)
        if phase & 2:
            key ^= row_mask(i, SIGN)
    for q in range(n):
        if loss >> q & 1:
            key ^= row_mask(q, LOSS)
    return key


# Store words.


class Entry:
    """The words of one entry, taken apart: coefficients are (index, re, im), rows (x, z, phase)."""

    def __init__(self, weight, loss, word_key, phase_key, coefficients, rows):
        self.weight, self.loss = weight, loss
        self.word_key, self.phase_key = word_key, phase_key
        self.coefficients, self.rows = coefficients, rows

    def full_key(self):
        return self.word_key ^ self.phase_key

    def lost_at(self, q):
        return self.loss >> q & 1 == 1

    def rebuild_keys(self, n):
        self.word_key = word_key(self.rows)
        self.phase_key = phase_loss_key(self.rows, self.loss, n)


def entry_length(n, k):
    return 5 + 3 * k + 6 * n


def triples(words):
    return [tuple(words[i : i + 3]) for i in range(0, len(words), 3)]


def entry_of(part, k):
    coefficients = [(i, float_of(re), float_of(im)) for i, re, im in triples(part[5 : 5 + 3 * part[4]])]
    return Entry(float_of(part[0]), part[1], part[2], part[3], coefficients, triples(part[5 + 3 * k :]))


def words_of(e, k):
    words = [bits_of(e.weight), e.loss, e.word_key, e.phase_key, len(e.coefficients)]
    for index, re, im in e.coefficients:
        words += [index, bits_of(re), bits_of(im)]
    words += [0, 0, 0] * (k - len(e.coefficients))
    for row in e.rows:
        words += row
    return words


def entries_of(header, words):
    length = entry_length(header.n, header.k)
    return [entry_of(words[i * length : (i + 1) * length], header.k) for i in range(header.count)]


def done(header, words, entries, dirty, counts=NO_COUNTS, lost=NO_LOSS):
    """An accepted call: the entries laid into the store, and 0 in every slot past them."""
    new = [w for e in entries for w in words_of(e, header.k)]
    new += [0] * (len(words) - len(new))
    return Answer(0, header._replace(count=len(entries), dirty=dirty), counts, lost, new)


# The numbers 1 to 5.

# Document 02, request 4.
MOST_COEFFICIENTS = 24


def limits_hold(n, k, capacity, words):
    if not (1 <= n <= 64 and 1 <= k <= MOST_COEFFICIENTS and 1 <= capacity <= 256):
        return False
    return len(words) == capacity * entry_length(n, k)


def bound_sound(x):
    return math.isfinite(x) and not x < 0


def part_sound(part, n, k):
    """No part of number 5 applies to the words of a listed entry."""
    weight, loss, count = float_of(part[0]), part[1], part[4]
    if not 0 <= weight <= 1024 or loss >> n or count > k:
        return False
    coefficients, rows = triples(part[5 : 5 + 3 * k]), triples(part[5 + 3 * k :])
    if not all(math.isfinite(float_of(re)) and math.isfinite(float_of(im)) for _, re, im in coefficients[:count]):
        return False
    if any(c != (0, 0, 0) for c in coefficients[count:]):
        return False
    return all(x >> n == 0 and z >> n == 0 and phase <= 3 for x, z, phase in rows)


def words_sound(header, words):
    length = entry_length(header.n, header.k)
    listed = header.count * length
    if any(words[listed:]):
        return False
    return all(part_sound(words[i : i + length], header.n, header.k) for i in range(0, listed, length))


def first_refusal(header, words, qubits=(), same=False, bad_rates=False):
    """The lowest of 1 to 5 that applies, else 0."""
    if not limits_hold(header.n, header.k, header.capacity, words):
        return 1
    if header.count > header.capacity or not (bound_sound(header.threshold) and bound_sound(header.cutoff)):
        return 2
    if same or any(q >= header.n for q in qubits):
        return 3
    if bad_rates:
        return 4
    return 0 if words_sound(header, words) else 5


def refused(number, header, words):
    return Answer(number, header, NO_COUNTS, NO_LOSS, words)


# Point 2: likeness.


def looked_up(coefficients, index):
    """Document 02, request 3: the value at an index, 0 + 0i if there is none, and how many were read for it, from the last one down."""
    for read, (at, re, im) in enumerate(reversed(coefficients), 1):
        if at == index:
            return (re, im), read
    return (0.0, 0.0), len(coefficients)


def alike(existing, other, threshold):
    if existing.loss != other.loss or len(existing.coefficients) != len(other.coefficients):
        return False
    if existing.rows != other.rows:
        return False
    limit = threshold * threshold
    for index, re, im in existing.coefficients:
        (other_re, other_im), _ = looked_up(other.coefficients, index)
        re, im = re - other_re, im - other_im
        if not re * re + im * im < limit:
            return False
    return True


# Point 3: branches merged into the list, one by one.


def find(entries, branch, threshold):
    """The first entry that is alike, and how many were compared in full: those whose stored key is the branch's."""
    compared = 0
    for e in entries:
        if e.full_key() == branch.full_key():
            compared += 1
            if alike(e, branch, threshold):
                return e, compared
    return None, compared


def merge(entries, branches, threshold, cutoff):
    """What became of the branches, and the weights of those that were dropped, added in order."""
    merged = stored = dropped = compared = 0
    lost = 0.0
    for branch in branches:
        found, tested = find(entries, branch, threshold)
        compared += tested
        if found:
            found.weight = found.weight + branch.weight
            merged += 1
        elif branch.weight > cutoff:
            entries.append(branch)
            stored += 1
        else:
            dropped += 1
            lost = lost + branch.weight
    return Counts(merged, stored, dropped, compared), lost


# Point 4: the sum.


def total_weight(entries):
    total = 0.0
    for e in entries:
        total = total + e.weight
    return total


def normalised(entries):
    """Each weight divided by the total; False for a non-empty list whose total is 0."""
    total = total_weight(entries)
    if entries and total == 0:
        return False
    for e in entries:
        e.weight = e.weight / total
    return True


def truncated(entries, cutoff):
    """What is left, and the weights of what went, added in list order."""
    kept = [e for e in entries if e.weight > cutoff]
    taken = total_weight(e for e in entries if not e.weight > cutoff)
    if len(kept) < len(entries):
        normalised(kept)
    return kept, taken


def fresh(n, k, capacity, threshold, cutoff, words):
    if not limits_hold(n, k, capacity, words):
        return refused(1, ZERO_HEADER, words)
    if not (bound_sound(threshold) and bound_sound(cutoff)):
        return refused(2, ZERO_HEADER, words)
    rows = [(1 << i, 0, 0) for i in range(n)] + [(0, 1 << i, 0) for i in range(n)]
    e = Entry(1.0, 0, 0, 0, [(0, 1.0, 0.0)], rows)
    e.rebuild_keys(n)
    header = Header(n, k, capacity, 0, threshold, cutoff, False)
    return done(header, words, [e] if 1.0 > cutoff else [], False)


def normalise(header, words):
    number = first_refusal(header, words)
    if number:
        return refused(number, header, words)
    entries = entries_of(header, words)
    if not normalised(entries):
        return refused(9, header, words)
    return done(header, words, entries, header.dirty)


def truncate(header, words):
    number = first_refusal(header, words)
    if number:
        return refused(number, header, words)
    kept, taken = truncated(entries_of(header, words), header.cutoff)
    return done(header, words, kept, header.dirty, lost=Lost(0.0, taken))


# Point 5: channels. An arm is a rate and what it changes: (letter, qubit) for each Pauli, or ("loss", qubit).


def flipped(row, letter, q):
    x, z, phase = row
    x_set, z_set = x >> q & 1, z >> q & 1
    flips = {"I": 0, "X": z_set, "Y": x_set ^ z_set, "Z": x_set}[letter]
    return x, z, phase ^ 2 * flips


def branch_of(parent, weight, changes):
    loss, key, rows = parent.loss, parent.phase_key, parent.rows
    for kind, q in changes:
        if kind == "loss":
            loss ^= 1 << q
            key ^= row_mask(q, LOSS)
        else:
            rows = [flipped(row, kind, q) for row in rows]
    for i, (old, new) in enumerate(zip(parent.rows, rows)):
        if old != new:
            key ^= row_mask(i, SIGN)
    return Entry(weight, loss, parent.word_key, key, parent.coefficients, rows)


def listed_for_merging(header, words):
    """The entries at the start of a channel or reset: a dirty sum's keys are rebuilt."""
    entries = entries_of(header, words)
    if header.dirty:
        for e in entries:
            e.rebuild_keys(header.n)
    return entries


def folded(rates):
    total = 0.0
    for rate in rates:
        total = total + rate
    return total


def run_channel(header, words, qubits, named_rates, arms):
    total = folded(rate for rate, _ in arms)
    bad_rates = any(not 0 <= rate <= 1 for rate in named_rates) or total > 1
    number = first_refusal(header, words, qubits, bad_rates=bad_rates)
    if number:
        return refused(number, header, words)
    entries = listed_for_merging(header, words)
    branches = []
    for e in entries:
        if not any(e.lost_at(q) for q in qubits):
            branches += [branch_of(e, e.weight * rate, changes) for rate, changes in arms]
            e.weight = e.weight * (1.0 - total)
    counts, lost = merge(entries, branches, header.threshold, header.cutoff)
    if len(entries) > header.capacity:
        return refused(6, header, words)
    if counts.dropped and not normalised(entries):
        return refused(9, header, words)
    kept, taken = truncated(entries, header.cutoff)
    return done(header, words, kept, False, counts, Lost(lost, taken))


def pauli(header, words, x, y, z, q):
    arms = [(x, [("X", q)]), (y, [("Y", q)]), (z, [("Z", q)])]
    return run_channel(header, words, [q], [x, y, z], arms)


def loss(header, words, p, q):
    return run_channel(header, words, [q], [p], [(p, [("loss", q)])])


def depolarizing(header, words, p, q):
    return run_channel(header, words, [q], [p], [(p / 3, [(letter, q)]) for letter in "XYZ"])


def pair_arms(rates, a, b):
    return [(rate, [(pair[0], a), (pair[1], b)]) for rate, pair in zip(rates, PAULI_PAIRS)]


def two_qubit_pauli_error(header, words, rates, a, b):
    return run_channel(header, words, [a, b], rates, pair_arms(rates, a, b))


def depolarize2(header, words, p, a, b):
    return run_channel(header, words, [a, b], [p], pair_arms([p / 15] * 15, a, b))


# Point 6: reset.


def reset_loss_channel(header, words, q):
    number = first_refusal(header, words, [q])
    if number:
        return refused(number, header, words)
    entries = listed_for_merging(header, words)
    leaving = []
    for place in reversed(range(len(entries))):
        if entries[place].lost_at(q):
            leaving.append(entries[place])
            entries[place] = entries[-1]
            entries.pop()
    live = [branch_of(e, e.weight, [("loss", q)]) for e in leaving]
    counts, lost = merge(entries, live, header.threshold, header.cutoff)
    return done(header, words, entries, False, counts, Lost(lost, 0.0))


# Point 8: gates. A gate turns one row; r is phase bit 1. Document 02, request 5: the rows of an entry stay where one of its qubits is lost.


def turned_h(row, q):
    x, z, phase = row
    xq, zq = x >> q & 1, z >> q & 1
    swap = (xq ^ zq) << q
    return x ^ swap, z ^ swap, phase ^ 2 * (xq & zq)


def turned_s(row, q):
    x, z, phase = row
    xq, zq = x >> q & 1, z >> q & 1
    return x, z ^ xq << q, phase ^ 2 * (xq & zq)


def turned_cnot(row, a, b):
    x, z, phase = row
    xa, za, xb, zb = x >> a & 1, z >> a & 1, x >> b & 1, z >> b & 1
    return x ^ xa << b, z ^ zb << a, phase ^ 2 * (xa & zb & (xb ^ za ^ 1))


def gate(header, words, turned, *qubits):
    same = turned is turned_cnot and qubits[0] == qubits[1]
    number = first_refusal(header, words, qubits, same=same)
    if number:
        return refused(number, header, words)
    entries = entries_of(header, words)
    for e in entries:
        if not any(e.lost_at(q) for q in qubits):
            e.rows = [turned(row, *qubits) for row in e.rows]
    return done(header, words, entries, True)


# Point 7: the sampling table and the pick.


def table_rows(header, words):
    """List place and total of each table entry: stable order by falling weight, running totals from 0."""
    length = entry_length(header.n, header.k)
    weights = [float_of(words[i * length]) for i in range(header.count)]
    rows, total = [], 0.0
    for place in sorted(range(header.count), key=lambda i: -weights[i]):
        total = total + weights[place]
        rows.append((place, total))
    return rows


def table(header, words, room):
    """The number, and the words written."""
    number = first_refusal(header, words)
    if not number:
        number = 8 if room < 2 * header.count else 9 if header.count == 0 else 0
    if number:
        return number, []
    return 0, [w for place, total in table_rows(header, words) for w in (place, bits_of(total))]


def pick(header, words, draw):
    """The number and the place."""
    number = first_refusal(header, words)
    if not number:
        number = 9 if header.count == 0 else 10 if not 0 <= draw < 1 else 0
    if number:
        return number, 0
    rows = table_rows(header, words)
    return 0, next((place for place, total in rows if total > draw), rows[-1][0])


# The view of one entry.


def view(header, words, place):
    """The number, and the words shown. (A place that is not below the count is 3, as a qubit that is not below n.)"""
    number = first_refusal(header, words, same=place >= header.count)
    length = entry_length(header.n, header.k)
    return (number, []) if number else (0, words[place * length : place * length + length])


# Point 9: the sheet, written.


def line(numbers):
    return "".join(f"{v:>21}" for v in numbers) + "\n"


def sheet_text(header, words):
    text = line([header.n, header.k, header.capacity, header.count, bits_of(header.threshold), bits_of(header.cutoff)])
    length = entry_length(header.n, header.k)
    for at in range(0, header.count * length, length):
        part = words[at : at + length]
        text += line([part[0], part[1], part[4]])
        for numbers in triples(part[5 : 5 + 3 * part[4]]) + triples(part[5 + 3 * header.k :]):
            text += line(numbers)
    return text


def written(text_of, header, words, room):
    """The number, and the bytes written."""
    number = first_refusal(header, words)
    if number:
        return number, b""
    text = text_of(header, words).encode()
    return (8, b"") if room < len(text) else (0, text)


def write_sheet(header, words, room):
    return written(sheet_text, header, words, room)


# Point 9: the sheet, read.


def number_in(columns):
    """The number of which these columns are the field, if it is below 2^64."""
    digits = columns.lstrip(b" ")
    if not digits.isdigit():
        return None
    v = int(digits)
    return v if v <= WORD and columns == f"{v:>21}".encode() else None


def numbers_on(text, m):
    """The m numbers of a line."""
    if len(text) != 21 * m + 1 or text[-1] != 10:
        return None
    numbers = [number_in(text[21 * j : 21 * j + 21]) for j in range(m)]
    return None if None in numbers else numbers


def lines_of(text):
    lines = [numbers_on(text[i : i + 64], 3) for i in range(0, len(text), 64)]
    return None if None in lines else lines


def parts_on(lines, n, count):
    """For each entry its line, its coefficients and its rows, if the lines are as many as these ask for."""
    parts = []
    for _ in range(count):
        if not lines:
            return None
        own, lines = lines[0], lines[1:]
        coefficients, lines = lines[: own[2]], lines[own[2] :]
        rows, lines = lines[: 2 * n], lines[2 * n :]
        if len(coefficients) < own[2] or len(rows) < 2 * n:
            return None
        parts.append((own, coefficients, rows))
    return None if lines else parts


def words_on(own, coefficients, rows, k):
    """An entry's words, its keys 0."""
    words = [own[0], own[1], 0, 0, own[2]]
    for numbers in coefficients + [[0, 0, 0]] * (k - own[2]) + rows:
        words += numbers
    return words


def read_sheet(text, words):
    head = numbers_on(text[:127], 6)
    lines = lines_of(text[127:])
    if head is None or lines is None:
        return refused(7, ZERO_HEADER, words)
    n, k, capacity, count = head[:4]
    parts = parts_on(lines, n, count)
    if parts is None:
        return refused(7, ZERO_HEADER, words)
    header = Header(n, k, capacity, count, float_of(head[4]), float_of(head[5]), True)
    number = 0
    if not limits_hold(n, k, capacity, words):
        number = 1
    elif count > capacity or not (bound_sound(header.threshold) and bound_sound(header.cutoff)):
        number = 2
    elif not all(own[2] <= k and part_sound(words_on(own, cs, rows, k), n, k) for own, cs, rows in parts):
        number = 5
    if number:
        return refused(number, ZERO_HEADER, words)
    laid = [w for part in parts for w in words_on(*part, k)]
    return Answer(0, header, NO_COUNTS, NO_LOSS, laid + [0] * (len(words) - len(laid)))


# Document 02, request 1: the weight page.


def share(weight):
    """In parts per million, cut down: exactly, by the fraction that the float is."""
    numerator, denominator = weight.as_integer_ratio()
    return numerator * 1_000_000 // denominator


def page_text(header, words):
    entries = enumerate(entries_of(header, words), 1)
    return "".join(f"{place:>5}{share(e.weight):>11}  {e.loss:016X}\n" for place, e in entries)


def write_page(header, words, room):
    return written(page_text, header, words, room)


# Document 02, request 2: cutoffs tried before a campaign. A step is a channel on one qubit, its rates and the qubit.

MOST_CUTOFFS = 8
MOST_STEPS = 64


def trial(n, k, capacity, threshold, cutoff, steps, words):
    """The last call's answer, and for each step two words: after a refusal those of the refused call."""
    a = fresh(n, k, capacity, threshold, cutoff, words)
    places = []
    for channel, rates, q in steps:
        if a.number == 0:
            a = channel(a.header, a.words, *rates, q)
        places += [a.number, a.header.count]
    return a, places


def trials_refusal(n, k, capacity, threshold, cutoffs, steps, words, room):
    """What is judged before the first trial: 1, 11, 2 and 8, in this order, else 0."""
    if not limits_hold(n, k, capacity, words):
        return 1
    if not (1 <= len(cutoffs) <= MOST_CUTOFFS and 1 <= len(steps) <= MOST_STEPS):
        return 11
    if not all(bound_sound(x) for x in (threshold, *cutoffs)):
        return 2
    return 8 if room < 2 * len(cutoffs) * len(steps) else 0


def try_cutoffs(n, k, capacity, threshold, cutoffs, steps, words, room):
    """The answer, with the last trial's sum, and the words written: cutoff after cutoff."""
    number = trials_refusal(n, k, capacity, threshold, cutoffs, steps, words, room)
    if number:
        return refused(number, ZERO_HEADER, words), []
    shown = []
    for cutoff in cutoffs:
        a, places = trial(n, k, capacity, threshold, cutoff, steps, words)
        words = a.words
        shown += places
    return Answer(0, a.header, NO_COUNTS, NO_LOSS, words), shown


PROGRAMS = ("masks_run", "view_run", "lookup_run", "replay", "list_run", "trials_run", "planner", "every_call")


def main(name, given_to=None):
    cases = importlib.import_module(name)
    cases.main()
    if given_to:
        with open(given_to, "w") as file:
            file.writelines(" ".join(map(str, item)) + "\n" for item in cases.given)


if __name__ == "__main__":
    sys.dont_write_bytecode = True
    if len(sys.argv) not in (2, 3) or sys.argv[1] not in PROGRAMS:
        print(__doc__, file=sys.stderr)
        sys.exit(2)
    main(*sys.argv[1:])
