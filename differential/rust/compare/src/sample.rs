//! Lists of calls and the published answers to them: items for crates/replay, each followed by the line that it must tell. Items begin with
//! a digit, answers with a blank. Refused calls are left out: the Rust has no answer to them. differential/telling.py has the same forms.

use crate::draw::{self, Draw, Shape};
use crate::pair::Pair;
use oracle::Call;
use ours::list::parts;
use ours::{Header, Ours};

const CALLS: usize = 400;
/// The most words that a table or a view shows in a record, which were 7 before.
const SHOWN_WORDS: u64 = 512;

pub fn run(seed: u64) {
    println!(
        "# The published Rust's answers to {CALLS} calls, made by `differential/run sample {seed}`; replay.py adds them to its own cases."
    );
    let mut d = Draw(seed);
    let mut made = 0;
    for number in 0.. {
        let (mut pair, n) = begin(&mut d, number);
        for _ in 0..1 + d.below(20) {
            if made == CALLS {
                return;
            }
            made += step(&mut pair, draw::call(&mut d, n), &mut d) as usize;
        }
    }
}

// ---- a sum begins

/// Every third list from a fresh sum; the eleventh at n 13, where keys can be truly equal.
fn begin(d: &mut Draw, number: usize) -> (Pair, usize) {
    let n = if number == 10 { 13 } else { 1 + d.below(4) };
    let count = if number == 10 { 2 } else { d.below(6) };
    let shape = Shape { n, k: 1 + d.below(3), count, capacity: 24 };
    let o = draw::sum_of(d, shape);
    let Header { size, threshold, cutoff, .. } = o.header;
    if number.is_multiple_of(3) {
        lend(&Header { count: 0, dirty: false, ..o.header }, o.store.len());
        let pair = Pair::fresh(size, threshold, cutoff).expect("they agree");
        item(20, &[size.n as u64, size.k as u64, size.capacity as u64, threshold.to_bits(), cutoff.to_bits()]);
        println!(" 20 begins 0{}", left(&pair));
        return (pair, n);
    }
    lend(&o.header, o.store.len());
    for (at, word) in o.store.iter().enumerate().filter(|(_, word)| **word != 0) {
        item(22, &[at as u64, *word]);
    }
    (Pair::load(o), n)
}

/// A header and a store of zeros; no text.
fn lend(h: &Header, words: usize) {
    item(30, &[&h.words()[..], &[words as u64, 0]].concat());
    item(23, &[0]);
}

// ---- calls

/// The call on both sides and, now and then, the table or a pick of what it left; told if it is accepted.
fn step(pair: &mut Pair, call: Call, d: &mut Draw) -> bool {
    let a = pair.call(call).expect("they agree");
    if a.number != 0 {
        return false;
    }
    let (kind, p, q, rates) = parts(call);
    tell(pair, [kind, p as u64, q as u64], &rates, a.numbers(), &[]);
    pair.look(d).expect("they agree");
    if pair.ours.header.count > 0 && pair.ours.table(&mut [0; 512]).number == 0 {
        let mut sampled = pair.published.sampled();
        let table = sampled.table();
        match d.below(4) {
            0 => tell(pair, [11, SHOWN_WORDS, 0], &[], [0, 0, 0, 0, 0, 0, table.len() as u64, 0, 0], &table),
            1 => {
                let draw = d.unit();
                tell(pair, [12, 0, 0], &[draw], [0, 0, 0, 0, 0, sampled.pick(draw) as u64, 0, 0, 0], &[]);
            }
            _ => {}
        }
    }
    true
}

// ---- lines

fn numbers(values: &[u64]) -> String {
    values.iter().map(|v| format!(" {v}")).collect()
}

fn item(kind: u64, values: &[u64]) {
    println!("{kind} {}{}", values.len(), numbers(values));
}

/// The answer's numbers begin the record; entries and flag follow.
fn tell(pair: &Pair, head: [u64; 3], rates: &[f64], answer: [u64; 9], shown: &[u64]) {
    let rates: Vec<u64> = rates.iter().map(|r| r.to_bits()).collect();
    item(head[0], &[&head[1..], &rates].concat());
    let header = published(pair).header.words();
    let record = [&answer[..], &[header[3], header[6]]].concat();
    let whole = [&record[..], shown].concat();
    let used = whole.iter().rposition(|w| *w != 7).map_or(0, |last| last + 1);
    let (whole, text) = (digest(&whole[..used]), digest(&[]));
    let mut line = format!("{} gives{}{}, record {whole}, text {text}", numbers(&head), numbers(&record), left(pair));
    if !shown.is_empty() {
        line += &format!(", shown{}", numbers(&shown[..shown.len().min(20)]));
    }
    println!("{line}");
}

/// What the published sum holds, as header and store.
fn published(pair: &Pair) -> Ours {
    let [sum, _] = pair.published.sums();
    Ours::holding(&sum, pair.ours.header.size.capacity)
}

/// That header, and the digest of that store.
fn left(pair: &Pair) -> String {
    let o = published(pair);
    format!(", header{}, digest {}", numbers(&o.header.words()), digest(&o.store))
}

/// FNV-1a over words; 0 words stand for an empty text too.
fn digest(words: &[u64]) -> u64 {
    words.iter().fold(0xCBF29CE484222325, |h, w| (h ^ w).wrapping_mul(0x100000001B3))
}
