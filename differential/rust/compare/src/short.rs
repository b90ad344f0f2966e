//! One call on every short sum, n 1. With K 1: one entry with any rows, or two with the fresh rows, over a grid of weights and rates.
//! With K 3: two entries that may merge, with any two lists of coefficients.

use crate::draw::{Draw, LEAST};
use crate::pair::Pair;
use crate::tally::Tally;
use oracle::{Call, Sum, entry_len};
use ours::Ours;

const GRID: [f64; 6] = [0.0, -0.0, LEAST, 0.5, 1.0, 1024.0];
const CUTOFFS: [f64; 3] = [0.0, 0.5, 1.0];

/// A number read as digits, each with a base of its own.
struct Digits(usize);
impl Digits {
    fn below(&mut self, base: usize) -> usize {
        let digit = self.0 % base;
        self.0 /= base;
        digit
    }
    fn of<T: Copy>(&mut self, list: &[T]) -> T {
        list[self.below(list.len())]
    }
}

/// Every `stride`-th of the cases of each kind.
pub fn run(stride: usize) {
    let all = calls();
    let one = 4 * 4 * 4 * 4 * 2 * GRID.len() * CUTOFFS.len() * all.len();
    each("short, one entry", one, stride, |g| (one_entry(g), g.of(&all)));
    let few = few_calls();
    let two = (9 * 2 * GRID.len()).pow(2) * 3 * CUTOFFS.len() * few.len();
    each("short, two entries", two, stride, |g| (two_entries(g), g.of(&few)));
    let (lists, merging) = (lists(), [Call::Reset(0), Call::Loss(0, 0.5)]);
    let pairs = lists.len().pow(2) * merging.len();
    each("short, coefficients", pairs, stride, |g| (live_and_lost(g.of(&lists), g.of(&lists)), g.of(&merging)));
}

fn each(part: &str, cases: usize, stride: usize, case: impl Fn(&mut Digits) -> (Ours, Call)) {
    let mut tally = Tally::default();
    for number in (0..cases).step_by(stride) {
        let (ours, call) = case(&mut Digits(number));
        tally.call(&format!("{part} {number}"), &mut Pair::load(ours), call, &mut Draw(number as u64));
    }
    tally.print(&format!("{part}, each {stride} of {cases}"));
}

// ---- calls

/// Every call, with rates of the grid; a pair of Paulis has one rate and else 0.
fn calls() -> Vec<Call> {
    let mut all = vec![Call::Reset(0), Call::H(0), Call::S(0), Call::Truncate, Call::Normalise];
    for x in GRID {
        all.extend([Call::Loss(0, x), Call::Depolarize1(0, x), Call::Depolarize2(0, 0, x)]);
        all.extend(GRID.map(|y| GRID.map(|z| Call::Pauli(0, [x, y, z]))).concat());
        all.extend((0..15).map(|i| Call::TwoPauli(0, 0, std::array::from_fn(|j| if i == j { x } else { 0.0 }))));
    }
    all
}

fn few_calls() -> Vec<Call> {
    let mut all = vec![Call::Reset(0), Call::H(0), Call::Truncate, Call::Normalise];
    all.extend(GRID.map(|x| Call::Loss(0, x)));
    all.extend([[0.25; 3], [0.5, 0.0, 0.5], [1.0, 0.0, 0.0], [0.0, -0.0, LEAST], [0.0, 0.5, 0.0]].map(|p| Call::Pauli(0, p)));
    all.extend([0.5, 1.0].map(|x| Call::Depolarize1(0, x)));
    all.extend([0.5, 1.0].map(|x| Call::Depolarize2(0, 0, x)));
    all
}

// ---- sums

/// Its keys are to be rebuilt. Threshold 0.5; room for four entries more.
fn sum(k: usize, words: Vec<u64>, cutoff: f64) -> Ours {
    let count = words.len() / entry_len(1, k);
    Ours::holding(&Sum { n: 1, k, threshold: 0.5, cutoff, dirty: true, words }, count + 4)
}

/// Of the coefficients their count, and K of them.
fn entry(weight: f64, loss: usize, coefficients: &[u64], rows: [usize; 6]) -> Vec<u64> {
    [vec![weight.to_bits(), loss as u64, 0, 0], coefficients.to_vec(), rows.map(|w| w as u64).to_vec()].concat()
}

const ONE: [u64; 4] = [1, 0, 0x3FF0000000000000, 0];

fn one_entry(g: &mut Digits) -> Ours {
    let rows = [g.below(2), g.below(2), g.below(4), g.below(2), g.below(2), g.below(4)];
    sum(1, entry(g.of(&GRID), g.below(2), &ONE, rows), g.of(&CUTOFFS))
}

/// The second has the first's coefficient, one within the threshold of it, or none.
fn two_entries(g: &mut Digits) -> Ours {
    let rows = |g: &mut Digits| [1, 0, g.of(&[0, 2, 3]), 0, 1, g.of(&[0, 2, 3])];
    let first = entry(g.of(&GRID), g.below(2), &ONE, rows(g));
    let second = g.of(&[ONE, [1, 0, 0x3FF4000000000000, 0], [0; 4]]);
    let second = entry(g.of(&GRID), g.below(2), &second, rows(g));
    sum(1, [first, second].concat(), g.of(&CUTOFFS))
}

/// A live entry and a lost one, else the same but for their coefficients: a reset compares the live one with the other, a loss the lost
/// one.
fn live_and_lost(live: [u64; 10], lost: [u64; 10]) -> Ours {
    let rows = [1, 0, 0, 0, 1, 0];
    sum(3, [entry(0.5, 0, &live, rows), entry(0.25, 1, &lost, rows)].concat(), 0.0)
}

/// Every list of at most three coefficients of six: at two indices, of values that are near each other, near 0, or neither.
fn lists() -> Vec<[u64; 10]> {
    let six = [(0, 1.0, 0.0), (0, 1.25, 0.0), (0, 0.25, 0.25), (1, 1.0, 0.0), (1, 1.0, 1.0), (1, 0.25, 0.0)];
    let list = |count: usize, mut number: Digits| {
        let mut words = [0; 10];
        words[0] = count as u64;
        for c in words[1..1 + 3 * count].chunks_exact_mut(3) {
            let (index, re, im): (u64, f64, f64) = number.of(&six);
            c.copy_from_slice(&[index, re.to_bits(), im.to_bits()]);
        }
        words
    };
    (0..4).flat_map(|count| (0..six.len().pow(count as u32)).map(move |number| list(count, Digits(number)))).collect()
}
