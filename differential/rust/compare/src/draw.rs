//! Random sums and calls, all from one seed.

use crate::collision;
use crate::judge::MAX_COEFFICIENTS;
use oracle::{Call, Published, Sum, entry_len, rows_at};
use ours::Ours;

pub struct Draw(pub u64);

impl Draw {
    /// SplitMix64.
    pub fn word(&mut self) -> u64 {
        self.0 = self.0.wrapping_add(collision::GOLDEN);
        collision::mixed(self.0)
    }
    pub fn below(&mut self, n: usize) -> usize {
        (self.word() % n as u64) as usize
    }
    pub fn one_in(&mut self, n: usize) -> bool {
        self.below(n) == 0
    }
    pub fn one_of<T: Copy>(&mut self, of: &[T]) -> T {
        of[self.below(of.len())]
    }
    /// From 0 to below 1.
    pub fn unit(&mut self) -> f64 {
        (self.word() >> 11) as f64 / (1u64 << 53) as f64
    }
}

/// The smallest float above 0.
pub const LEAST: f64 = f64::from_bits(1);

// ---- sums

pub struct Shape {
    pub n: usize,
    pub k: usize,
    pub count: usize,
    pub capacity: usize,
}

/// Mostly small, so that many are tried; one in two hundred up to the limits.
fn shape(d: &mut Draw) -> Shape {
    let (n, k, count) = match d.below(200) {
        0 => (1 + d.below(64), 1 + d.below(MAX_COEFFICIENTS), d.below(257)),
        1..=24 => (d.one_of(&[6, 12, 13, 14, 20, 31, 32, 33, 63, 64]), 1 + d.below(8), d.below(25)),
        _ => (1 + d.below(5), 1 + d.below(3), d.below(9)),
    };
    let room = d.one_of(&[0, 1, 3, 16, 16, 64, 64, 256]);
    Shape { n, k, count, capacity: (count + room).clamp(1, 256) }
}

/// Thresholds whose square is 0, the least above it, infinite, and others.
fn threshold(d: &mut Draw) -> f64 {
    d.one_of(&[0.5, 0.5, 0.5, 1e-8, 2.0, 0.0, -0.0, LEAST, 1e-200, 1.5717277847026288e-162, 1e153, 1e200, f64::MAX])
}

pub fn cutoff(d: &mut Draw) -> f64 {
    d.one_of(&[0.0, 0.0, 0.0, 0.0, -0.0, LEAST, 1e-12, 0.01, 0.125, 0.25, 0.5, 1.0, 3.0, f64::MAX])
}

fn weight(d: &mut Draw, cutoff: f64) -> f64 {
    match d.below(8) {
        0 => d.one_of(&[0.0, -0.0, LEAST, 1e-310, 0.5, 1.0, 1024.0]),
        1 => cutoff.abs().min(1024.0),
        2 | 3 => 0.25,
        _ => d.unit(),
    }
}

/// The bits of one row: any, few, or none.
fn bits(d: &mut Draw, n: usize) -> u64 {
    let all = u64::MAX >> (64 - n);
    match d.below(3) {
        0 => d.word() & all,
        1 => 1 << d.below(n),
        _ => 0,
    }
}

/// Index, re and im bits of each coefficient, in one of three manners: few indices, repeated, with values on both sides of a threshold
/// of 0.5; any number of any coefficients; one 1 at index 0, as after fresh.
fn coefficients(d: &mut Draw, k: usize, manner: usize) -> Vec<u64> {
    let value = |d: &mut Draw| d.one_of(&[1.0, 1.0, 1.1, 0.1, -0.0, 0.5, 5.0, 1e-160, 1e308, -1e308, f64::MAX]);
    match manner {
        0 => (0..k).flat_map(|_| [d.below(2) as u64, d.one_of(&[1.0f64, 0.1, 0.6, 1.4, 5.0]).to_bits(), 0]).collect(),
        1 => (0..d.below(k + 1)).flat_map(|_| [d.word() >> d.below(64), value(d).to_bits(), value(d).to_bits()]).collect(),
        _ => vec![0, 1f64.to_bits(), 0],
    }
}

/// An entry's words without its keys. The rows' x and z are those given; few signs are set, so that branches meet.
fn entry(d: &mut Draw, s: &Shape, rows: &[u64], cutoff: f64, manner: usize) -> Vec<u64> {
    let coefficients = coefficients(d, s.k, manner);
    let loss = if d.one_in(3) { bits(d, s.n) } else { d.below(2) as u64 };
    let mut e = vec![weight(d, cutoff).to_bits(), loss, 0, 0, coefficients.len() as u64 / 3];
    e.extend(coefficients);
    e.resize(rows_at(s.k), 0);
    let few = d.below(4);
    for row in rows.chunks_exact(2) {
        let phase = match few {
            0 => d.below(4),
            1 => 2 * d.one_in(s.n) as usize,
            _ => 0,
        };
        e.extend([row[0], row[1], phase as u64]);
    }
    e
}

/// Entries with one or two sets of rows. Some are alike but for their weight; some, from n 13 on, differ by phases and losses whose
/// masks cancel, so that their keys are truly equal.
fn entries(d: &mut Draw, s: &Shape, cutoff: f64) -> Vec<Vec<u64>> {
    let sets: Vec<Vec<u64>> = (0..1 + d.below(2)).map(|_| (0..4 * s.n).map(|_| bits(d, s.n)).collect()).collect();
    let colliding = s.n >= 13 && d.one_in(2);
    let manner = d.below(4);
    let mut all: Vec<Vec<u64>> = Vec::new();
    for i in 0..s.count {
        let rows = &sets[d.below(sets.len())];
        let mut e = entry(d, s, rows, cutoff, manner);
        if i > 0 && d.one_in(3) {
            e[1..].copy_from_slice(&all[d.below(i)][1..]);
            if colliding {
                collision::cancel(d, s.n, s.k, &mut e);
            }
        }
        all.push(e);
    }
    all
}

/// Keys as found: any, or of few values, so that unlike entries share them.
fn wrong_keys(d: &mut Draw, words: &mut [u64], len: usize) {
    let any = d.one_in(3);
    for e in words.chunks_exact_mut(len) {
        e[2] = if any { d.word() } else { d.below(2) as u64 };
        e[3] = if any { d.word() } else { d.one_of(&[0, 0, collision::sign_mask(0), collision::loss_mask(0)]) };
    }
}

pub fn sum(d: &mut Draw) -> Ours {
    let s = shape(d);
    sum_of(d, s)
}

/// A sum of entries with right keys, wrong ones, or wrong ones and dirty.
pub fn sum_of(d: &mut Draw, s: Shape) -> Ours {
    let (threshold, cutoff) = (threshold(d), cutoff(d));
    let words = entries(d, &s, cutoff).concat();
    let mut sum = Sum { n: s.n, k: s.k, threshold, cutoff, dirty: true, words };
    if d.one_in(2) {
        sum = Published::load(&sum).rebuilt();
    } else {
        wrong_keys(d, &mut sum.words, entry_len(s.n, s.k));
        sum.dirty = d.one_in(2);
    }
    Ours::holding(&sum, s.capacity)
}

// ---- calls

fn rate(d: &mut Draw) -> f64 {
    match d.below(8) {
        0 => d.one_of(&[0.0, -0.0, LEAST, 1e-300, 0.125, 0.5, 1.0]),
        1 | 2 => 0.0,
        3 => 0.25,
        _ => d.unit() / d.one_of(&[1.0, 3.0, 15.0, 1000.0]),
    }
}

/// Now and then one that is refused.
fn any_rate(d: &mut Draw) -> f64 {
    if d.one_in(60) { d.one_of(&[f64::NAN, -LEAST, 1f64.next_up(), f64::INFINITY, 1024.0]) } else { rate(d) }
}

/// Half the time one of them, so that calls meet; now and then one that is refused.
fn qubit(d: &mut Draw, n: usize, often: usize) -> usize {
    match d.below(80) {
        0 => d.one_of(&[n, usize::MAX]),
        1..=40 => often,
        _ => d.below(n),
    }
}

pub fn call(d: &mut Draw, n: usize) -> Call {
    let (p, q) = (qubit(d, n, 0), qubit(d, n, n - 1));
    match d.below(20) {
        0..=4 => {
            let share = d.one_of(&[1.0, 3.0]);
            Call::Pauli(p, std::array::from_fn(|_| any_rate(d) / share))
        }
        5..=7 => Call::Loss(p, any_rate(d)),
        8 | 9 => Call::Depolarize1(p, any_rate(d)),
        10 => Call::TwoPauli(p, q, std::array::from_fn(|_| any_rate(d) / 8.0)),
        11 => Call::Depolarize2(p, q, any_rate(d)),
        12..=14 => Call::Reset(p),
        15 => Call::Truncate,
        16 => Call::Normalise,
        17 => Call::H(p),
        18 => Call::S(p),
        _ => Call::Cnot(p, q),
    }
}

// ---- flaws

/// A header or store that no call accepts, or just about accepts: one field or one word is another.
pub fn flawed(d: &mut Draw, sound: &Ours) -> Ours {
    let mut o = sound.clone();
    let size = &mut o.header.size;
    let odd = d.one_of(&[0, 1, MAX_COEFFICIENTS, MAX_COEFFICIENTS + 1, 64, 65, 256, 257, usize::MAX]);
    match d.below(8) {
        0 => size.n = odd,
        1 => size.k = odd,
        2 => size.capacity = odd,
        3 => o.header.count = d.one_of(&[0, o.header.count + 1, size.capacity, size.capacity + 1, usize::MAX]),
        4 => o.header.threshold = d.one_of(&[f64::NAN, f64::INFINITY, -LEAST, -0.0]),
        5 => o.header.cutoff = d.one_of(&[f64::NAN, f64::INFINITY, -LEAST, -0.0]),
        6 => o.store.resize(o.store.len() + d.below(3) - 1, 0),
        _ => {
            let at = d.below(o.store.len());
            o.store[at] = d.one_of(&[1, 2, 3, 4, 1 << 63, u64::MAX, 1024f64.to_bits(), 1024f64.next_up().to_bits(), f64::NAN.to_bits()]);
        }
    }
    o
}
