//! Which of document 01's numbers a call must be refused with, read plainly from its table. The Rust gives none of them; numbers 6 and 9
//! follow from what it does.

use oracle::{Call, Watch, rows_at};
use ours::{Header, Ours, entry_len};

/// The lowest of 1 to 5 that applies, else 0.
pub fn refusal(o: &Ours, call: Call) -> u64 {
    match sum_refusal(o) {
        n @ 1..=2 => n,
        _ if !qubits_sound(o.header.size.n, call) => 3,
        _ if !rates_sound(call) => 4,
        n => n,
    }
}

/// The same for a call with no qubit and no rate: 1, 2, 5 or 0.
pub fn sum_refusal(o: &Ours) -> u64 {
    if !size_sound(o) {
        1
    } else if !header_sound(&o.header) {
        2
    } else if !words_sound(o) {
        5
    } else {
        0
    }
}

/// 6 or 9, by what became of the branches; for normalise, by the weights it was given.
pub fn late_refusal(before: &Ours, call: Call, watch: &Watch) -> u64 {
    match call {
        Call::Normalise => {
            let weights = listed(before).map(|e| f64::from_bits(e[0]));
            if before.header.count > 0 && weights.fold(0.0, |t, w| t + w) == 0.0 { 9 } else { 0 }
        }
        Call::Reset(_) | Call::H(_) | Call::S(_) | Call::Cnot(..) | Call::Truncate => 0,
        _ if watch.held > before.header.size.capacity => 6,
        _ if watch.dropped > 0 && watch.held > 0 && watch.total == 0.0 => 9,
        _ => 0,
    }
}

/// Of K: document 02, request 4. The Rust has no such limit.
pub const MAX_COEFFICIENTS: usize = 24;

fn size_sound(o: &Ours) -> bool {
    let s = o.header.size;
    let within = (1..=64).contains(&s.n) && (1..=MAX_COEFFICIENTS).contains(&s.k) && (1..=256).contains(&s.capacity);
    within && o.store.len() == s.capacity * entry_len(s)
}

fn header_sound(h: &Header) -> bool {
    let bound = |b: f64| b >= 0.0 && b.is_finite();
    h.count <= h.size.capacity && bound(h.threshold) && bound(h.cutoff)
}

fn qubits_sound(n: usize, call: Call) -> bool {
    match call {
        Call::Pauli(q, _) | Call::Loss(q, _) | Call::Depolarize1(q, _) => q < n,
        Call::Reset(q) | Call::H(q) | Call::S(q) => q < n,
        Call::TwoPauli(p, q, _) | Call::Depolarize2(p, q, _) => p < n && q < n,
        Call::Cnot(a, b) => a < n && b < n && a != b,
        Call::Truncate | Call::Normalise => true,
    }
}

fn rates_sound(call: Call) -> bool {
    let rate = |r: f64| (0.0..=1.0).contains(&r);
    let all = |rates: &[f64]| rates.iter().all(|r| rate(*r)) && rates.iter().fold(0.0, |t, r| t + r) <= 1.0;
    match call {
        Call::Pauli(_, p) => all(&p),
        Call::Loss(_, p) => rate(p),
        Call::Depolarize1(_, p) => rate(p) && all(&[p / 3.0; 3]),
        Call::TwoPauli(_, _, p) => all(&p),
        Call::Depolarize2(_, _, p) => rate(p) && all(&[p / 15.0; 15]),
        _ => true,
    }
}

pub fn listed(o: &Ours) -> impl Iterator<Item = &[u64]> {
    o.store.chunks_exact(entry_len(o.header.size)).take(o.header.count)
}

fn words_sound(o: &Ours) -> bool {
    let past = o.header.count * entry_len(o.header.size);
    listed(o).all(|e| entry_sound(&o.header, e)) && o.store[past..].iter().all(|w| *w == 0)
}

fn entry_sound(h: &Header, e: &[u64]) -> bool {
    let (n, k) = (h.size.n, h.size.k);
    let inside = |word: u64| n == 64 || word >> n == 0;
    let finite = |bits: u64| f64::from_bits(bits).is_finite();
    let (head, rows) = e.split_at(rows_at(k));
    if !(0.0..=1024.0).contains(&f64::from_bits(e[0])) || !inside(e[1]) || e[4] > k as u64 {
        return false;
    }
    let (counted, unused) = head[5..].split_at(3 * e[4] as usize);
    counted.chunks_exact(3).all(|c| finite(c[1]) && finite(c[2]))
        && unused.iter().all(|w| *w == 0)
        && rows.chunks_exact(3).all(|r| inside(r[0]) && inside(r[1]) && r[2] <= 3)
}
