//! Each limit and its neighbour, on sums of the least and the largest size; and gates on every set of lost atoms.

use crate::collision;
use crate::draw::{Draw, LEAST};
use crate::judge::MAX_COEFFICIENTS;
use crate::pair::Pair;
use crate::tally::Tally;
use oracle::{Call, rows_at};
use ours::{Ours, Size, entry_len};

pub fn run() {
    let mut tally = Tally::default();
    for n in [1, 64] {
        for k in [1, MAX_COEFFICIENTS] {
            for capacity in [1, 2, 256] {
                at(Size { n, k, capacity }, &mut tally);
            }
        }
    }
    for n in [13, 32, 64] {
        equal_keys(n, &mut tally);
    }
    for k in [MAX_COEFFICIENTS, MAX_COEFFICIENTS + 1, 64] {
        coefficients(k, &mut tally);
    }
    lost_atoms(&mut tally);
    tally.print("limits");
    refused_fresh();
    println!("limits of fresh agree");
}

/// Every call on a fresh sum, and one channel on it with each flaw.
fn at(size: Size, tally: &mut Tally) {
    let fresh = Pair::fresh(size, 0.5, 0.0).unwrap_or_else(|e| panic!("THEY DIFFER: fresh {size:?}: {e}"));
    let from = format!("limits of {size:?}");
    for call in calls(size.n) {
        tally.call(&from, &mut fresh.clone(), call, &mut Draw(0));
    }
    for flaw in flaws(&fresh.ours) {
        for call in [Call::Loss(0, 0.5), Call::Normalise, Call::H(0)] {
            tally.call(&from, &mut Pair::load(flaw.clone()), call, &mut Draw(0));
        }
    }
}

/// Qubits and rates at their limits and past them.
fn calls(n: usize) -> Vec<Call> {
    let mut all = vec![Call::Truncate, Call::Normalise];
    for q in [0, n - 1, n, usize::MAX] {
        all.extend([Call::H(q), Call::S(q), Call::Reset(q), Call::Cnot(q, 0), Call::Cnot(0, q), Call::Depolarize2(q, 0, 0.5)]);
        all.extend([Call::Loss(q, 0.5), Call::Pauli(q, [0.25; 3]), Call::Depolarize1(q, 0.5), Call::TwoPauli(0, q, [0.0625; 15])]);
    }
    for r in [0.0, -0.0, LEAST, -LEAST, 1f64.next_down(), 1.0, 1f64.next_up(), 1024.0, f64::INFINITY, f64::NAN] {
        all.extend([Call::Loss(0, r), Call::Depolarize1(0, r), Call::Depolarize2(0, n - 1, r)]);
        all.extend([[r, 0.0, 0.0], [0.0, r, 0.0], [0.0, 0.0, r]].map(|p| Call::Pauli(0, p)));
        all.extend([0, 14].map(|i| Call::TwoPauli(0, 0, std::array::from_fn(|j| if i == j { r } else { 0.0 }))));
    }
    // totals that round to 1, and to the next float above
    let half_step = f64::EPSILON / 2.0;
    all.extend([half_step, half_step.next_up(), 2.0 * half_step].map(|r| Call::Pauli(0, [0.5, 0.5, r])));
    all
}

/// A fresh sum with one field or one word at a limit, or past it.
fn flaws(fresh: &Ours) -> Vec<Ours> {
    let Size { n, k, capacity } = fresh.header.size;
    let len = entry_len(fresh.header.size);
    let mut all = Vec::new();
    let mut put = |f: &dyn Fn(&mut Ours)| {
        let mut o = fresh.clone();
        f(&mut o);
        all.push(o);
    };
    for v in [0, 1, MAX_COEFFICIENTS, MAX_COEFFICIENTS + 1, 64, 65, 256, 257, usize::MAX] {
        put(&|o| o.header.size.n = v);
        put(&|o| o.header.size.k = v);
        put(&|o| o.header.size.capacity = v);
    }
    for count in [0, 1, capacity, capacity + 1, usize::MAX] {
        put(&|o| o.header.count = count);
    }
    for b in [0.0, -0.0, -LEAST, f64::MAX, f64::INFINITY, f64::NAN] {
        put(&|o| o.header.threshold = b);
        put(&|o| o.header.cutoff = b);
    }
    put(&|o| o.store.truncate(capacity * len - 1));
    put(&|o| o.store.push(0));
    let mut word = |at: usize, v: u64| put(&|o| o.store[at] = v);
    for weight in [0.0, -0.0, LEAST, -LEAST, 1024.0, 1024f64.next_up(), f64::INFINITY, f64::NAN] {
        word(0, weight.to_bits());
    }
    let past = 1u64.checked_shl(n as u32).unwrap_or(0);
    let rows = rows_at(k);
    for at in [1, rows, rows + 1, len - 3, len - 2] {
        for bits in [1 << (n - 1), past, u64::MAX] {
            word(at, bits);
        }
    }
    for small in [3, 4, 5, 7, u64::MAX] {
        word(len - 1, small);
    }
    for count in [0, k as u64, k as u64 + 1, u64::MAX] {
        word(4, count);
    }
    for value in [f64::MAX, f64::INFINITY, f64::NAN] {
        word(6, value.to_bits());
        word(7, value.to_bits());
    }
    // an unused coefficient or an empty slot, where there is one; the two keys, which no call judges
    for at in [rows - 1, capacity * len - 1, 2, 3] {
        word(at, 1);
    }
    all
}

/// Two unlike entries whose keys are truly equal: the branches of one meet those of the other.
fn equal_keys(n: usize, tally: &mut Tally) {
    let (mut o, _) = Ours::fresh(Size { n, k: 1, capacity: 32 }, 0.5, 0.0);
    let len = entry_len(o.header.size);
    for at in 0..n {
        let mut twin = o.store[..len].to_vec();
        collision::cancel(&mut Draw(at as u64), n, 1, &mut twin);
        o.store[len..2 * len].copy_from_slice(&twin);
        o.header.count = 2;
        let mut pair = Pair::load(o.clone());
        for call in [Call::Pauli(0, [0.25; 3]), Call::Loss(n - 1, 0.5), Call::Reset(0), Call::Depolarize1(n - 1, 0.5)] {
            tally.call(&format!("equal keys at n {n}"), &mut pair, call, &mut Draw(0));
        }
    }
}

/// Every call on a sum of one entry that has so many coefficients, all counted, in a store that fits: past the limit of K it is refused.
fn coefficients(k: usize, tally: &mut Tally) {
    let (mut o, _) = Ours::fresh(Size { n: 2, k: 1, capacity: 1 }, 0.5, 0.0);
    let (first, rows) = (o.store[5..8].to_vec(), o.store[8..].to_vec());
    o.header.size = Size { k, capacity: 32, ..o.header.size };
    o.store.truncate(5);
    o.store[4] = k as u64;
    o.store.extend((0..k as u64).flat_map(|index| [index, first[1], first[2]]).chain(rows));
    o.store.resize(32 * entry_len(o.header.size), 0);
    for call in calls(2) {
        tally.call(&format!("limits of K: {k}"), &mut Pair::load(o.clone()), call, &mut Draw(0));
    }
}

/// Every gate on eight entries, one for each set of three atoms that are lost: with the sum dirty and not.
fn lost_atoms(tally: &mut Tally) {
    let (mut o, _) = Ours::fresh(Size { n: 3, k: 1, capacity: 8 }, 0.5, 0.0);
    for call in [Call::H(0), Call::Cnot(0, 1), Call::S(1), Call::H(2), Call::Cnot(2, 1), Call::S(2), Call::H(1)] {
        assert_eq!(o.call(call).number, 0, "{call:?}");
    }
    let len = entry_len(o.header.size);
    for place in 1..8 {
        o.store.copy_within(..len, place * len);
        o.store[place * len + 1] = place as u64;
    }
    o.header.count = 8;
    let others = |a: usize| (0..3).filter(move |b| *b != a).map(move |b| Call::Cnot(a, b));
    for call in (0..3).flat_map(|a| [Call::H(a), Call::S(a)].into_iter().chain(others(a))) {
        for dirty in [false, true] {
            o.header.dirty = dirty;
            tally.call("lost atoms", &mut Pair::load(o.clone()), call, &mut Draw(0));
        }
    }
}

/// A refused fresh call gives a header of zeros and leaves the store, which fits where it can.
fn refused_fresh() {
    let bad_sizes = [0, 65, usize::MAX].map(|v| (v, 1, 1)).to_vec();
    let bad_sizes = [bad_sizes, [0, MAX_COEFFICIENTS + 1, 64, usize::MAX].map(|v| (1, v, 1)).to_vec()].concat();
    let bad_sizes = [bad_sizes, [0, 257, usize::MAX].map(|v| (1, 1, v)).to_vec()].concat();
    let sizes = bad_sizes.into_iter().map(|(n, k, capacity)| (Size { n, k, capacity }, 0.5, 0.0, 1));
    let least = Size { n: 1, k: 1, capacity: 1 };
    let bounds = [-LEAST, f64::INFINITY, f64::NAN].map(|b| [(least, b, 0.0, 2), (least, 0.5, b, 2)]).concat();
    for (size, threshold, cutoff, number) in sizes.chain(bounds) {
        let fits = [size.n, size.k, size.capacity].iter().all(|v| *v < 1000);
        let mut store = vec![7; if fits { size.capacity * entry_len(size) } else { 14 }];
        let a = Ours::fresh_in(size, threshold, cutoff, &mut store);
        let right = a.numbers() == [number, 0, 0, 0, 0, 0, 0, 0, 0] && a.header.words() == [0; 7] && store.iter().all(|w| *w == 7);
        assert!(right, "THEY DIFFER: fresh {size:?} {threshold} {cutoff}: {a:?}");
    }
}
