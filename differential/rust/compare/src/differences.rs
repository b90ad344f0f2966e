//! The inputs of docs/DIFFERENCES.md: the Rust does with each what is said there, and we refuse it with the number that is said. n 1, K 1,
//! threshold 0.5, cutoff 0 and the fresh sum unless said.

use crate::judge::MAX_COEFFICIENTS;
use oracle::{Call, Published, Sum};
use ours::{Ours, Size};
use std::panic::{AssertUnwindSafe, catch_unwind};

/// A weight, and whether qubit 0 is lost.
type Entry = (f64, bool);

pub fn run() {
    let fresh = with(|_| {});
    tried(3, &fresh, 2, Call::Loss(1, 0.5), None);
    tried(4, &fresh, 2, Call::Loss(0, 2.0), Some(&[(1.0, true)]));
    tried(4, &fresh, 2, Call::Loss(0, -1.0), Some(&[(1.0, false)]));
    tried(4, &fresh, 8, Call::Pauli(0, [0.5; 3]), Some(&[(1.0 / 3.0, false); 3]));
    tried(4, &fresh, 2, Call::Loss(0, f64::NAN), Some(&[]));
    tried(2, &with(|s| s.cutoff = -1.0), 2, Call::Loss(0, 1.0), Some(&[(0.0, false), (1.0, true)]));
    tried(5, &with(|s| s.words[0] = 2048f64.to_bits()), 2, Call::Loss(0, 0.5), Some(&[(1024.0, false), (1024.0, true)]));
    tried(6, &fresh, 1, Call::Loss(0, 1.0), Some(&[(1.0, true)]));
    tried(9, &with(|s| s.words[0] = 1), 8, Call::Pauli(0, [0.5, 0.5, 0.0]), Some(&[]));
    tried(9, &with(|s| s.cutoff = 0.5), 8, Call::Depolarize1(0, 1.0), Some(&[]));
    tried(9, &with(|s| s.words[0] = 0), 2, Call::Normalise, Some(&[(f64::NAN, false)]));

    // one that every Pauli leaves as it is, but for its NaN: its rows are empty
    let same = |s: &mut Sum| s.words[8..].fill(0);
    let merged = [(1.0, false)];
    tried(0, &with(same), 8, Call::Pauli(0, [0.125; 3]), Some(&merged));
    let nan = with(|s| {
        same(s);
        s.words[6] = f64::NAN.to_bits();
    });
    tried(5, &nan, 8, Call::Pauli(0, [0.125; 3]), Some(&merged));

    cutoffs_and_limits();
    reset_drops();
    picks();
    println!("docs/DIFFERENCES.md: the Rust does what it says");
}

/// The fresh sum, changed.
fn with(change: impl Fn(&mut Sum)) -> Sum {
    let [mut sum, _] = Published::fresh(1, 1, 0.5, 0.0).sums();
    change(&mut sum);
    sum
}

/// We give the number; the Rust comes to hold these entries, or panics.
fn tried(number: u64, sum: &Sum, capacity: usize, call: Call, left: Option<&[Entry]>) {
    assert_eq!(Ours::holding(sum, capacity).call(call).number, number, "{call:?}");
    let theirs = quietly(|| {
        let mut p = Published::load(sum).plain();
        p.call(call);
        p.weights()
    });
    // NaN is not equal to itself, but its text is
    assert_eq!(format!("{theirs:?}"), format!("{:?}", left.map(<[Entry]>::to_vec)), "{call:?}");
}

/// What it gives, or nothing if it panics.
fn quietly<T>(f: impl FnOnce() -> T) -> Option<T> {
    let told = std::panic::take_hook();
    std::panic::set_hook(Box::new(|_| {}));
    let given = catch_unwind(AssertUnwindSafe(f)).ok();
    std::panic::set_hook(told);
    given
}

/// On an empty list no qubit is looked at. A NaN cutoff keeps nothing. Our limits are none of the Rust's.
fn cutoffs_and_limits() {
    tried(3, &with(|s| s.words.clear()), 2, Call::Loss(1, 0.5), Some(&[]));
    let empty = Published::fresh(1, 1, 0.5, f64::NAN).plain();
    assert_eq!(empty.weights(), []);
    assert_eq!(Ours::fresh(Size { n: 1, k: 1, capacity: 1 }, 0.5, f64::NAN).1.number, 2);
    assert_eq!(Published::fresh(65, 1, 0.5, 0.0).plain().weights().len(), 1);
    for (n, k, capacity) in [(0, 1, 1), (65, 1, 1), (1, MAX_COEFFICIENTS + 1, 1), (1, 1, 0), (1, 1, 257)] {
        assert_eq!(Ours::fresh(Size { n, k, capacity }, 0.5, 0.0).1.number, 1);
    }
}

/// Despite its comment, reset drops what is not above the cutoff, and nothing is normalised.
fn reset_drops() {
    let lost = with(|s| (s.cutoff, s.words[0], s.words[1]) = (0.25, 0.25f64.to_bits(), 1));
    tried(0, &lost, 2, Call::Reset(0), Some(&[]));
    let a = Ours::holding(&lost, 2).call(Call::Reset(0));
    assert_eq!((a.counts.dropped, a.lost.dropped), (1, 0.25));
}

fn picks() {
    let none = with(|s| s.words.clear());
    assert_eq!(Ours::holding(&none, 1).pick(0.5).number, 9);
    assert_eq!(Published::load(&none).sampled().table(), []);
    assert_eq!(quietly(|| Published::load(&none).sampled().pick(0.5)), None);
    let mut two = Published::load(&with(|_| {}));
    two.call(Call::Loss(0, 0.5));
    let [sum, _] = two.sums();
    for (draw, place) in [(f64::NAN, 0), (7.0, 1)] {
        assert_eq!(Ours::holding(&sum, 2).pick(draw).number, 10);
        assert_eq!(two.sampled().pick(draw), place);
    }
}
