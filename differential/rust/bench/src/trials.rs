//! Cutoffs tried, timed: ours in one call, ours by single calls, and the Rust's calls, each on a fresh sum for each cutoff. Before that, all
//! three must have as many entries after every step.

use crate::TURNS;
use crate::timing::{Runs, Time};
use oracle::{Call, Plain, Published};
use ours::trials::Steps;
use ours::{Ours, Size, entry_len};
use std::time::Duration;

const THRESHOLD: f64 = 1e-8;
const CUTOFFS: [f64; 8] = [0.1, 0.03, 0.01, 3e-3, 1e-3, 5e-4, 2e-4, 1e-4];

/// Depolarising, losses and dephasing on all atoms in turn.
fn steps(n: usize, count: usize) -> Vec<Call> {
    (0..count)
        .map(|i| match i % 3 {
            0 => Call::Depolarize1(i % n, 0.003),
            1 => Call::Loss(i % n, 0.002),
            _ => Call::Pauli(i % n, [0.0, 0.0, 0.001]),
        })
        .collect()
}

/// How many entries there are after each step of each trial.
fn singly(size: Size, calls: &[Call]) -> Vec<usize> {
    let trial = |cutoff: &f64| {
        let (mut sum, _) = Ours::fresh(size, THRESHOLD, *cutoff);
        calls.iter().map(|call| sum.call(*call).header.count).collect::<Vec<usize>>()
    };
    CUTOFFS.iter().flat_map(trial).collect()
}

/// The Rust's fresh sums. That they are made is not timed.
fn begun(size: Size) -> Vec<Plain> {
    CUTOFFS.iter().map(|cutoff| Published::fresh(size.n, size.k, THRESHOLD, *cutoff).plain()).collect()
}

fn published(sums: &mut [Plain], calls: &[Call]) -> Vec<usize> {
    let mut counts = Vec::new();
    for sum in sums {
        for call in calls {
            sum.call(*call);
            counts.push(sum.entries());
        }
    }
    counts
}

fn print(n: usize, calls: usize, most: usize, sides: [Time; 3]) {
    let name = format!("trials, {} cutoffs", CUTOFFS.len());
    print!("{name:<28} {n:>3} {calls:>5} {most:>5}");
    for time in sides {
        print!(" {:>9.2} {:>9.2}", time.least / 1000.0, time.median / 1000.0);
    }
    let steps = (CUTOFFS.len() * calls) as f64;
    let [tried, single, theirs] = sides.map(|time| time.median);
    print!(" {:>8.2} {:>8.2}      ", tried / theirs, single / theirs);
    for median in [tried, single, theirs] {
        print!(" {:>8.1}", median / steps);
    }
    println!();
}

fn measure(n: usize, count: usize, span: Duration) {
    let (size, calls) = (Size { n, k: 1, capacity: 256 }, steps(n, count));
    let (taken, mut store) = (Steps::of(&calls), vec![0; 256 * entry_len(Size { n, k: 1, capacity: 256 })]);
    let mut out = vec![0; 2 * CUTOFFS.len() * count];
    let answer = taken.try_cutoffs(size, THRESHOLD, &CUTOFFS, &mut store, &mut out);
    let counts: Vec<usize> = out.chunks_exact(2).map(|place| place[1] as usize).collect();
    assert!(answer.number == 0 && out.chunks_exact(2).all(|place| place[0] == 0), "a step is refused");
    assert_eq!(counts, singly(size, &calls), "trials and single calls differ");
    assert_eq!(counts, published(&mut begun(size), &calls), "ours and the Rust's differ");
    let [mut tried, mut single, mut theirs] = [(); 3].map(|_| Runs::new());
    for _ in 0..TURNS {
        tried.add_long(span, || (), |_| taken.try_cutoffs(size, THRESHOLD, &CUTOFFS, &mut store, &mut out).number);
        single.add_long(span, || (), |_| singly(size, &calls));
        theirs.add_long(span, || begun(size), |sums| published(sums, &calls));
    }
    let most = counts.iter().copied().max().unwrap_or(0);
    print(n, count, most, [tried.time(), single.time(), theirs.time()]);
}

pub fn time(span: Duration, name: &str) {
    if !"trials".contains(name) {
        return;
    }
    println!(
        "\nCutoffs tried, K 1, capacity 256: ours in one call, ours by single calls, the Rust's calls, each with a fresh sum for each cutoff."
    );
    println!(
        "                               n steps  most    trials    median    single    median      Rust    median    ratio   single   a step:   trials   single     Rust   (microseconds; ratios of medians to the Rust's; a step in nanoseconds)"
    );
    for (n, count) in [(4, 12), (4, 64), (16, 64), (64, 64)] {
        measure(n, count, span);
    }
}
