//! Each kind of row beside its goal, what bounds a reset, and the check of the whole store beside the speed of a plain loop.

use crate::Measured;
use std::hint::black_box;
use std::time::Instant;

/// The most that our time may be of the Rust's, with just enough capacity; none for what the Rust does without a look at the store.
fn goal(name: &str) -> Option<f64> {
    match name {
        n if n.starts_with("two-qubit") || n.starts_with("depolarize2") => Some(0.3),
        n if n.starts_with("Pauli") || n.starts_with("loss") || n.starts_with("reset") => Some(0.7),
        n if n.starts_with("truncate") || n == "normalise" => None,
        _ => Some(1.0),
    }
}

/// The smallest and the largest.
pub fn span(values: impl Iterator<Item = f64>) -> (f64, f64) {
    values.fold((f64::INFINITY, 0.0), |(low, high), v| (v.min(low), v.max(high)))
}

/// With just enough capacity: the smallest of the row's capacities.
fn just(all: &[Measured]) -> Vec<&Measured> {
    let same = |a: &Measured, b: &Measured| (a.name, a.n, a.k, a.entries) == (b.name, b.n, b.k, b.entries);
    all.iter().filter(|m| all.iter().all(|o| !same(m, o) || m.capacity <= o.capacity)).collect()
}

fn kinds(rows: &[&Measured]) -> Vec<&'static str> {
    let mut names = Vec::new();
    for m in rows {
        if m.theirs.is_some() && !names.contains(&m.name) {
            names.push(m.name);
        }
    }
    names
}

/// A line a kind: the ratios, how many rows are above the goal, and of those what is left without the check.
fn by_kind(title: &str, rows: &[&Measured]) {
    println!("\n{title}: ratios of medians, ours to the Rust's; rows above the goal, and their ratios without the check");
    for name in kinds(rows) {
        let of: Vec<&&Measured> = rows.iter().filter(|m| m.name == name).collect();
        let (low, high) = span(of.iter().filter_map(|m| m.ratio()));
        print!("{name:<28} {low:>6.2} to {high:>6.2}");
        let Some(goal) = goal(name) else {
            println!("   no goal: the Rust does not look at the store");
            continue;
        };
        let above: Vec<&&&Measured> = of.iter().filter(|m| m.ratio() > Some(goal)).collect();
        print!("   goal {goal}: {:>2} of {:>2} above", above.len(), of.len());
        if !above.is_empty() {
            let rest = |m: &Measured| m.theirs.map(|t| (m.ours.median - m.check.median).max(0.0) / t.median);
            let (low, high) = span(above.iter().filter_map(|m| rest(m)));
            let (least, most) = span(above.iter().map(|m| m.check.median / m.ours.median));
            print!(", without the check {low:.2} to {high:.2} (it is {:.0} to {:.0} % of them)", 100.0 * least, 100.0 * most);
        }
        println!();
    }
}

/// How fast a plain loop reads memory itself: far more words than the caches hold. The best of ten, in GB/s.
fn memory() -> f64 {
    let words = vec![1u64; 64 << 20];
    let once = |_| {
        let begun = Instant::now();
        black_box(black_box(&words).iter().fold(0, |any, w| any | w));
        words.len() as f64 * 8.0 / begun.elapsed().as_nanos() as f64
    };
    (0..10).map(once).fold(0.0, f64::max)
}

/// How near the check comes to a plain loop over the same words, by the size of the store.
fn check(all: &[Measured]) {
    println!("\nA plain loop reads memory at {:.1} GB/s.", memory());
    println!("The check of the whole store, beside a plain loop that reads the same words, from the caches too (GB/s, medians)");
    let rows: Vec<&Measured> = all.iter().filter(|m| m.name == "truncate, none goes").collect();
    for m in rows {
        let speed = |ns: f64| m.words as f64 * 8.0 / ns;
        let (check, read) = (speed(m.check.median), speed(m.read.median));
        let Measured { n, k, entries, capacity, .. } = m;
        println!(
            "n {n:>2}, K {k:>2}, {entries:>3} entries, capacity {capacity:>3}: {:>8} bytes, {check:>6.1} of {read:>6.1}: {:.2}",
            m.words * 8,
            check / read
        );
    }
}

/// What bounds a reset: its check, and the words that it moves and clears, where the Rust moves pointers.
fn reset(rows: &[&Measured]) {
    println!(
        "\nReset, half lost, just enough capacity: ours, its check, a plain loop that moves and clears as many words, the Rust's (microseconds, medians)"
    );
    for m in rows {
        if let (Some(moved), Some(theirs)) = (m.moved, m.theirs) {
            let us = |t: crate::Time| t.median / 1000.0;
            let Measured { n, k, entries, .. } = m;
            println!(
                "n {n:>2}, K {k:>2}, {entries:>3} entries: {:>7.2} {:>7.2} {:>7.2} {:>7.2}",
                us(m.ours),
                us(m.check),
                us(moved),
                us(theirs)
            );
        }
    }
}

pub fn print(all: &[Measured]) {
    by_kind("Just enough capacity", &just(all));
    let large: Vec<&Measured> = all.iter().filter(|m| m.capacity == 256).collect();
    by_kind("Capacity 256", &large);
    reset(&just(all));
    check(all);
}
