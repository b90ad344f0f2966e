//! Each kind of list beside its goal, and what bounds lists of gates.

use crate::goals::span;
use crate::turns::Measured;

/// The most that a list's time may be of the Rust's, at any capacity; none for gates that turn nothing.
fn goal(m: &Measured) -> Option<f64> {
    match m.entries {
        _ if m.name.starts_with("circuit") => Some(0.5),
        0 => None,
        _ => Some(0.8),
    }
}

fn names(all: &[Measured]) -> Vec<&str> {
    let mut names: Vec<&str> = Vec::new();
    for m in all {
        if !names.contains(&m.name.as_str()) {
            names.push(&m.name);
        }
    }
    names
}

/// The same gates on so many entries, with as much capacity: just enough, or 256.
fn with<'a>(all: &'a [Measured], m: &Measured, entries: usize) -> Option<&'a Measured> {
    let same = |o: &&Measured| (&o.name, o.n, o.entries, o.capacity == 256) == (&m.name, m.n, entries, m.capacity == 256);
    all.iter().find(same).filter(|_| m.name.starts_with("gates"))
}

/// The ratio of least times once both sides are rid of what these calls take on no entries.
fn rows_ratio(all: &[Measured], m: &Measured) -> Option<f64> {
    let none = with(all, m, 0)?;
    Some((m.list.least - none.list.least) / (m.theirs.least - none.theirs.least))
}

fn range(values: impl Iterator<Item = f64>) -> String {
    let (low, high) = span(values);
    format!("{low:>5.2} to {high:>5.2}")
}

/// A line a kind: the ratios, how many rows are above the goal, and of those what is left without the calls' own time.
fn by_kind(all: &[Measured]) {
    println!("\nLists beside their goals, at both capacities: ratios of medians, a list's to the Rust's, of least times, of single calls;");
    println!(
        "rows whose ratio of medians is above the goal, and of gates their ratios of least times without what the calls take on no entries"
    );
    for name in names(all) {
        let held: Vec<(&Measured, f64)> = all.iter().filter(|m| m.name == name).filter_map(|m| Some((m, goal(m)?))).collect();
        let of = |ratio: fn(&Measured) -> f64| range(held.iter().map(|(m, _)| ratio(m)));
        print!("{name:<28} {}   least {}", of(Measured::ratio), of(Measured::least_ratio));
        let above: Vec<&Measured> = held.iter().filter(|(m, goal)| *goal < m.ratio()).map(|(m, _)| *m).collect();
        print!("   single {}   goal {}: {:>2} of {:>2} above", of(Measured::single_ratio), held[0].1, above.len(), held.len());
        let left: Vec<f64> = above.iter().filter_map(|m| rows_ratio(all, m)).collect();
        if !left.is_empty() {
            print!(", their rows {}", range(left.into_iter()));
        }
        println!();
    }
}

/// What a gate in a list takes on no entries, and what each row of 16 and 64 entries adds to that.
fn bounds(all: &[Measured]) {
    let most = all.iter().filter(|m| (m.entries, m.capacity) == (64, 64));
    let mut lines = most.filter_map(|m| Some((m, with(all, m, 16)?, with(all, m, 0)?))).peekable();
    if lines.peek().is_some() {
        println!("\nA gate in a list, just enough capacity: on no entries, and each row (nanoseconds, least times; ours / the Rust's)");
    }
    for (m, fewer, none) in lines {
        let each = |m: &Measured| [m.list, m.theirs].map(|time| time.least / m.calls as f64);
        let ([ours, theirs], [few, fews], [alone, bare]) = (each(m), each(fewer), each(none));
        let row = |more: f64| more / (48 * 2 * m.n) as f64;
        let (row, theirs) = (row(ours - few), row(theirs - fews));
        let Measured { name, n, .. } = m;
        println!("{name:<28} n {n:>2}: {alone:>6.1} / {bare:>6.1}   a row {row:>6.2} / {theirs:>6.2}: {:.2}", row / theirs);
    }
}

pub fn print(all: &[Measured]) {
    if !all.is_empty() {
        by_kind(all);
        bounds(all);
    }
}
