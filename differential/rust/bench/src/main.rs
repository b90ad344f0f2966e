//! Times of our calls and of the published Rust's, side by side in one process, on the same sums.
//!
//!     bench [MILLISECONDS [NAME]]     for each side of a row, in all (9, if none is given); only rows with NAME in theirs
//!
//! Before each run the sum is copied anew, untimed, so it is in the cache as far as it fits; nothing else is cleared. A row's two sides
//! take turns, thirty each, so that both have the processor at its fast and slow times. What a call gives is used, so that nothing is
//! optimised away. The Rust has a quick hash in place of document 01's word key. Beside each row stands what our check of the whole store
//! takes, which the Rust does not make: a truncate of the same sum from which nothing goes. The published code writes no page; beside ours
//! stands one over its entries, by 128-bit numbers and `write!`. At the end each kind of row is held to its
//! goal, and the check to the speed at which a plain loop reads the same words. Rows of lists follow (turns.rs), and of trials (trials.rs).

mod circuit;
mod goals;
mod list_goals;
mod lists;
mod sums;
mod timing;
mod trials;
mod turns;

use oracle::{Call, Published, Sum, entry_len, rows_at};
use ours::Ours;
use std::hint::black_box;
use std::time::Duration;
use sums::{Kin, parted, sum};
use timing::{Runs, Time};

/// The turns that each side of a row takes.
const TURNS: u32 = 30;

/// What is timed: one call, or what the Rust has no single call for.
#[derive(Clone, Copy)]
enum Timed {
    Call(Call),
    Table,
    Pick,
    WriteSheet,
    ReadSheet,
    WritePage,
}

struct Row {
    name: &'static str,
    sum: Sum,
    timed: Timed,
}

struct Measured {
    name: &'static str,
    n: usize,
    k: usize,
    entries: usize,
    capacity: usize,
    ours: Time,
    theirs: Option<Time>,
    /// The check alone, and a plain loop over the same words.
    check: Time,
    read: Time,
    /// For a reset: a plain loop that moves and clears as many words.
    moved: Option<Time>,
    /// Of the store.
    words: usize,
    /// Of the sheet.
    bytes: usize,
}

impl Measured {
    /// Of the medians, ours to the Rust's.
    fn ratio(&self) -> Option<f64> {
        self.theirs.map(|t| self.ours.median / t.median)
    }
}

// ---- rows

/// Every kind of call, on `count` entries. A sum whose branches would need more than 256 entries is left out.
fn rows(n: usize, k: usize, count: usize) -> Vec<Row> {
    let mut rows = Vec::new();
    let mut row = |name, sum: &Sum, timed| rows.push(Row { name, sum: sum.clone(), timed });
    let pauli = Timed::Call(Call::Pauli(0, [0.01, 0.02, 0.03]));
    let strangers = sum(n, k, count, Kin::Strangers, 0.0);
    let one = sum(n, k, count, Kin::OneQubit, 0.0);
    let two = sum(n, k, count / 16 * 16, Kin::TwoQubits, 0.0);
    let halves = sum(n, k, count, Kin::HalfLost, 0.0);
    let mixed = sum(n, k, count, Kin::HalfLostAtOther, 0.0);

    row("Pauli, all merge", &one, pauli);
    row("Pauli, all merge, dirty", &Sum { dirty: true, ..one.clone() }, pauli);
    row("Pauli, all dropped", &sum(n, k, count, Kin::Strangers, 1e-3), Timed::Call(Call::Pauli(0, [1e-3; 3])));
    if 4 * count <= 256 {
        row("Pauli, all stored", &strangers, pauli);
        row("Pauli, all stored, dirty", &Sum { dirty: true, ..strangers.clone() }, pauli);
    }
    row("two-qubit Pauli, all merge", &two, Timed::Call(Call::TwoPauli(0, 1, [0.01; 15])));
    row("depolarize2, all merge", &two, Timed::Call(Call::Depolarize2(0, 1, 0.15)));
    if 16 * count <= 256 {
        row("depolarize2, all stored", &strangers, Timed::Call(Call::Depolarize2(0, 1, 0.15)));
    }
    row("loss, half lost, all merge", &halves, Timed::Call(Call::Loss(0, 0.1)));
    if 2 * count <= 256 {
        row("loss, all stored", &strangers, Timed::Call(Call::Loss(0, 0.1)));
    }
    row("reset, half lost, all merge", &halves, Timed::Call(Call::Reset(0)));
    let other = Timed::Call(Call::Pauli(1, [0.01, 0.02, 0.03]));
    row("Pauli, half lost", &mixed, other);
    row("Pauli, half lost, parted", &parted(&mixed), other);
    if k > 1 {
        row("Pauli, by lookup", &near(&one), pauli);
        row("two-qubit Pauli, by lookup", &near(&two), Timed::Call(Call::TwoPauli(0, 1, [0.01; 15])));
        row("reset, by lookup", &near(&halves), Timed::Call(Call::Reset(0)));
    }
    row("truncate, none goes", &strangers, Timed::Call(Call::Truncate));
    row("truncate, half goes", &half_light(&strangers), Timed::Call(Call::Truncate));
    row("normalise", &strangers, Timed::Call(Call::Normalise));
    row("H", &strangers, Timed::Call(Call::H(0)));
    row("S", &strangers, Timed::Call(Call::S(0)));
    row("CNOT", &strangers, Timed::Call(Call::Cnot(0, 1)));
    row("H, half lost", &halves, Timed::Call(Call::H(0)));
    row("CNOT, half lost", &halves, Timed::Call(Call::Cnot(1, 0)));
    row("table", &strangers, Timed::Table);
    row("table and pick", &strangers, Timed::Pick);
    row("write sheet", &strangers, Timed::WriteSheet);
    row("read sheet", &strangers, Timed::ReadSheet);
    row("write page", &strangers, Timed::WritePage);
    rows
}

/// The coefficients of any two entries are near but not the same, so that each value is looked up in a comparison.
fn near(sum: &Sum) -> Sum {
    let mut s = sum.clone();
    for (i, e) in s.words.chunks_exact_mut(entry_len(sum.n, sum.k)).enumerate() {
        for coefficient in e[5..rows_at(sum.k)].chunks_exact_mut(3) {
            coefficient[1] = (f64::from_bits(coefficient[1]) + 1e-6 * i as f64).to_bits();
        }
    }
    s
}

/// Every second entry's weight is below the cutoff.
fn half_light(sum: &Sum) -> Sum {
    let mut s = Sum { cutoff: 1e-6, ..sum.clone() };
    for e in s.words.chunks_exact_mut(2 * entry_len(sum.n, sum.k)) {
        e[0] = 1e-9f64.to_bits();
    }
    s
}

// ---- one row

/// The capacity that the call just needs: its branches are held before it truncates.
fn needed(row: &Row) -> usize {
    let mut p = Published::load(&row.sum);
    match row.timed {
        Timed::Call(call) => p.call(call).held.max(entries(&row.sum)),
        _ => entries(&row.sum),
    }
}

fn entries(s: &Sum) -> usize {
    s.words.len() / entry_len(s.n, s.k)
}

fn measure(row: &Row, capacity: usize, span: Duration) -> Measured {
    let start = Ours::holding(&row.sum, capacity);
    let mut plain = Published::load(&row.sum).plain();
    let mut text = vec![0u8; 4 << 20];
    let bytes = start.write_sheet(&mut text).length;
    let sheet = text[..bytes].to_vec();
    let (mut ours, mut theirs, mut check, mut read) = (Runs::new(), Runs::new(), Runs::new(), Runs::new());
    let mut moved = row.name.starts_with("reset, half").then(Runs::new);
    let kept = Ours { header: ours::Header { cutoff: 0.0, ..start.header }, ..start.clone() };
    for _ in 0..TURNS {
        check.add(span, || kept.clone(), |o| o.call(Call::Truncate));
        read.add(span, || kept.store.clone(), |w| w.iter().fold(0, |any, w| any | w));
        if let Some(moved) = &mut moved {
            moved.add(span, || kept.store.clone(), |w| close_up(w, entry_len(row.sum.n, row.sum.k), entries(&row.sum)));
        }
        match row.timed {
            Timed::Call(call) => {
                ours.add(span, || start.clone(), |o| o.call(call));
                theirs.add(span, || plain.clone(), |p| p.call(call));
            }
            Timed::Table => {
                ours.add(span, || vec![0; 512], |out| start.table(out));
                theirs.add(span, || (), |_| plain.sampled());
            }
            Timed::Pick => {
                ours.add(span, || (), |_| start.pick(black_box(0.5)));
                theirs.add(span, || (), |_| plain.sampled().pick(black_box(0.5)));
            }
            Timed::WriteSheet => ours.add(span, || (), |_| start.write_sheet(&mut text)),
            Timed::ReadSheet => ours.add(span, || start.store.clone(), |store| Ours::read_sheet(&sheet, store)),
            Timed::WritePage => {
                ours.add(span, || (), |_| start.write_page(&mut text));
                theirs.add(span, || (), |_| plain.page());
            }
        }
    }
    agree(row, &start, &plain);
    let compared = !matches!(row.timed, Timed::WriteSheet | Timed::ReadSheet);
    let (n, k, entries) = (row.sum.n, row.sum.k, entries(&row.sum));
    let theirs = compared.then(|| theirs.time());
    let (ours, check, read, words) = (ours.time(), check.time(), read.time(), start.store.len());
    let moved = moved.map(|m| m.time());
    Measured { name: row.name, n, k, entries, capacity, ours, theirs, check, read, moved, words, bytes }
}

/// What becomes of the words when every second entry leaves: the others move up, and the places behind them are cleared.
fn close_up(words: &mut [u64], len: usize, entries: usize) {
    let left = entries.div_ceil(2);
    for i in 1..left {
        words.copy_within(2 * i * len..(2 * i + 1) * len, i * len);
    }
    words[left * len..entries * len].fill(0);
}

/// Both sides accept the call and hold as many entries after it.
fn agree(row: &Row, start: &Ours, plain: &oracle::Plain) {
    if let Timed::Call(call) = row.timed {
        let (mut o, mut p) = (start.clone(), plain.clone());
        assert_eq!(o.call(call).number, 0, "{} is refused", row.name);
        p.call(call);
        assert_eq!(o.header.count, p.entries(), "{}", row.name);
    }
}

// ---- what is printed

fn print(m: &Measured) {
    let Measured { name, n, k, entries, capacity, ours, .. } = m;
    let us = |ns: f64| ns / 1000.0;
    print!("{name:<28} {n:>3} {k:>3} {entries:>4} {capacity:>4} {:>9.2} {:>9.2}", us(ours.least), us(ours.median));
    match m.theirs {
        Some(t) => print!(" {:>9.2} {:>9.2} {:>7.2} {:>7.2}", us(t.least), us(t.median), ours.least / t.least, ours.median / t.median),
        None => print!("   {:.0} MB/s, {} bytes", m.bytes as f64 * 1000.0 / ours.least, m.bytes),
    }
    println!(" {:>9.2}", us(m.check.median));
}

/// How the least time grows from one column to the next.
fn growth(all: &[Measured], title: &str, of: impl Fn(&Measured) -> Option<usize>) {
    println!("\n{title}: least time in microseconds, ours / the Rust's");
    let mut names: Vec<&str> = all.iter().map(|m| m.name).collect();
    names.dedup();
    names.sort_unstable();
    names.dedup();
    for name in names {
        let mut line: Vec<(usize, &Measured)> = all.iter().filter(|m| m.name == name).filter_map(|m| Some((of(m)?, m))).collect();
        line.sort_by_key(|(at, _)| *at);
        let cell = |(at, m): &(usize, &Measured)| match m.theirs {
            Some(t) => format!("{at}: {:.2} / {:.2}", m.ours.least / 1000.0, t.least / 1000.0),
            None => format!("{at}: {:.2}", m.ours.least / 1000.0),
        };
        println!("{name:<28} {}", line.iter().map(cell).collect::<Vec<_>>().join("   "));
    }
}

/// Every row whose name has this in it, and what they show.
fn calls(span: Duration, name: &str) {
    let mut all = Vec::new();
    for (n, k, count) in sizes() {
        for row in rows(n, k, count).into_iter().filter(|r| r.name.contains(name)) {
            if all.is_empty() {
                println!(
                    "call                           n   K  entr  cap      ours    median      Rust    median   ratio  median     check   (microseconds; least, median; the check's median)"
                );
            }
            let enough = needed(&row);
            let mut capacities = vec![enough, 256];
            capacities.dedup();
            for capacity in capacities {
                let m = measure(&row, capacity, span);
                print(&m);
                all.push(m);
            }
        }
    }
    if all.is_empty() {
        return;
    }
    goals::print(&all);
    let just = |m: &&Measured| m.k == 1 && (m.capacity < 256 || m.entries == 256);
    let just: Vec<Measured> = all.drain(..).filter(|m| just(&m)).collect();
    growth(&just, "by entries, n 16, K 1", |m| (m.n == 16).then_some(m.entries));
    growth(&just, "by qubits, 64 entries, K 1", |m| (m.entries == 64).then_some(m.n));
}

/// n, K and entries; at last the longest entries.
fn sizes() -> impl Iterator<Item = (usize, usize, usize)> {
    let counts = |n, k| [16, 64, 200].map(|count| (n, k, count));
    [4, 16, 64].into_iter().flat_map(move |n| [1, 16].into_iter().flat_map(move |k| counts(n, k))).chain([(64, 24, 200)])
}

fn main() {
    let milliseconds = std::env::args().nth(1).map_or(9, |a| a.parse().expect("milliseconds"));
    let name = std::env::args().nth(2).unwrap_or_default();
    let span = Duration::from_millis(milliseconds) / TURNS;
    println!(
        "Before each run the sum is copied anew, untimed; nothing else is cleared. What a call gives is used. At least 30 runs a side."
    );
    calls(span, &name);
    turns::time(span, &name);
    trials::time(span, &name);
}
