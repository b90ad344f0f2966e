//! Lists of calls, timed. Three sides take turns: ours by single calls, ours by one `tableau_sum_run`, which checks the whole store once, and
//! the Rust's calls. Before that, all three must end with the same entries. Where others share the processors, a long list is interrupted
//! more often than a short one: medians are of this thread's own time (timing.rs), and least times of long lists are too large.

use crate::lists::List;
use crate::timing::{Runs, Time};
use crate::{TURNS, list_goals, lists};
use oracle::{Call, Plain, Sum, entry_len};
use ours::Ours;
use ours::list::{RECORD_WORDS, list_words};
use std::time::{Duration, Instant};

/// Turns that each side takes at least, however long its list is.
const LEAST_TURNS: u32 = 9;

pub struct Measured {
    pub name: String,
    pub n: usize,
    /// At the end.
    pub entries: usize,
    pub calls: usize,
    pub capacity: usize,
    pub single: Time,
    pub list: Time,
    pub theirs: Time,
}

impl Measured {
    /// Of the medians, the list's to the Rust's.
    pub fn ratio(&self) -> f64 {
        self.list.median / self.theirs.median
    }
    /// The single calls' to the Rust's.
    pub fn single_ratio(&self) -> f64 {
        self.single.median / self.theirs.median
    }
    /// Of the least times, the list's to the Rust's.
    pub fn least_ratio(&self) -> f64 {
        self.list.least / self.theirs.least
    }
}

// ---- the three sides

fn singly(o: &mut Ours, calls: &[Call]) -> u64 {
    calls.iter().fold(0, |any, call| any | o.call(*call).number)
}

fn published(p: &mut Plain, calls: &[Call]) {
    for call in calls {
        p.call(*call);
    }
}

/// The most entries that a call holds before it truncates, and what the Rust ends with.
fn ended(list: &List) -> (usize, Sum) {
    let mut p = list.start.theirs();
    let first = p.plain().entries();
    let most = list.calls.iter().fold(first, |most, call| p.call(*call).held.max(most));
    let [sum, _] = p.sums();
    (most, sum)
}

fn entries(s: &Sum) -> usize {
    s.words.len() / entry_len(s.n, s.k)
}

/// A sum with its keys 0: the Rust has a quick hash in place of document 01's word key.
fn keyless(mut sum: Sum) -> Sum {
    for e in sum.words.chunks_exact_mut(entry_len(sum.n, sum.k)) {
        e[2..4].fill(0);
    }
    sum
}

/// No call is refused, and all three sides end with the same entries, to the bit, in the same order.
fn agree(list: &List, capacity: usize, theirs: &Sum) {
    let (mut single, mut listed) = (list.start.ours(capacity), list.start.ours(capacity));
    assert_eq!(singly(&mut single, &list.calls), 0, "{}: a call is refused", list.name);
    let mut log = vec![u64::MAX; RECORD_WORDS * list.calls.len()];
    let ran = listed.run(&list_words(&list.calls), &mut log, false);
    assert_eq!((ran.number, ran.made), (0, list.calls.len()), "{}: the list is refused", list.name);
    assert!(log.chunks_exact(RECORD_WORDS).all(|record| record[0] == 0), "{}: a call of the list is refused", list.name);
    assert!(listed.store == single.store && listed.header.words() == single.header.words(), "{}: list and calls differ", list.name);
    assert!(keyless(listed.sum()) == keyless(theirs.clone()), "{}: ours and the Rust's differ", list.name);
}

/// As many turns as a call's row has; fewer, once they have taken thirty times as long as was asked for.
fn measure(list: &List, capacity: usize, span: Duration, end: &Sum) -> Measured {
    agree(list, capacity, end);
    let (start, plain) = (list.start.ours(capacity), list.start.theirs().plain());
    let (calls, words) = (&list.calls[..], list_words(&list.calls));
    let mut log = vec![0; RECORD_WORDS * calls.len()];
    let [mut single, mut listed, mut theirs] = [(); 3].map(|_| Runs::new());
    let begun = Instant::now();
    for turn in 0..TURNS {
        if LEAST_TURNS <= turn && 30 * 3 * TURNS * span < begun.elapsed() {
            break;
        }
        single.add_long(span, || start.clone(), |o| singly(o, calls));
        listed.add_long(span, || start.clone(), |o| o.run(&words, &mut log, false).made);
        theirs.add_long(span, || plain.clone(), |p| published(p, calls));
    }
    let (name, n, entries, calls) = (list.name.clone(), end.n, entries(end), calls.len());
    Measured { name, n, entries, calls, capacity, single: single.time(), list: listed.time(), theirs: theirs.time() }
}

// ---- what is printed

fn print_head() {
    println!(
        "\nLists of calls on one sum, K 1: ours by single calls, ours by one list, the Rust's calls. At least {LEAST_TURNS} runs a side."
    );
    println!(
        "list                           n  entr  cap calls    single    median      list    median      Rust    median  list/Rust  median  single  list/single  a call: single     list     Rust   (microseconds; least, median; ratios, that of least times first; a call in nanoseconds)"
    );
}

fn print(m: &Measured) {
    let Measured { name, n, entries, calls, capacity, single, list, theirs } = m;
    let sides = [single, list, theirs];
    print!("{name:<28} {n:>3} {entries:>5} {capacity:>4} {calls:>5}");
    for time in sides {
        print!(" {:>9.2} {:>9.2}", time.least / 1000.0, time.median / 1000.0);
    }
    print!(" {:>10.2} {:>7.2} {:>7.2} {:>12.2}", m.least_ratio(), m.ratio(), m.single_ratio(), list.median / single.median);
    print!("       ");
    for time in sides {
        print!(" {:>8.1}", time.median / *calls as f64);
    }
    println!();
}

/// Every list whose name has this in it, with just enough capacity and with 256.
pub fn time(span: Duration, name: &str) {
    let mut all = Vec::new();
    for list in lists::all().iter().filter(|list| list.name.contains(name)) {
        if all.is_empty() {
            print_head();
        }
        let (most, end) = ended(list);
        let mut capacities = vec![most.max(1), 256];
        capacities.dedup();
        for capacity in capacities {
            let m = measure(list, capacity, span, &end);
            print(&m);
            all.push(m);
        }
    }
    list_goals::print(&all);
}
