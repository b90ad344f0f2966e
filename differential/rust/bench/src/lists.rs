//! The lists that are timed: whole circuits from a fresh sum, and on the sums of sums.rs gates alone, and gates around a channel. K is 1.

use crate::circuit::{Circuit, read};
use crate::sums::{Kin, sum};
use oracle::{Call, Published, Sum};
use ours::{Ours, Size};
use std::fs;

/// The examples, and the sheets that they end with.
const EXAMPLES: &str = concat!(env!("CARGO_MANIFEST_DIR"), "/../../../examples");

/// The gates of a list of gates.
const GATES: usize = 1000;

/// The sum that a list begins with.
#[derive(Clone)]
pub enum Start {
    Fresh { n: usize, threshold: f64, cutoff: f64 },
    Holding(Sum),
}

#[derive(Clone)]
pub struct List {
    pub name: String,
    pub start: Start,
    pub calls: Vec<Call>,
}

impl Start {
    pub fn ours(&self, capacity: usize) -> Ours {
        match self {
            Start::Fresh { n, threshold, cutoff } => Ours::fresh(Size { n: *n, k: 1, capacity }, *threshold, *cutoff).0,
            Start::Holding(sum) => Ours::holding(sum, capacity),
        }
    }
    pub fn theirs(&self) -> Published {
        match self {
            Start::Fresh { n, threshold, cutoff } => Published::fresh(*n, 1, *threshold, *cutoff),
            Start::Holding(sum) => Published::load(sum),
        }
    }
}

pub fn all() -> Vec<List> {
    let mut lists = ["ghz", "surface", "instructions", "python_rates", "resets", "lost_atoms"].map(example).to_vec();
    lists.extend([2, 3].map(|times| rounds("surface", times)));
    // with ghz.stim's cutoff, 64 atoms take 258 entries: two too many
    lists.extend([(4, 5e-4), (16, 5e-4), (64, 8e-4)].map(|(n, cutoff)| chain(n, cutoff)));
    for n in [4, 16, 64] {
        for kind in ["mixed", "H", "S", "CNOT"] {
            lists.extend([0, 1, 16, 64].map(|count| gates(kind, n, count)));
        }
        lists.extend([16, 64, 200].map(|count| after_losses(n, count)));
    }
    lists
}

// ---- circuits

fn file(path: &str) -> String {
    let path = format!("{EXAMPLES}/{path}");
    fs::read_to_string(&path).unwrap_or_else(|e| panic!("{path}: {e}"))
}

fn circuit(name: String, c: Circuit) -> List {
    List { name: format!("circuit {name}"), start: Start::Fresh { n: c.qubits, threshold: c.threshold, cutoff: c.cutoff }, calls: c.calls }
}

/// An example. That it was read right shows in the sheet that it ends with.
fn example(name: &str) -> List {
    let c = read(&file(&format!("{name}.stim")));
    let capacity = c.capacity;
    let list = circuit(format!("{name}.stim"), c);
    let mut ours = list.start.ours(capacity);
    for call in &list.calls {
        ours.call(*call);
    }
    let mut sheet = vec![0; 4 << 20];
    let length = ours.write_sheet(&mut sheet).length;
    assert!(sheet[..length] == *file(&format!("expected/{name}.sheet")).as_bytes(), "{name}.stim ends with another sheet");
    list
}

/// An example's calls, so many times over.
fn rounds(name: &str, times: usize) -> List {
    let mut c = read(&file(&format!("{name}.stim")));
    c.calls = c.calls.repeat(times);
    circuit(format!("{name}.stim x{times}"), c)
}

/// A GHZ chain of n atoms, with the noise of ghz.stim, which is the one of five.
fn chain(n: usize, cutoff: f64) -> List {
    let ghz = read(&file("ghz.stim"));
    assert_eq!(format!("{:?}", chain_calls(5)), format!("{:?}", ghz.calls), "ghz.stim has other noise");
    circuit("GHZ chain".to_string(), Circuit { qubits: n, cutoff, calls: chain_calls(n), ..ghz })
}

fn chain_calls(n: usize) -> Vec<Call> {
    let mut calls = vec![Call::H(0), Call::Depolarize1(0, 0.003)];
    for q in 1..n {
        calls.extend([Call::Cnot(q - 1, q), Call::Depolarize2(q - 1, q, 0.006), Call::Loss(q, 0.002)]);
    }
    calls.extend((0..n).map(|q| Call::Depolarize1(q, 0.003)));
    calls
}

// ---- gates

/// Gates of one kind, or of all three, on `count` entries, at qubits that look random and are always the same.
fn gates(kind: &str, n: usize, count: usize) -> List {
    let mut state = 1u64;
    let mut draw = |below: usize| {
        state = state.wrapping_mul(6364136223846793005).wrapping_add(1442695040888963407);
        (state >> 33) as usize % below
    };
    let mut gate = || match (kind, draw(3), draw(n), draw(n - 1)) {
        ("H", _, q, _) | ("mixed", 0, q, _) => Call::H(q),
        ("S", _, q, _) | ("mixed", 1, q, _) => Call::S(q),
        (_, _, a, other) => Call::Cnot(a, (a + 1 + other) % n),
    };
    let calls = (0..GATES).map(|_| gate()).collect();
    List { name: format!("gates {kind}"), start: Start::Holding(sum(n, 1, count, Kin::Strangers, 0.0)), calls }
}

/// A hundred times: gates on an atom that half of the entries have lost, a channel at another one all of whose branches merge, and gates again.
fn after_losses(n: usize, count: usize) -> List {
    let before = [Call::H(0), Call::Cnot(0, 2), Call::S(0)];
    let after = [Call::Cnot(3, 0), Call::S(3), Call::H(0)];
    let round = [&before[..], &[Call::Pauli(1, [0.01, 0.02, 0.03])], &after].concat();
    List {
        name: "half lost, gates, Pauli".to_string(),
        start: Start::Holding(sum(n, 1, count, Kin::HalfLostAtOther, 0.0)),
        calls: round.repeat(100),
    }
}
