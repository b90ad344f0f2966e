//! Circuits in the part of Stim's language that README.md lists, read into calls. Only good circuits are read: another one panics.

use oracle::Call;
use std::str::Lines;

/// Its options are those of the line `# options:`, else what `./run_circuit` takes without them.
pub struct Circuit {
    pub qubits: usize,
    pub capacity: usize,
    pub threshold: f64,
    pub cutoff: f64,
    pub calls: Vec<Call>,
}

pub fn read(text: &str) -> Circuit {
    let whole = |name| option(text, name).map(|word| word.parse().expect(word));
    let float = |name| option(text, name).map(|word| word.parse().expect(word));
    let calls = block(&mut text.lines());
    let highest = calls.iter().flat_map(|call| qubits(*call)).max().expect("a circuit makes a call");
    Circuit {
        qubits: whole("--qubits").unwrap_or(highest + 1),
        capacity: whole("--capacity").unwrap_or(256),
        threshold: float("--threshold").unwrap_or(1e-8),
        cutoff: float("--cutoff").unwrap_or(0.0),
        calls,
    }
}

/// The word behind an option's name.
fn option<'a>(text: &'a str, name: &str) -> Option<&'a str> {
    let options = text.lines().find_map(|line| line.strip_prefix("# options:"))?;
    let mut words = options.split_whitespace();
    words.find(|word| *word == name)?;
    words.next()
}

fn qubits(call: Call) -> [usize; 2] {
    match call {
        Call::Pauli(q, _) | Call::Loss(q, _) | Call::Depolarize1(q, _) | Call::Reset(q) | Call::H(q) | Call::S(q) => [q, q],
        Call::TwoPauli(p, q, _) | Call::Depolarize2(p, q, _) | Call::Cnot(p, q) => [p, q],
        Call::Truncate | Call::Normalise => [0, 0],
    }
}

/// The calls of the lines up to the end of a block, or to that of the text.
fn block(lines: &mut Lines) -> Vec<Call> {
    let mut calls = Vec::new();
    while let Some(text) = lines.next() {
        let line = Line::of(text);
        match line.name.as_str() {
            "" if line.rest.starts_with('}') => break,
            "REPEAT" => calls.extend(block(lines).repeat(line.times())),
            _ => calls.extend(line.calls()),
        }
    }
    calls
}

/// A line in its parts; what is not there is empty.
struct Line<'a> {
    name: String,
    tag: &'a str,
    rates: &'a str,
    rest: &'a str,
}

/// What stands between brackets, if the text begins with them, and what stands behind.
fn enclosed(text: &str, open: char, close: char) -> (&str, &str) {
    text.strip_prefix(open).and_then(|inner| inner.split_once(close)).unwrap_or(("", text))
}

impl Line<'_> {
    fn of(text: &str) -> Line<'_> {
        let text = text.trim_start();
        let end = text.find(|c: char| c != '_' && !c.is_ascii_alphanumeric()).unwrap_or(text.len());
        let (name, rest) = text.split_at(end);
        let (tag, rest) = enclosed(rest, '[', ']');
        let (rates, rest) = enclosed(rest, '(', ')');
        let rest = rest.split('#').next().unwrap_or_default().trim();
        Line { name: name.to_uppercase(), tag, rates, rest }
    }

    fn times(&self) -> usize {
        self.rest.trim_end_matches('{').trim().parse().expect("REPEAT n {")
    }

    fn calls(&self) -> Vec<Call> {
        let rates: Vec<f64> = self.rates.split_terminator(',').map(|rate| rate.trim().parse().expect(rate)).collect();
        let targets: Vec<usize> = self.rest.split_whitespace().map(|target| target.parse().expect(target)).collect();
        let each = match self.name.as_str() {
            "" | "TICK" if targets.is_empty() => return Vec::new(),
            "CX" | "CNOT" | "PAULI_CHANNEL_2" | "DEPOLARIZE2" => 2,
            _ => 1,
        };
        assert!(!targets.is_empty(), "{} has no target", self.name);
        targets.chunks(each).map(|targets| self.call(&rates, targets)).collect()
    }

    /// The call of this instruction on a target, or on a pair of them.
    fn call(&self, rates: &[f64], targets: &[usize]) -> Call {
        match (self.name.as_str(), rates, targets) {
            ("H", [], &[q]) => Call::H(q),
            ("S", [], &[q]) => Call::S(q),
            ("CX" | "CNOT", [], &[a, b]) => Call::Cnot(a, b),
            ("X_ERROR", &[p], &[q]) => Call::Pauli(q, [p, 0.0, 0.0]),
            ("Y_ERROR", &[p], &[q]) => Call::Pauli(q, [0.0, p, 0.0]),
            ("Z_ERROR", &[p], &[q]) => Call::Pauli(q, [0.0, 0.0, p]),
            ("PAULI_CHANNEL_1", &[x, y, z], &[q]) => Call::Pauli(q, [x, y, z]),
            ("PAULI_CHANNEL_2", rates, &[p, q]) => Call::TwoPauli(p, q, rates.try_into().expect("15 rates")),
            ("DEPOLARIZE1", &[p], &[q]) => Call::Depolarize1(q, p),
            ("DEPOLARIZE2", &[rate], &[p, q]) => Call::Depolarize2(p, q, rate),
            ("I_ERROR", &[p], &[q]) if self.tag == "loss" => Call::Loss(q, p),
            ("I", [], &[q]) if self.tag == "reset_loss" => Call::Reset(q),
            _ => panic!("this is not read: {}[{}]({}) {}", self.name, self.tag, self.rates, self.rest),
        }
    }
}
