//! Circuits, and what calls lose.

use tableau_sum::{Circuit, Counts, Error, Lost, Outcome, Size, Step, TableauSum};

/// A call that can be added to a circuit, or made on a sum.
#[derive(Clone, Copy, Debug)]
enum Call {
    Pauli(usize, [f64; 3]),
    Loss(usize, f64),
    Depolarize1(usize, f64),
    Pairs(usize, usize, [f64; 15]),
    Depolarize2(usize, usize, f64),
    Reset(usize),
    H(usize),
    S(usize),
    Cnot(usize, usize),
    Truncate,
    Normalise,
}
use Call::*;

impl Call {
    fn add(self, to: &mut Circuit) {
        match self {
            Pauli(q, rates) => to.pauli_error(q, rates),
            Loss(q, rate) => to.loss_channel(q, rate),
            Depolarize1(q, rate) => to.depolarize1(q, rate),
            Pairs(p, q, rates) => to.two_qubit_pauli_error(p, q, rates),
            Depolarize2(p, q, rate) => to.depolarize2(p, q, rate),
            Reset(q) => to.reset_loss_channel(q),
            H(q) => to.h(q),
            S(q) => to.s(q),
            Cnot(a, b) => to.cnot(a, b),
            Truncate => to.truncate(),
            Normalise => to.normalise(),
        };
    }

    fn make(self, on: &mut TableauSum) -> Result<Step, Error> {
        let nothing = |()| Outcome::default();
        let Outcome { counts, lost } = match self {
            Pauli(q, rates) => on.pauli_error(q, rates),
            Loss(q, rate) => on.loss_channel(q, rate),
            Depolarize1(q, rate) => on.depolarize1(q, rate),
            Pairs(p, q, rates) => on.two_qubit_pauli_error(p, q, rates),
            Depolarize2(p, q, rate) => on.depolarize2(p, q, rate),
            Reset(q) => on.reset_loss_channel(q),
            H(q) => on.h(q).map(nothing),
            S(q) => on.s(q).map(nothing),
            Cnot(a, b) => on.cnot(a, b).map(nothing),
            Truncate => on.truncate().map(|lost| Outcome { lost, ..Outcome::default() }),
            Normalise => on.normalise().map(nothing),
        }?;
        Ok(Step { counts, lost, entries: on.len(), dirty: on.is_dirty() })
    }
}

fn circuit_of(calls: &[Call]) -> Circuit {
    let mut circuit = Circuit::new();
    calls.iter().for_each(|call| call.add(&mut circuit));
    circuit
}

/// The calls in one leave the sum, word for word, and tell what they do and tell one by one, in both ways to run them. Gives what they told.
fn same(start: &TableauSum, calls: &[Call]) -> Vec<Result<Step, Error>> {
    let circuit = circuit_of(calls);
    assert_eq!((circuit.len(), circuit.is_empty()), (calls.len(), calls.is_empty()));

    let (mut one_by_one, mut at_once) = (start.clone(), start.clone());
    let told: Vec<_> = calls.iter().map(|call| call.make(&mut one_by_one)).collect();
    let run = at_once.run(&circuit);
    assert_eq!((run.iter().collect::<Vec<_>>(), at_once), (told.clone(), one_by_one));
    assert_eq!((run.made(), run.len(), run.is_empty()), (calls.len(), calls.len(), calls.is_empty()));
    let refusal = told.iter().enumerate().find_map(|(i, step)| Some((i, step.err()?)));
    assert_eq!(run.first_refusal(), refusal);

    let (mut one_by_one, mut at_once) = (start.clone(), start.clone());
    let made = refusal.map_or(calls.len(), |(place, _)| place + 1);
    let to_here: Vec<_> = calls[..made].iter().map(|call| call.make(&mut one_by_one)).collect();
    let run = at_once.run_until_refused(&circuit);
    assert_eq!((run.into_iter().collect::<Vec<_>>(), at_once), (to_here, one_by_one));
    assert_eq!((run.made(), run.first_refusal()), (made, refusal));
    told
}

fn fresh(n: usize, capacity: usize, cutoff: f64) -> TableauSum {
    TableauSum::fresh(Size { n, k: 1, capacity }, 0.5, cutoff).unwrap()
}

#[test]
fn every_call_and_refusals() {
    let pairs = std::array::from_fn(|i| (i + 1) as f64 / 256.0);
    let calls = [
        Normalise,
        H(0),
        Cnot(0, 1),
        Pauli(1, [0.25, 0.125, 0.0625]),
        S(2), // there is no qubit 2
        S(1),
        Cnot(1, 1),
        Loss(0, 0.25),
        Loss(0, f64::NAN),
        Pairs(1, 0, pairs),
        Depolarize1(0, 1.5),
        Depolarize1(0, 0.25),
        Depolarize2(0, 1, 0.25),
        Pairs(0, 0, [0.25; 15]),
        Reset(0),
        Truncate,
    ];
    let told = same(&fresh(2, 64, 0.01), &calls);
    let numbers: Vec<u64> = told.iter().map(|step| step.map_or_else(Error::number, |_| 0)).collect();
    assert_eq!(numbers, [0, 0, 0, 0, 3, 0, 3, 0, 4, 0, 4, 0, 0, 4, 0, 0]);
    // the first call of the list may be the refused one
    same(&fresh(2, 64, 0.01), &[H(2), H(0), Loss(0, 0.5)]);
    same(&fresh(2, 64, 1.0), &[Loss(0, 0.5), H(0), Normalise, Truncate, Reset(1), H(2)]);
    // an empty sum
}

#[test]
fn an_empty_circuit() {
    let mut sum = fresh(1, 8, 0.0);
    assert!(same(&sum, &[]).is_empty());
    let run = sum.run(&Circuit::default());
    assert_eq!((run.made(), run.first_refusal(), sum == fresh(1, 8, 0.0)), (0, None, true));
}

/// No room, and weights of 0: a channel is undone.
#[test]
fn refused_channels() {
    let told = same(&fresh(3, 2, 0.0), &[H(0), Loss(0, 0.5), Loss(1, 0.5), Reset(0), Loss(1, 0.5), Pauli(2, [0.5, 0.0, 0.0])]);
    assert_eq!([2, 5].map(|i| told[i]), [Err(Error::NoRoom); 2]);
    let tiny = fresh(1, 8, 0.0).sheet().unwrap().replacen(&format!("{:21}", 1f64.to_bits()), &format!("{:21}", 1), 1);
    let told = same(&TableauSum::read_sheet(tiny).unwrap(), &[H(0), Pauli(0, [0.5, 0.5, 0.0]), H(0)]);
    assert_eq!(told[1], Err(Error::NoWeight));
}

/// Later calls of a list look at weights only: that is enough to refuse what merging has lifted above 1024.
#[test]
fn a_weight_above_1024_in_the_middle() {
    let mut sum = fresh(2, 4, 0.0);
    sum.loss_channel(0, 0.5).unwrap();
    let heavy = sum.sheet().unwrap().replace(&0.5f64.to_bits().to_string(), &1024f64.to_bits().to_string());
    let told = same(&TableauSum::read_sheet(heavy).unwrap(), &[H(1), Reset(0), H(1), Loss(1, 0.5), Normalise, Truncate, Reset(0), H(2)]);
    assert!(told[..2].iter().all(|step| step.is_ok()));
    assert!(told[2..7].iter().all(|step| *step == Err(Error::BadEntry)));
    assert_eq!(told[7], Err(Error::BadPlace));
}

/// Numbers from a seed: SplitMix64.
struct Draws(u64);
impl Draws {
    fn below(&mut self, most: usize) -> usize {
        self.0 = self.0.wrapping_add(0x9e37_79b9_7f4a_7c15);
        let z = (self.0 ^ self.0 >> 30).wrapping_mul(0xbf58_476d_1ce4_e5b9);
        let z = (z ^ z >> 27).wrapping_mul(0x94d0_49bb_1331_11eb);
        ((z ^ z >> 31) % most as u64) as usize
    }
    fn rate(&mut self, most: f64) -> f64 {
        [0.0, most, most * self.below(1000) as f64 / 1000.0][self.below(3)]
    }
    /// Now and then a qubit is the one past the last, or a total of rates is above 1.
    fn call(&mut self, n: usize) -> Call {
        let (p, q) = (self.below(n), if self.below(16) == 0 { n } else { self.below(n) });
        let most = if self.below(16) == 0 { 1.0 } else { 0.3 };
        match self.below(11) {
            0 => Pauli(q, std::array::from_fn(|_| self.rate(most))),
            1 => Loss(q, self.rate(most)),
            2 => Depolarize1(q, self.rate(most)),
            3 => Pairs(p, q, std::array::from_fn(|_| self.rate(most / 5.0))),
            4 => Depolarize2(p, q, self.rate(most)),
            5 => Reset(q),
            6 => H(q),
            7 => S(q),
            8 => Cnot(p, q),
            9 => Truncate,
            _ => Normalise,
        }
    }
}

#[test]
fn circuits_from_seeds() {
    for seed in 0..40 {
        let mut draws = Draws(seed);
        let n = 1 + draws.below(4);
        let start = fresh(n, [2, 20, 256][draws.below(3)], [0.0, 1e-3, 0.05][draws.below(3)]);
        let calls: Vec<Call> = (0..60).map(|_| draws.call(n)).collect();
        same(&start, &calls);
    }
}

#[test]
fn circuits_are_compared_and_cleared() {
    let mut circuit = circuit_of(&[H(0), Loss(1, f64::NAN)]);
    let copy = circuit.clone();
    assert!(copy == circuit && circuit != circuit_of(&[H(0), Loss(1, 0.5)]) && circuit_of(&[Loss(0, 0.0)]) != circuit_of(&[Loss(0, -0.0)]));
    circuit.clear();
    assert!(circuit.is_empty() && circuit == Circuit::new() && copy.len() == 2);
}

// ---- what calls lose

fn lost(dropped: f64, truncated: f64) -> Lost {
    Lost { dropped, truncated }
}

/// The quarter that is dropped, and no more: branches of rate 0 add 0.
#[test]
fn a_dropped_quarter() {
    let mut sum = fresh(1, 8, 0.25);
    let outcome = sum.pauli_error(0, [0.25, 0.0, 0.0]).unwrap();
    assert_eq!(outcome, Outcome { counts: Counts { dropped: 3, ..Counts::default() }, lost: lost(0.25, 0.0) });
    assert_eq!(sum.page().unwrap(), "    1    1000000  0000000000000000\n");
}

/// With the cutoff 0 every branch of a positive weight is kept: what is lost is 0, to the bit, though branches of rate 0 are dropped.
#[test]
fn nothing_is_lost_with_cutoff_0() {
    let mut sum = fresh(10, 256, 0.0);
    for q in 0..8 {
        let Outcome { counts, lost } = sum.pauli_error(q, [0.3, 0.0, 0.0]).unwrap();
        assert_eq!((counts.stored, counts.dropped), (1 << q, 2 << q));
        assert_eq!([lost.dropped.to_bits(), lost.truncated.to_bits()], [0, 0]);
    }
    assert_eq!(sum.pauli_error(8, [0.3, 0.0, 0.0]), Err(Error::NoRoom));
}

/// The parent falls to the cutoff: it is truncated, and takes its weight along. Where a branch was dropped too, that is a part of what the
/// drop has left.
#[test]
fn a_truncated_parent() {
    let mut sum = fresh(1, 8, 0.25);
    assert_eq!(sum.loss_channel(0, 0.75).unwrap().lost, lost(0.0, 0.25));
    assert_eq!((sum.len(), sum.view(0).unwrap().weight()), (1, 1.0));
    let mut sum = fresh(1, 8, 0.25);
    assert_eq!(sum.pauli_error(0, [0.5, 0.25, 0.125]).unwrap().lost, lost(0.375, 0.125 / 0.625));
    assert_eq!((sum.len(), sum.view(0).unwrap().weight()), (1, 1.0));
}

#[test]
fn truncate_and_reset() {
    let with = |loss: f64, cutoff: f64| {
        let mut sum = fresh(1, 8, 0.0);
        sum.loss_channel(0, loss).unwrap();
        let text = sum.sheet().unwrap();
        let (line, rest) = text.split_at(105); // the cutoff is the last field of line 1
        TableauSum::read_sheet(format!("{line}{:21}{}", cutoff.to_bits(), &rest[21..])).unwrap()
    };
    let mut sum = with(0.25, 0.25);
    assert_eq!((sum.truncate(), sum.truncate()), (Ok(lost(0.0, 0.25)), Ok(Lost::default())));
    assert_eq!(sum.view(0).unwrap().weight(), 1.0);
    // all of it is lost: what becomes live is like no entry, and not above the cutoff. A reset divides nothing
    let mut sum = with(1.0, 1.0);
    assert_eq!((sum.reset_loss_channel(0).unwrap().lost, sum.len()), (lost(1.0, 0.0), 0));
}
