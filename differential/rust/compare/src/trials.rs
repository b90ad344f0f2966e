//! Trials of random cutoffs, each beside a fresh sum of the Rust and the same calls made one by one, which are themselves compared.

use crate::collision::mixed;
use crate::draw::{self, Draw};
use crate::pair::{Difference, Pair};
use oracle::Call;
use ours::trials::Steps;
use ours::{Answer, Size, entry_len};

/// What was compared, counted.
#[derive(Default)]
struct Tally {
    trials: usize,
    steps: usize,
    /// Trials that ended with each number.
    ended: [usize; 11],
}

/// Trials until so many steps were made.
pub fn run(seed: u64, steps: usize) {
    let mut tally = Tally::default();
    let mut number = 0;
    while tally.steps < steps {
        let mut d = Draw(mixed(seed) ^ mixed(number + 1));
        if let Err(what) = tried(&mut d, &mut tally) {
            panic!("THEY DIFFER (trials, seed {seed}, call {number}): {what}");
        }
        number += 1;
    }
    let Tally { trials, steps, ended } = tally;
    let refused: Vec<String> = (1..11).filter(|&n| ended[n] > 0).map(|n| format!("{n}: {}", ended[n])).collect();
    println!("trials, seed {seed}, {number} calls: {trials} trials agree, {steps} steps; ended by {}", refused.join(", "));
}

/// A channel on one qubit, now and then with a qubit or a rate that is refused.
fn step(d: &mut Draw, n: usize) -> Call {
    loop {
        let call = draw::call(d, n);
        if matches!(call, Call::Pauli(..) | Call::Loss(..) | Call::Depolarize1(..)) {
            return call;
        }
    }
}

/// 1 to 8 cutoffs, 1 to 64 steps, mostly few.
fn tried(d: &mut Draw, tally: &mut Tally) -> Result<(), Difference> {
    let header = draw::sum(d).header;
    let (size, threshold) = (header.size, header.threshold);
    let cutoffs: Vec<f64> = (0..1 + d.below(8)).map(|_| draw::cutoff(d)).collect();
    let most = d.one_of(&[3, 12, 64]);
    let calls: Vec<Call> = (0..1 + d.below(most)).map(|_| step(d, size.n)).collect();
    let mut store = vec![d.word(); size.capacity * entry_len(size)];
    let need = 2 * cutoffs.len() * calls.len();
    let mut out = vec![u64::MAX; need + d.below(3)];
    let answer = Steps::of(&calls).try_cutoffs(size, threshold, &cutoffs, &mut store, &mut out);
    let (places, past) = out.split_at(need);
    let mut last = None;
    for (cutoff, places) in cutoffs.iter().zip(places.chunks_exact(2 * calls.len())) {
        last = Some(trial(size, threshold, *cutoff, &calls, places, tally)?);
    }
    let same = |what: &str, holds: bool| if holds { Ok(()) } else { Err(format!("{what}: {answer:?}")) };
    same("words past the need", past.iter().all(|w| *w == u64::MAX))?;
    let last = last.expect("there is a cutoff").ours;
    same("answer", answer.numbers() == done(need) && answer.header.words() == last.header.words())?;
    same("store", store == last.store)
}

/// Number 0 and a length, and 0 in all else.
fn done(length: usize) -> [u64; 9] {
    [0, 0, 0, 0, 0, 0, length as u64, 0, 0]
}

/// One by one on both sides, up to the first refusal; the places beside them.
fn trial(size: Size, threshold: f64, cutoff: f64, calls: &[Call], places: &[u64], tally: &mut Tally) -> Result<Pair, Difference> {
    let mut pair = Pair::fresh(size, threshold, cutoff)?;
    let mut number = 0;
    tally.trials += 1;
    for (call, place) in calls.iter().zip(places.chunks_exact(2)) {
        if number == 0 {
            let answer: Answer = pair.call(*call)?;
            number = answer.number;
            tally.steps += 1;
            tally.ended[number as usize] += (number != 0) as usize;
        }
        if place != [number, pair.ours.header.count as u64] {
            return Err(format!("cutoff {cutoff:?}, {call:?}: place {place:?}, one by one {number} and {}", pair.ours.header.count));
        }
    }
    Ok(pair)
}
