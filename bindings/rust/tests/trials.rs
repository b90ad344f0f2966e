//! Cutoffs tried: as examples/c/every_call.c tells them, as the same calls made one by one do, and what is refused.

use tableau_sum::{Channel, Error, Refusal, Size, TableauSum, Trial, MAX_CUTOFFS, MAX_STEPS};

const SIZE: Size = Size { n: 2, k: 2, capacity: 64 };

/// A trial's line: for each step its number and the entries after it.
fn line(trial: &Trial, steps: usize) -> String {
    let mut places: Vec<(u64, usize)> = trial.entries.iter().map(|&entries| (0, entries)).collect();
    if let Some(Refusal { step, error, entries }) = trial.refused {
        assert_eq!(step, places.len());
        places.resize(steps, (error.number(), entries));
    }
    assert_eq!(places.len(), steps);
    places.iter().fold("trial".to_string(), |line, (number, entries)| format!("{line} {number} {entries}"))
}

#[test]
fn as_c_tells_them() {
    let stored = include_str!("../../../examples/c/every_call.stdout");
    let mut lines = stored.lines().filter(|line| line.starts_with("trial "));
    let steps = |q| {
        [(Channel::Pauli(0.25, 0.125, 0.0625), 0), (Channel::Loss(0.25), q), (Channel::Depolarizing(1.0), 0), (Channel::Loss(0.125), 0)]
    };
    for (cutoffs, q) in [(&[0.0, 1.0 / 64.0, 0.5, 1.0][..], 1), (&[0.0, 1.0 / 64.0], SIZE.n)] {
        let (trials, sum) = TableauSum::try_cutoffs(SIZE, 0.5, cutoffs, &steps(q)).unwrap();
        assert_eq!(trials.len(), cutoffs.len());
        for (trial, cutoff) in trials.iter().zip(cutoffs) {
            assert_eq!((Some(line(trial, 4).as_str()), trial.cutoff), (lines.next(), *cutoff));
        }
        let last = trials.last().unwrap();
        assert_eq!(Some(sum.len()), last.refused.map(|r| r.entries).or(last.entries.last().copied()));
    }
    assert_eq!(lines.next(), None);
}

/// The same calls on a sum of their own, up to the first that is refused.
fn one_by_one(size: Size, cutoff: f64, steps: &[(Channel, usize)]) -> (Trial, TableauSum) {
    let mut sum = TableauSum::fresh(size, 1e-8, cutoff).unwrap();
    let mut trial = Trial { cutoff, entries: Vec::new(), refused: None };
    for (step, &(channel, q)) in steps.iter().enumerate() {
        let made = match channel {
            Channel::Pauli(x, y, z) => sum.pauli_error(q, [x, y, z]),
            Channel::Loss(rate) => sum.loss_channel(q, rate),
            Channel::Depolarizing(rate) => sum.depolarize1(q, rate),
        };
        match made {
            Ok(_) => trial.entries.push(sum.len()),
            Err(error) => {
                trial.refused = Some(Refusal { step, error, entries: sum.len() });
                break;
            }
        }
    }
    (trial, sum)
}

#[test]
fn as_the_same_calls_one_by_one() {
    let channel = |i: usize| [Channel::Depolarizing(0.03), Channel::Loss(0.02), Channel::Pauli(0.0, 0.01, 0.001)][i % 3];
    let cutoffs = [1e-2, 1e-3, 1e-4, 1e-5, 1e-6, 0.0, 1.0, 0.3];
    for (n, capacity) in [(1, 8), (3, 64), (5, 256)] {
        let size = Size { n, k: 1, capacity };
        let steps: Vec<(Channel, usize)> = (0..MAX_STEPS).map(|i| (channel(i), i * i % n)).collect();
        let (trials, sum) = TableauSum::try_cutoffs(size, 1e-8, &cutoffs, &steps).unwrap();
        let singly: Vec<(Trial, TableauSum)> = cutoffs.iter().map(|&cutoff| one_by_one(size, cutoff, &steps)).collect();
        assert!(trials.iter().eq(singly.iter().map(|(trial, _)| trial)));
        assert!(singly.last().unwrap().1 == sum);
        assert!(trials.iter().any(|t| t.most_entries() > 1));
    }
}

#[test]
fn what_is_refused() {
    let step = (Channel::Loss(0.5), 0);
    let tried =
        |size, threshold, cutoffs: &[f64], steps: &[(Channel, usize)]| TableauSum::try_cutoffs(size, threshold, cutoffs, steps).err();
    assert_eq!(tried(Size { n: 65, ..SIZE }, 0.5, &[], &[]), Some(Error::BadSize));
    for (cutoffs, steps) in [(0, 1), (1, 0), (MAX_CUTOFFS + 1, 1), (1, MAX_STEPS + 1), (0, 0)] {
        assert_eq!(tried(SIZE, f64::NAN, &vec![f64::NAN; cutoffs], &vec![step; steps]), Some(Error::BadTrials));
    }
    assert_eq!(tried(SIZE, 0.5, &[0.0, f64::NAN], &[step]), Some(Error::BadHeader));
    assert_eq!(tried(SIZE, -1.0, &[0.0], &[step]), Some(Error::BadHeader));
    assert_eq!(tried(SIZE, 0.5, &[0.0; MAX_CUTOFFS], &[step; MAX_STEPS]), None);
}
