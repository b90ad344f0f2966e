use crate::ffi;
use crate::sum::judged;
use crate::{Error, Size, TableauSum};

/// The most cutoffs that [`TableauSum::try_cutoffs`] takes.
pub const MAX_CUTOFFS: usize = 8;
/// The most steps that [`TableauSum::try_cutoffs`] takes.
pub const MAX_STEPS: usize = 64;

/// A channel on one qubit.
#[derive(Clone, Copy, Debug, PartialEq)]
pub enum Channel {
    /// X, Y and Z with these rates, as [`TableauSum::pauli_error`].
    Pauli(f64, f64, f64),
    /// The qubit is lost with this rate, as [`TableauSum::loss_channel`].
    Loss(f64),
    /// X, Y and Z, each with a third of the rate, as [`TableauSum::depolarize1`].
    Depolarizing(f64),
}

impl Channel {
    /// As the library takes it: a kind, and three rates.
    fn words(self) -> (u64, [f64; 3]) {
        match self {
            Channel::Pauli(x, y, z) => (0, [x, y, z]),
            Channel::Loss(rate) => (1, [rate, 0.0, 0.0]),
            Channel::Depolarizing(rate) => (2, [rate, 0.0, 0.0]),
        }
    }
}

/// A step that ended its trial.
#[derive(Clone, Copy, Debug, PartialEq, Eq)]
pub struct Refusal {
    /// Which step, from 0.
    pub step: usize,
    /// Why it was refused.
    pub error: Error,
    /// How many entries there were then, and are still.
    pub entries: usize,
}

/// What came of one cutoff.
#[derive(Clone, Debug, PartialEq)]
pub struct Trial {
    /// The cutoff.
    pub cutoff: f64,
    /// After each step that was accepted, how many entries the sum has.
    pub entries: Vec<usize>,
    /// The step that ended the trial, if one was refused.
    pub refused: Option<Refusal>,
}

impl Trial {
    /// From the places of its steps: a number and a count each.
    fn of(cutoff: f64, places: &[u64]) -> Self {
        let places: Vec<(u64, usize)> = places.chunks_exact(2).map(|p| (p[0], p[1] as usize)).collect();
        let done = places.iter().take_while(|(number, _)| *number == 0).count();
        let refused = places.get(done).map(|&(number, entries)| Refusal {
            step: done,
            error: judged(number).expect_err("the first place that is not of an accepted step"),
            entries,
        });
        Trial { cutoff, entries: places[..done].iter().map(|(_, entries)| *entries).collect(), refused }
    }

    /// The most entries that the sum had.
    pub fn most_entries(&self) -> usize {
        self.entries.iter().copied().max().unwrap_or(0)
    }
}

/// # Cutoffs tried before a campaign
impl TableauSum {
    /// For each cutoff a trial: a fresh sum, and the steps on it one by one, as calls of their own would do them, up to the first that is
    /// refused. What came of each, and the sum that the last one left, with which calls can go on.
    ///
    /// ```
    /// use tableau_sum::{Channel, Error, Size, TableauSum};
    ///
    /// let steps = [(Channel::Depolarizing(0.03), 0), (Channel::Loss(0.02), 1), (Channel::Depolarizing(0.03), 1)];
    /// let size = Size { n: 2, k: 1, capacity: 32 };
    /// let (trials, sum) = TableauSum::try_cutoffs(size, 1e-8, &[1e-3, 1e-6], &steps)?;
    /// assert_eq!(trials[0].entries, [4, 5, 8]);
    /// assert_eq!(trials[1].entries, [4, 8, 20]);
    /// assert_eq!(sum.len(), 20); // the last trial's
    /// # Ok::<(), Error>(())
    /// ```
    ///
    /// # Errors
    /// [`Error::BadSize`], [`Error::BadTrials`], [`Error::BadHeader`], in this order. A qubit or a rate that is bad is a refusal at its own
    /// step of each trial that gets there, and so are [`Error::NoRoom`] and [`Error::NoWeight`].
    pub fn try_cutoffs(size: Size, threshold: f64, cutoffs: &[f64], steps: &[(Channel, usize)]) -> Result<(Vec<Trial>, Self), Error> {
        let (kinds, rates): (Vec<u64>, Vec<[f64; 3]>) = steps.iter().map(|(channel, _)| channel.words()).unzip();
        let rates: Vec<f64> = rates.concat();
        let qubits: Vec<usize> = steps.iter().map(|(_, qubit)| *qubit).collect();
        // more than the limits are refused before anything is written
        let mut out = vec![0; 2 * cutoffs.len().min(MAX_CUTOFFS) * steps.len().min(MAX_STEPS)];
        let (to, len) = (out.as_mut_ptr(), out.len());
        // SAFETY: all pointers and lengths are those of slices and vectors, of which no two are the same.
        let sum = Self::begin(size, |store, store_len| unsafe {
            ffi::tableau_sum_try_cutoffs(
                size,
                threshold,
                cutoffs.as_ptr(),
                cutoffs.len(),
                kinds.as_ptr(),
                kinds.len(),
                qubits.as_ptr(),
                qubits.len(),
                rates.as_ptr(),
                rates.len(),
                store,
                store_len,
                to,
                len,
            )
        })?;
        let trials = cutoffs.iter().zip(out.chunks_exact(2 * steps.len())).map(|(&cutoff, places)| Trial::of(cutoff, places)).collect();
        Ok((trials, sum))
    }
}
