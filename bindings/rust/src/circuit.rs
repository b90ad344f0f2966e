use crate::ffi::{CALL_WORDS, RECORD_WORDS};
use crate::sum::judged;
use crate::{Counts, Error, Lost, TableauSum};
use std::iter::Copied;
use std::slice::Iter;

/// Word 0 of a call.
enum Kind {
    PauliError,
    LossChannel,
    Depolarize1,
    TwoQubitPauliError,
    Depolarize2,
    ResetLossChannel,
    H,
    S,
    Cnot,
    Truncate,
    Normalise,
}

/// A list of calls that change a sum, which [`TableauSum::run`] makes in one call of the library.
///
/// Each method adds the call that [`TableauSum`] has under its name. Qubits and rates are judged when the call is made. Calls that only look
/// at a sum are in no circuit: its table, picks, sheet, page and entries are asked of the sum itself, after a run or between two.
///
/// `==` compares call by call, rates by their bits.
///
/// ```
/// use tableau_sum::{Circuit, Error, Size, TableauSum};
///
/// let mut circuit = Circuit::new();
/// circuit.h(0).cnot(0, 1).cnot(1, 2); // three atoms in a GHZ state
/// for q in 0..3 {
///     circuit.loss_channel(q, 0.01);
/// }
/// let mut sum = TableauSum::fresh(Size { n: 3, k: 1, capacity: 32 }, 1e-6, 1e-3)?;
/// let run = sum.run(&circuit);
/// assert_eq!((run.made(), run.first_refusal()), (6, None));
/// let lost: Vec<f64> = run.iter().map(|step| Ok(step?.lost.dropped)).collect::<Result<_, Error>>()?;
/// assert!(lost[..4] == [0.0; 4] && lost[4] > 0.0 && lost[5] > 0.0); // two atoms lost at once are below the cutoff
/// assert_eq!(sum.table()?.len(), 4);
/// # Ok::<(), Error>(())
/// ```
#[derive(Clone, Debug, Default, PartialEq, Eq, Hash)]
pub struct Circuit {
    // CALL_WORDS for each call.
    words: Vec<u64>,
}

/// # Channels
impl Circuit {
    /// X, Y and Z at qubit q with these rates.
    pub fn pauli_error(&mut self, q: usize, rates: [f64; 3]) -> &mut Self {
        self.add(Kind::PauliError, [q, 0], &rates)
    }

    /// Qubit q is lost with this rate.
    pub fn loss_channel(&mut self, q: usize, rate: f64) -> &mut Self {
        self.add(Kind::LossChannel, [q, 0], &[rate])
    }

    /// X, Y and Z at qubit q, each with a third of the rate.
    pub fn depolarize1(&mut self, q: usize, rate: f64) -> &mut Self {
        self.add(Kind::Depolarize1, [q, 0], &[rate])
    }

    /// Pairs of Paulis at qubits p and q, with rates in the order of [`TableauSum::two_qubit_pauli_error`].
    pub fn two_qubit_pauli_error(&mut self, p: usize, q: usize, rates: [f64; 15]) -> &mut Self {
        self.add(Kind::TwoQubitPauliError, [p, q], &rates)
    }

    /// Each of these pairs with a fifteenth of the rate.
    pub fn depolarize2(&mut self, p: usize, q: usize, rate: f64) -> &mut Self {
        self.add(Kind::Depolarize2, [p, q], &[rate])
    }

    /// Entries that are lost at qubit q become live, and are merged.
    pub fn reset_loss_channel(&mut self, q: usize) -> &mut Self {
        self.add(Kind::ResetLossChannel, [q, 0], &[])
    }
}

/// # Gates and weights
///
/// Gates pass over the entries that have lost one of their qubits.
impl Circuit {
    /// H at qubit q.
    pub fn h(&mut self, q: usize) -> &mut Self {
        self.add(Kind::H, [q, 0], &[])
    }

    /// S at qubit q.
    pub fn s(&mut self, q: usize) -> &mut Self {
        self.add(Kind::S, [q, 0], &[])
    }

    /// CNOT from qubit a, which controls, to qubit b, which is another.
    pub fn cnot(&mut self, a: usize, b: usize) -> &mut Self {
        self.add(Kind::Cnot, [a, b], &[])
    }

    /// Keeps the entries whose weight is above the cutoff and, if any went, normalises.
    pub fn truncate(&mut self) -> &mut Self {
        self.add(Kind::Truncate, [0, 0], &[])
    }

    /// Divides each weight by the total of all.
    pub fn normalise(&mut self) -> &mut Self {
        self.add(Kind::Normalise, [0, 0], &[])
    }

    /// A call as words: its kind, two qubits, the bits of up to 15 rates; 0 where it has none.
    fn add(&mut self, kind: Kind, qubits: [usize; 2], rates: &[f64]) -> &mut Self {
        let mut call = [0; CALL_WORDS];
        call[0] = kind as u64;
        call[1..3].copy_from_slice(&qubits.map(|q| q as u64));
        for (word, rate) in call[3..].iter_mut().zip(rates) {
            *word = rate.to_bits();
        }
        self.words.extend(call);
        self
    }
}

/// # The list
impl Circuit {
    /// No call yet.
    pub fn new() -> Self {
        Self::default()
    }

    /// How many calls there are.
    pub fn len(&self) -> usize {
        self.words.len() / CALL_WORDS
    }

    /// Whether there is none.
    pub fn is_empty(&self) -> bool {
        self.words.is_empty()
    }

    /// Takes all of them out.
    pub fn clear(&mut self) {
        self.words.clear();
    }
}

/// What a call of a circuit did.
#[derive(Clone, Copy, Debug, PartialEq)]
pub struct Step {
    /// What became of the branches of a channel or a reset; 0 of every other call.
    pub counts: Counts,
    /// The weight that it took out of the sum.
    pub lost: Lost,
    /// The entries that the sum had after it.
    pub entries: usize,
    /// Whether the sum was [dirty](TableauSum::is_dirty) after it.
    pub dirty: bool,
}

impl Step {
    /// From the record that the library wrote.
    fn of(record: &[u64]) -> Result<Self, Error> {
        let record: &[u64; RECORD_WORDS] = record.try_into().expect("a record has so many words");
        let &[number, merged, stored, dropped, compared, _place, _length, dropped_bits, truncated_bits, entries, dirty] = record;
        judged(number)?;
        let [merged, stored, dropped, compared, entries] = [merged, stored, dropped, compared, entries].map(|word| word as usize);
        let lost = Lost { dropped: f64::from_bits(dropped_bits), truncated: f64::from_bits(truncated_bits) };
        Ok(Step { counts: Counts { merged, stored, dropped, compared }, lost, entries, dirty: dirty != 0 })
    }
}

/// What the calls of a circuit gave: a [`Step`] of each that was done, an [`Error`] of each that was refused, in order.
#[derive(Clone, Debug, PartialEq)]
#[must_use = "calls of the circuit may have been refused"]
pub struct Run {
    steps: Vec<Result<Step, Error>>,
}

impl Run {
    /// How many calls were made, refused ones counted: all of the circuit or, where a refusal ended the run, those up to it.
    pub fn made(&self) -> usize {
        self.steps.len()
    }

    /// The same: as many as [`iter`](Run::iter) gives.
    pub fn len(&self) -> usize {
        self.made()
    }

    /// Whether no call was made, as of an empty circuit.
    pub fn is_empty(&self) -> bool {
        self.steps.is_empty()
    }

    /// What each call gave.
    pub fn iter(&self) -> Copied<Iter<'_, Result<Step, Error>>> {
        self.steps.iter().copied()
    }

    /// The first call that was refused: its place in the circuit, from 0, and why.
    pub fn first_refusal(&self) -> Option<(usize, Error)> {
        self.iter().enumerate().find_map(|(place, step)| Some((place, step.err()?)))
    }
}

impl<'a> IntoIterator for &'a Run {
    type Item = Result<Step, Error>;
    type IntoIter = Copied<Iter<'a, Result<Step, Error>>>;

    fn into_iter(self) -> Self::IntoIter {
        self.iter()
    }
}

/// # A circuit in one call
///
/// The sum is left, and each call is told, as if the calls had been made one by one; but the library looks through the whole store only
/// until it accepts one of them, and at the weights alone from there on.
impl TableauSum {
    /// Makes the calls of a circuit, in order. A refused call changes nothing, and the rest goes on.
    ///
    /// ```
    /// use tableau_sum::{Circuit, Error, Size, TableauSum};
    ///
    /// let mut sum = TableauSum::fresh(Size { n: 1, k: 1, capacity: 8 }, 0.5, 0.0)?;
    /// let mut circuit = Circuit::new();
    /// circuit.h(0).h(1).loss_channel(0, 0.25); // there is no qubit 1
    /// let run = sum.run(&circuit);
    /// assert_eq!((run.made(), run.first_refusal(), sum.len()), (3, Some((1, Error::BadPlace)), 2));
    /// # Ok::<(), Error>(())
    /// ```
    pub fn run(&mut self, circuit: &Circuit) -> Run {
        self.run_to(circuit, false)
    }

    /// Makes the calls of a circuit, in order, up to the first that is refused. That one changes nothing, and is the last of the run.
    ///
    /// ```
    /// use tableau_sum::{Circuit, Error, Size, TableauSum};
    ///
    /// let mut sum = TableauSum::fresh(Size { n: 1, k: 1, capacity: 8 }, 0.5, 0.0)?;
    /// let run = sum.run_until_refused(Circuit::new().h(0).h(1).loss_channel(0, 0.25));
    /// assert_eq!((run.made(), run.first_refusal(), sum.len()), (2, Some((1, Error::BadPlace)), 1));
    /// # Ok::<(), Error>(())
    /// ```
    pub fn run_until_refused(&mut self, circuit: &Circuit) -> Run {
        self.run_to(circuit, true)
    }

    fn run_to(&mut self, circuit: &Circuit, stop: bool) -> Run {
        let mut log = vec![0; circuit.len() * RECORD_WORDS];
        let made = self.make(&circuit.words, &mut log, stop);
        Run { steps: log.chunks_exact(RECORD_WORDS).take(made).map(Step::of).collect() }
    }
}
