//! Loads the published sum from document 01's header and store words, makes calls of the published code on it, and gives its words.

use crate::data::GeneralizedTableauSum;
use crate::page::page;
use crate::sampler::Sampler;
use crate::storage::{EntryStore, vec::VecStorage};
use crate::watched::{Watch, Watched};
use num::complex::{Complex, Complex64};
use ppvm_pauli_word::{Bits, PauliWord, PhasedPauliWord};
use ppvm_tableau::data::{GeneralizedTableau, QubitStatus};
use ppvm_traits::config::Config;
use ppvm_traits::traits::*;

/// A row's bits are one word.
#[derive(Clone, Copy, Debug)]
pub struct Row;
impl Config for Row {
    type Storage = [u64; 1];
    type Coeff = f64;
    type BuildHasher = std::hash::RandomState;
}
pub type Coeffs = Vec<(Complex64, u64)>;
pub type Tab = GeneralizedTableau<Row, u64, Coeffs>;
pub type Store = VecStorage<Row, u64, Coeffs>;
type Summed<S> = GeneralizedTableauSum<Row, u64, Coeffs, S>;

/// A sum as document 01 has it: what the header says, and the words of the listed entries.
#[derive(Clone, Debug, PartialEq)]
pub struct Sum {
    pub n: usize,
    pub k: usize,
    pub threshold: f64,
    pub cutoff: f64,
    pub dirty: bool,
    pub words: Vec<u64>,
}

/// The calls that change a sum.
#[derive(Clone, Copy, Debug)]
pub enum Call {
    Pauli(usize, [f64; 3]),
    Loss(usize, f64),
    Depolarize1(usize, f64),
    TwoPauli(usize, usize, [f64; 15]),
    Depolarize2(usize, usize, f64),
    Reset(usize),
    H(usize),
    S(usize),
    Cnot(usize, usize),
    Truncate,
    Normalise,
}

// ---- entries and their words

/// Where an entry's rows begin: weight, loss, two keys and a count come first, then k coefficients of three words.
pub fn rows_at(k: usize) -> usize {
    5 + 3 * k
}

/// The words of an entry: 2n rows of three words stand at its end.
pub fn entry_len(n: usize, k: usize) -> usize {
    rows_at(k) + 6 * n
}

fn tableau(sum: &Sum, e: &[u64]) -> Tab {
    let status = |q: usize| if e[1] >> q & 1 == 1 { QubitStatus::Lost } else { QubitStatus::Live };
    let coefficient = |c: &[u64]| (Complex { re: f64::from_bits(c[1]), im: f64::from_bits(c[2]) }, c[0]);
    let row =
        |r: &[u64]| PhasedPauliWord { word: PauliWord { xbits: Bits { data: [r[0]] }, zbits: Bits { data: [r[1]] } }, phase: r[2] as u8 };
    let (coefficients, rows) = e.split_at(rows_at(sum.k));
    Tab::from_parts(
        rows.chunks_exact(3).map(row).collect(),
        coefficients[5..].chunks_exact(3).take(e[4] as usize).map(coefficient).collect(),
        sum.threshold,
        (0..sum.n).map(status).collect(),
    )
}

fn store(sum: &Sum) -> Store {
    let mut s = Store::with_capacity(0);
    for e in sum.words.chunks_exact(entry_len(sum.n, sum.k)) {
        s.entries.push((tableau(sum, e), f64::from_bits(e[0])));
        s.word_fingerprints.push(e[2]);
        s.phase_loss_hashes.push(e[3]);
        s.fingerprints.push(e[2] ^ e[3]);
    }
    s.dirty = sum.dirty;
    s
}

/// Bit q: qubit q is lost.
pub fn loss_word(t: &Tab) -> u64 {
    t.qubit_status.iter().rev().fold(0, |w, q| 2 * w + q.is_lost() as u64)
}

fn words(s: &Store, k: usize) -> Vec<u64> {
    let mut all = Vec::new();
    for (i, (t, weight)) in s.entries.iter().enumerate() {
        let (word_key, phase_key) = (s.word_fingerprints[i], s.phase_loss_hashes[i]);
        assert_eq!(s.fingerprints[i], word_key ^ phase_key, "the full key is the XOR of its parts");
        all.extend([weight.to_bits(), loss_word(t), word_key, phase_key, t.coefficients.len() as u64]);
        for (value, index) in &t.coefficients {
            all.extend([*index, value.re.to_bits(), value.im.to_bits()]);
        }
        all.extend(vec![0; 3 * (k - t.coefficients.len())]);
        for r in &t.tableau.data {
            all.extend([r.word.xbits.data[0], r.word.zbits.data[0], r.phase as u64]);
        }
    }
    all
}

// ---- calls

/// A gate passes over the entries that have lost one of its qubits, and marks the keys in any case: document 02, request 5.
fn gate<S: EntryStore<Row, u64, Coeffs>>(s: &mut Summed<S>, qubits: &[usize], turn: impl Fn(&mut Tab)) {
    s.entries.for_each_mut(|t, _| {
        if !qubits.iter().any(|&q| t.is_lost(q)) {
            turn(t)
        }
    });
    s.entries.mark_keys_dirty();
}

/// One call of the published code. Gates are the substitute's.
fn make<S: EntryStore<Row, u64, Coeffs>>(s: &mut Summed<S>, call: Call) {
    match call {
        Call::Pauli(q, p) => s.pauli_error(q, p),
        Call::Loss(q, p) => s.loss_channel(q, p),
        Call::Depolarize1(q, p) => s.depolarize1(q, p),
        Call::TwoPauli(a, b, p) => s.two_qubit_pauli_error(a, b, p),
        Call::Depolarize2(a, b, p) => s.depolarize2(a, b, p),
        Call::Reset(q) => s.reset_loss_channel(q),
        Call::H(q) => gate(s, &[q], |t| t.h(q)),
        Call::S(q) => gate(s, &[q], |t| t.s(q)),
        Call::Cnot(a, b) => gate(s, &[a, b], |t| t.cnot(a, b)),
        Call::Truncate => s.truncate(),
        Call::Normalise => s.normalize_probabilities(),
    }
}

/// The published sum alone, to be timed.
#[derive(Clone)]
pub struct Plain(Summed<Store>);

impl Plain {
    pub fn call(&mut self, call: Call) {
        make(&mut self.0, call);
    }
    pub fn entries(&self) -> usize {
        self.0.entries.entries.len()
    }
    /// Of each entry its weight, and whether qubit 0 is lost.
    pub fn weights(&self) -> Vec<(f64, bool)> {
        self.0.entries.entries.iter().map(|(t, weight)| (*weight, t.is_lost(0))).collect()
    }
    pub fn sampled(&mut self) -> Sampled {
        Sampled(self.0.sampler())
    }
    pub fn page(&self) -> String {
        page(&self.0.entries)
    }
}

/// Two published sums that are given the same calls: one as it is published, and one whose store is watched.
#[derive(Clone)]
pub struct Published {
    k: usize,
    threshold: f64,
    plain: Summed<Store>,
    watched: Summed<Watched>,
}

impl Published {
    /// The sum of the fresh entry.
    pub fn fresh(n: usize, k: usize, threshold: f64, cutoff: f64) -> Self {
        let (plain, watched) = (Summed::new(n, threshold, cutoff), Summed::new(n, threshold, cutoff));
        Published { k, threshold, plain, watched }
    }

    /// The sum of these entries, stored keys and flag.
    pub fn load(sum: &Sum) -> Self {
        let mut p = Self::fresh(sum.n, sum.k, sum.threshold, sum.cutoff);
        p.plain.entries = store(sum);
        p.watched.entries.inner = store(sum);
        p
    }

    pub fn call(&mut self, call: Call) -> Watch {
        make(&mut self.plain, call);
        self.watched.entries.watch = Watch::default();
        make(&mut self.watched, call);
        self.watched.entries.watch.clone()
    }

    fn sum(&self, s: &Store) -> Sum {
        let (n, k, threshold, cutoff) = (self.plain.n_qubits, self.k, self.threshold, self.plain.sum_cutoff);
        Sum { n, k, threshold, cutoff, dirty: s.dirty, words: words(s, k) }
    }

    pub fn plain(&self) -> Plain {
        Plain(self.plain.clone())
    }

    /// What the two sums hold.
    pub fn sums(&self) -> [Sum; 2] {
        [self.sum(&self.plain.entries), self.sum(&self.watched.entries.inner)]
    }

    /// What the sum holds once its keys are rebuilt, if it is dirty.
    pub fn rebuilt(mut self) -> Sum {
        self.plain.entries.for_each_mut_with_keys(|_, _, _, _| {});
        self.sum(&self.plain.entries)
    }

    /// The sum's weight page.
    pub fn page(&self) -> String {
        page(&self.plain.entries)
    }

    /// The sum's sampler, with each entry marked by its list place.
    pub fn sampled(&self) -> Sampled {
        let mut s = self.plain.clone();
        for (i, e) in s.entries.entries.iter_mut().enumerate() {
            e.0.place = i;
        }
        Sampled(s.sampler())
    }
}

pub struct Sampled(Sampler<Row, u64, Coeffs>);
impl Sampled {
    /// Two words an entry: list place, total bits.
    pub fn table(&self) -> Vec<u64> {
        let totals = self.0.p_cumulative.iter();
        self.0.entries.iter().zip(totals).flat_map(|(e, t)| [e.0.place as u64, t.to_bits()]).collect()
    }

    /// The place that `sample` takes with this draw. The list is not empty.
    pub fn pick(&mut self, draw: f64) -> usize {
        rand::set_draw(draw);
        self.0.sample().iter().rev().fold(0, |place, bit| 2 * place + (*bit == Some(true)) as usize)
    }
}
