use crate::{probe, sparsevec::SparseVector, tableau_index::TableauIndex};
use bitvec::view::BitViewSized;
use num::{Complex, One, complex::ComplexFloat};
use ppvm_pauli_word::{Bits, PauliWord, PhasedPauliWord};
use ppvm_traits::{config::Config, traits::Clifford};
use std::marker::PhantomData;
use std::ops::{Deref, DerefMut};

#[derive(Clone, Copy, PartialEq, Debug)]
pub enum QubitStatus {
    Live,
    Lost,
}
impl QubitStatus {
    pub fn is_lost(&self) -> bool {
        *self == QubitStatus::Lost
    }
}

/// A status for each qubit. The probe sits in the two things that every likeness test asks for first.
#[derive(Clone, Debug)]
pub struct Statuses(Vec<QubitStatus>);
impl Statuses {
    pub fn len(&self) -> usize {
        probe::note_len(self);
        self.0.len()
    }
}
impl PartialEq for Statuses {
    fn eq(&self, o: &Self) -> bool {
        probe::note_eq(self);
        self.0 == o.0
    }
}
impl Deref for Statuses {
    type Target = [QubitStatus];
    fn deref(&self) -> &[QubitStatus] {
        &self.0
    }
}
impl DerefMut for Statuses {
    fn deref_mut(&mut self) -> &mut [QubitStatus] {
        &mut self.0
    }
}

#[derive(Clone, Debug)]
pub struct Tableau<T: Config> {
    pub data: Vec<PhasedPauliWord<T>>,
}

#[derive(Clone, Debug)]
pub struct GeneralizedTableau<T: Config, I, C: SparseVector<Complex<T::Coeff>, I>> {
    pub tableau: Tableau<T>,
    pub coefficients: C,
    pub coefficient_threshold: T::Coeff,
    pub qubit_status: Statuses,
    /// Not in the crate: the entry's list place, which `sampler`'s clones keep.
    pub place: usize,
    _index: PhantomData<I>,
}

impl<T: Config, I, C: SparseVector<Complex<T::Coeff>, I>> GeneralizedTableau<T, I, C> {
    /// Not in the crate: a tableau from its parts.
    pub fn from_parts(
        data: Vec<PhasedPauliWord<T>>,
        coefficients: C,
        coefficient_threshold: T::Coeff,
        qubit_status: Vec<QubitStatus>,
    ) -> Self {
        GeneralizedTableau {
            tableau: Tableau { data },
            coefficients,
            coefficient_threshold,
            qubit_status: Statuses(qubit_status),
            place: 0,
            _index: PhantomData,
        }
    }

    pub fn is_lost(&self, q: usize) -> bool {
        self.qubit_status[q].is_lost()
    }
}

impl<T: Config, I: Clone, C: SparseVector<Complex<T::Coeff>, I>> GeneralizedTableau<T, I, C> {
    /// With no generator in it, a fork is a clone.
    pub fn fork(&self, _seed: Option<u64>) -> Self {
        self.clone()
    }
}

impl<T: Config, I: TableauIndex, C: SparseVector<Complex<T::Coeff>, I>> GeneralizedTableau<T, I, C>
where
    Complex<T::Coeff>: ComplexFloat,
{
    /// Rows 0 to n−1 are X on qubit i, rows n to 2n−1 Z; phases 0; 1 + 0i at index 0.
    pub fn new(n_qubits: usize, threshold: T::Coeff) -> Self {
        let row = |r: usize| {
            let (mut x, mut z) = (T::Storage::ZERO, T::Storage::ZERO);
            if r < n_qubits {
                x.flip(r);
            } else {
                z.flip(r - n_qubits);
            }
            let word = PauliWord { xbits: Bits { data: x }, zbits: Bits { data: z } };
            PhasedPauliWord { word, phase: 0 }
        };
        let mut coefficients = C::new();
        coefficients.push(Complex::one(), I::zero());
        let rows = (0..2 * n_qubits).map(row).collect();
        Self::from_parts(rows, coefficients, threshold, vec![QubitStatus::Live; n_qubits])
    }

    pub fn new_with_seed(n_qubits: usize, threshold: T::Coeff, _seed: u64) -> Self {
        Self::new(n_qubits, threshold)
    }
}

/// The sign of each row for which the rule says so is flipped.
fn flip_signs<T: Config>(rows: &mut [PhasedPauliWord<T>], rule: impl Fn(&PauliWord<T>) -> bool) {
    for r in rows {
        r.phase ^= (rule(&r.word) as u8) << 1;
    }
}
fn x<T: Config>(w: &PauliWord<T>, q: usize) -> bool {
    w.xbits.data.bit(q)
}
fn z<T: Config>(w: &PauliWord<T>, q: usize) -> bool {
    w.zbits.data.bit(q)
}

/// Document 01, points 5 and 8. Gates flip signs first: their rules are about the old bits.
impl<T: Config, I, C: SparseVector<Complex<T::Coeff>, I>> Clifford for GeneralizedTableau<T, I, C> {
    fn x(&mut self, q: usize) {
        flip_signs(&mut self.tableau.data, |w| z(w, q));
    }
    fn y(&mut self, q: usize) {
        flip_signs(&mut self.tableau.data, |w| x(w, q) != z(w, q));
    }
    fn z(&mut self, q: usize) {
        flip_signs(&mut self.tableau.data, |w| x(w, q));
    }
    fn h(&mut self, q: usize) {
        flip_signs(&mut self.tableau.data, |w| x(w, q) && z(w, q));
        for r in &mut self.tableau.data {
            if x(&r.word, q) != z(&r.word, q) {
                r.word.xbits.data.flip(q);
                r.word.zbits.data.flip(q);
            }
        }
    }
    fn s(&mut self, q: usize) {
        flip_signs(&mut self.tableau.data, |w| x(w, q) && z(w, q));
        for r in &mut self.tableau.data {
            if x(&r.word, q) {
                r.word.zbits.data.flip(q);
            }
        }
    }
    fn cnot(&mut self, a: usize, b: usize) {
        flip_signs(&mut self.tableau.data, |w| x(w, a) && z(w, b) && x(w, b) == z(w, a));
        for r in &mut self.tableau.data {
            if x(&r.word, a) {
                r.word.xbits.data.flip(b);
            }
            if z(&r.word, b) {
                r.word.zbits.data.flip(a);
            }
        }
    }
}
