//! What measure.rs and sampler.rs name. Document 01 leaves measuring out, so none of this is called but for the last function.

use crate::{data::GeneralizedTableau, sparsevec::SparseVector};
use num::Complex;
use ppvm_pauli_word::Pauli;
use ppvm_traits::config::Config;
use std::collections::HashMap;

#[derive(Clone)]
pub struct MeasureScratch<I, V> {
    pub coeff_map: HashMap<I, Complex<V>>,
    pub odd_phase_mask: Option<I>,
}
impl<I, V> MeasureScratch<I, V> {
    #[allow(clippy::new_without_default)]
    pub fn new() -> Self {
        MeasureScratch { coeff_map: HashMap::new(), odd_phase_mask: None }
    }
}

impl<T: Config, I, C: SparseVector<Complex<T::Coeff>, I>> GeneralizedTableau<T, I, C> {
    pub fn compute_decomposition(&self, _: usize, _: Pauli) -> (u8, I, I) {
        unreachable!()
    }
    pub fn compute_overlap_case_b(_: &[(Complex<T::Coeff>, I)], _: u8, _: I) -> f64 {
        unreachable!()
    }
    pub fn project_case_b(&mut self, _: &[(Complex<T::Coeff>, I)], _: bool, _: u8, _: I) {
        unreachable!()
    }
    pub fn odd_phase_destabilizer_mask(&self) -> I {
        unreachable!()
    }
    pub fn compute_overlap_case_a(_: &HashMap<I, Complex<T::Coeff>>, _: u8, _: I, _: I, _: I) -> f64 {
        unreachable!()
    }
    pub fn project_case_a(&mut self, _: bool, _: &mut MeasureScratch<I, T::Coeff>, _: u8, _: I, _: I, _: usize) {
        unreachable!()
    }

    /// Which entry was picked: the bits of its list place.
    pub fn measure_all_with_scratch(&mut self, _: &mut MeasureScratch<I, T::Coeff>) -> Vec<Option<bool>> {
        (0..usize::BITS).map(|b| Some(self.place >> b & 1 == 1)).collect()
    }
}
