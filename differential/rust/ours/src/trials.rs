//! Cutoffs tried by `tableau_sum_try_cutoffs`, from steps that are calls of channels on one qubit. crates/trials says what it does.

use crate::list::parts;
use crate::{Answer, Size};
use oracle::Call;

// Pointers and lengths by themselves, as in C: Rust would put a slice on the stack whole where one register is left.
#[rustfmt::skip]
unsafe extern "C" {
    fn tableau_sum_try_cutoffs(size: Size, threshold: f64, cutoffs: *const f64, cutoffs_len: usize, kinds: *const u64, kinds_len: usize,
                               qubits: *const usize, qubits_len: usize, rates: *const f64, rates_len: usize, store: *mut u64,
                               store_len: usize, out: *mut u64, out_len: usize) -> Answer;
}

/// The steps as the library takes them.
#[derive(Clone, Debug)]
pub struct Steps {
    kinds: Vec<u64>,
    qubits: Vec<usize>,
    rates: Vec<f64>,
}

impl Steps {
    pub fn of(calls: &[Call]) -> Steps {
        let mut steps = Steps { kinds: Vec::new(), qubits: Vec::new(), rates: Vec::new() };
        for call in calls {
            let (kind, q, _, mut rates) = parts(*call);
            assert!(kind < 3, "a step is a channel on one qubit");
            rates.resize(3, 0.0);
            steps.kinds.push(kind);
            steps.qubits.push(q);
            steps.rates.extend(rates);
        }
        steps
    }

    /// Two words of `out` for each step of each trial; the store has the last one's sum.
    pub fn try_cutoffs(&self, size: Size, threshold: f64, cutoffs: &[f64], store: &mut [u64], out: &mut [u64]) -> Answer {
        let (kinds, qubits, rates) = (&self.kinds, &self.qubits, &self.rates);
        // SAFETY: pointers and lengths are those of slices, of which the two that are written to are borrowed for that.
        unsafe {
            tableau_sum_try_cutoffs(
                size,
                threshold,
                cutoffs.as_ptr(),
                cutoffs.len(),
                kinds.as_ptr(),
                kinds.len(),
                qubits.as_ptr(),
                qubits.len(),
                rates.as_ptr(),
                rates.len(),
                store.as_mut_ptr(),
                store.len(),
                out.as_mut_ptr(),
                out.len(),
            )
        }
    }
}
