//! A list of calls, made in one by `tableau_sum_run`: each is 18 words, and leaves a record of 11. crates/perform says what these are.

use crate::{Header, Ours};
use oracle::Call;

pub const CALL_WORDS: usize = 18;
pub const RECORD_WORDS: usize = 11;

/// What each call has room for: words to show behind its record, and bytes of text.
#[repr(C)]
#[derive(Clone, Copy, Debug)]
pub struct Room {
    pub shown: usize,
    pub bytes: usize,
}
#[repr(C)]
#[derive(Clone, Copy, Debug)]
pub struct Ran {
    pub number: u64,
    pub made: usize,
    pub header: Header,
}

// Pointers and lengths by themselves, as in C: for the third slice one register is left, and Rust would put a slice on the stack whole.
#[rustfmt::skip]
unsafe extern "C" {
    fn tableau_sum_run(h: Header, store: *mut u64, store_len: usize, calls: *const u64, calls_len: usize, log: *mut u64, log_len: usize,
                       text: *mut u8, text_len: usize, room: Room, stop: bool) -> Ran;
}

/// Kind, whole numbers and rates, as crates/perform has them.
pub fn parts(call: Call) -> (u64, usize, usize, Vec<f64>) {
    match call {
        Call::Pauli(q, p) => (0, q, 0, p.to_vec()),
        Call::Loss(q, p) => (1, q, 0, vec![p]),
        Call::Depolarize1(q, p) => (2, q, 0, vec![p]),
        Call::TwoPauli(p, q, rates) => (3, p, q, rates.to_vec()),
        Call::Depolarize2(p, q, rate) => (4, p, q, vec![rate]),
        Call::Reset(q) => (5, q, 0, vec![]),
        Call::H(q) => (6, q, 0, vec![]),
        Call::S(q) => (7, q, 0, vec![]),
        Call::Cnot(a, b) => (8, a, b, vec![]),
        Call::Truncate => (9, 0, 0, vec![]),
        Call::Normalise => (10, 0, 0, vec![]),
    }
}

fn call_words(call: Call) -> [u64; CALL_WORDS] {
    let (kind, p, q, rates) = parts(call);
    let mut words = [0; CALL_WORDS];
    words[..3].copy_from_slice(&[kind, p as u64, q as u64]);
    for (word, rate) in words[3..].iter_mut().zip(rates) {
        *word = rate.to_bits();
    }
    words
}

/// The words of a list, one call behind the other.
pub fn list_words(calls: &[Call]) -> Vec<u64> {
    calls.iter().flat_map(|call| call_words(*call)).collect()
}

impl Ours {
    /// A list that shows nothing and writes no text. `log` has a record for each call.
    pub fn run(&mut self, calls: &[u64], log: &mut [u64], stop: bool) -> Ran {
        let (store, text, room) = (&mut self.store, &mut [0u8; 0], Room { shown: 0, bytes: 0 });
        // SAFETY: each pointer comes with the length of its slice, and no two overlap.
        let ran = unsafe {
            tableau_sum_run(
                self.header,
                store.as_mut_ptr(),
                store.len(),
                calls.as_ptr(),
                calls.len(),
                log.as_mut_ptr(),
                log.len(),
                text.as_mut_ptr(),
                text.len(),
                room,
                stop,
            )
        };
        self.header = ran.header;
        ran
    }
}
