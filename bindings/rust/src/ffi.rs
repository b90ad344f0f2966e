//! The calls as libtableau_sum.a exports them; include/tableau_sum.h says the same for C. A slice is passed as pointer and length.

use crate::{Counts, Lost, Size};

#[repr(C)]
#[derive(Clone, Copy, Debug, PartialEq)]
pub struct Header {
    pub size: Size,
    pub count: usize,
    pub threshold: f64,
    pub cutoff: f64,
    pub dirty: bool,
}

#[repr(C)]
#[derive(Clone, Copy, Debug, PartialEq)]
pub struct Answer {
    pub number: u64,
    pub header: Header,
    pub counts: Counts,
    pub lost: Lost,
    pub place: usize,
    pub length: usize,
}

#[repr(C)]
#[derive(Clone, Copy, Debug, PartialEq)]
pub struct Room {
    pub shown: usize,
    pub bytes: usize,
}

#[repr(C)]
#[derive(Clone, Copy, Debug, PartialEq)]
pub struct Ran {
    pub number: u64,
    pub made: usize,
    pub header: Header,
}

/// Words of a call, and of the record of one that shows nothing.
pub const CALL_WORDS: usize = 18;
pub const RECORD_WORDS: usize = 11;

// SAFETY, for whoever calls these: each pointer with its length is a slice that may be read, or written if it is `*mut`; the slices of one
// call do not overlap. There is nothing else to keep: header, words and numbers may be any, and the calls do not unwind.
#[rustfmt::skip]
extern "C" {
    pub fn tableau_sum_fresh(size: Size, threshold: f64, cutoff: f64, store: *mut u64, store_len: usize) -> Answer;
    pub fn tableau_sum_read_sheet(text: *const u8, text_len: usize, store: *mut u64, store_len: usize) -> Answer;
    pub fn tableau_sum_pauli_error(h: Header, store: *mut u64, store_len: usize, q: usize, x: f64, y: f64, z: f64) -> Answer;
    pub fn tableau_sum_loss_channel(h: Header, store: *mut u64, store_len: usize, q: usize, rate: f64) -> Answer;
    pub fn tableau_sum_depolarize1(h: Header, store: *mut u64, store_len: usize, q: usize, rate: f64) -> Answer;
    pub fn tableau_sum_two_qubit_pauli_error(h: Header, store: *mut u64, store_len: usize, p: usize, q: usize, rates: &[f64; 15]) -> Answer;
    pub fn tableau_sum_depolarize2(h: Header, store: *mut u64, store_len: usize, p: usize, q: usize, rate: f64) -> Answer;
    pub fn tableau_sum_reset_loss_channel(h: Header, store: *mut u64, store_len: usize, q: usize) -> Answer;
    pub fn tableau_sum_h(h: Header, store: *mut u64, store_len: usize, q: usize) -> Answer;
    pub fn tableau_sum_s(h: Header, store: *mut u64, store_len: usize, q: usize) -> Answer;
    pub fn tableau_sum_cnot(h: Header, store: *mut u64, store_len: usize, a: usize, b: usize) -> Answer;
    #[allow(clippy::too_many_arguments)]
    pub fn tableau_sum_try_cutoffs(size: Size, threshold: f64, cutoffs: *const f64, cutoffs_len: usize, kinds: *const u64, kinds_len: usize,
                                   qubits: *const usize, qubits_len: usize, rates: *const f64, rates_len: usize, store: *mut u64,
                                   store_len: usize, out: *mut u64, out_len: usize) -> Answer;
    pub fn tableau_sum_truncate(h: Header, store: *mut u64, store_len: usize) -> Answer;
    pub fn tableau_sum_normalise(h: Header, store: *mut u64, store_len: usize) -> Answer;
    pub fn tableau_sum_table(h: Header, store: *const u64, store_len: usize, out: *mut u64, out_len: usize) -> Answer;
    pub fn tableau_sum_pick(h: Header, store: *const u64, store_len: usize, draw: f64) -> Answer;
    pub fn tableau_sum_write_sheet(h: Header, store: *const u64, store_len: usize, out: *mut u8, out_len: usize) -> Answer;
    pub fn tableau_sum_write_page(h: Header, store: *const u64, store_len: usize, out: *mut u8, out_len: usize) -> Answer;
    pub fn tableau_sum_view(h: Header, store: *const u64, store_len: usize, place: usize) -> Answer;
    pub fn tableau_sum_view_word(h: Header, store: *const u64, store_len: usize, place: usize, i: usize) -> u64;
    pub fn tableau_sum_run(h: Header, store: *mut u64, store_len: usize, calls: *const u64, calls_len: usize, log: *mut u64, log_len: usize,
                           text: *mut u8, text_len: usize, room: Room, stop: bool) -> Ran;
}

// The layout that the library was built for.
const _: () = {
    use std::mem::{offset_of, size_of};
    assert!(size_of::<Size>() == 24 && size_of::<Counts>() == 32 && size_of::<Lost>() == 16);
    assert!(size_of::<Header>() == 56 && offset_of!(Header, dirty) == 48);
    assert!(size_of::<Answer>() == 128 && offset_of!(Answer, counts) == 64 && offset_of!(Answer, lost) == 96);
    assert!(offset_of!(Answer, place) == 112 && offset_of!(Answer, length) == 120);
    assert!(size_of::<Room>() == 16 && size_of::<Ran>() == 72 && offset_of!(Ran, header) == 16);
};

#[cfg(test)]
mod tests {
    use super::*;

    const SIZE: Size = Size { n: 1, k: 1, capacity: 1 };

    /// Every call that takes a header, with this one and a store of zeros.
    fn answers(h: Header) -> [Answer; 16] {
        let (mut store, mut out, mut text) = ([0; 14], [0; 2], [0; 1]);
        let (to, len) = (store.as_mut_ptr(), store.len());
        let from = to.cast_const();
        // SAFETY: pointers and lengths are those of arrays, of which no two are the same.
        unsafe {
            [
                tableau_sum_pauli_error(h, to, len, 0, 0.0, 0.0, 0.0),
                tableau_sum_loss_channel(h, to, len, 0, 0.0),
                tableau_sum_depolarize1(h, to, len, 0, 0.0),
                tableau_sum_two_qubit_pauli_error(h, to, len, 0, 0, &[0.0; 15]),
                tableau_sum_depolarize2(h, to, len, 0, 0, 0.0),
                tableau_sum_reset_loss_channel(h, to, len, 0),
                tableau_sum_h(h, to, len, 0),
                tableau_sum_s(h, to, len, 0),
                tableau_sum_cnot(h, to, len, 0, 0),
                tableau_sum_truncate(h, to, len),
                tableau_sum_normalise(h, to, len),
                tableau_sum_table(h, from, len, out.as_mut_ptr(), out.len()),
                tableau_sum_pick(h, from, len, 0.0),
                tableau_sum_write_sheet(h, from, len, text.as_mut_ptr(), text.len()),
                tableau_sum_write_page(h, from, len, text.as_mut_ptr(), text.len()),
                tableau_sum_view(h, from, len, 0),
            ]
        }
    }

    /// A list of these calls, which show nothing.
    fn ran(h: Header, calls: &[u64]) -> (Ran, [u64; 2 * RECORD_WORDS]) {
        let (mut store, mut log, mut text) = ([0; 14], [0; 2 * RECORD_WORDS], [0; 1]);
        let (to, room) = (store.as_mut_ptr(), Room { shown: 0, bytes: 0 });
        // SAFETY: pointers and lengths are those of arrays, of which no two are the same, and of a slice.
        let ran = unsafe {
            tableau_sum_run(h, to, 14, calls.as_ptr(), calls.len(), log.as_mut_ptr(), log.len(), text.as_mut_ptr(), 0, room, false)
        };
        (ran, log)
    }

    /// The proofs know one NaN only, so that these bits are handed back as they were given is tested.
    #[test]
    fn a_refused_call_keeps_the_bits_of_a_nan() {
        // quiet; with a sign and a payload; signalling
        let nans = [0x7ff8_0000_0000_0000, 0xfff8_0000_dead_beef, 0x7ff0_0000_0000_0001_u64];
        let bounds = nans.into_iter().flat_map(|a| nans.map(|b| [a, b]));
        let bounds = bounds.chain(nans.into_iter().flat_map(|a| [[a, 0], [0, a]]));
        for [threshold, cutoff] in bounds {
            for (n, number) in [(1, 2), (65, 1)] {
                let size = Size { n, ..SIZE };
                let h = Header { size, count: 1, threshold: f64::from_bits(threshold), cutoff: f64::from_bits(cutoff), dirty: true };
                let kept = |h: Header| [h.threshold.to_bits(), h.cutoff.to_bits()] == [threshold, cutoff];
                assert!(answers(h).iter().all(|a| a.number == number && kept(a.header)));
                let (made, log) = ran(h, &[0; 2 * CALL_WORDS]);
                assert_eq!((made.number, made.made, log[0], log[RECORD_WORDS]), (0, 2, number, number));
                let (unfit, _) = ran(h, &[0; CALL_WORDS - 1]);
                assert_eq!((unfit.number, unfit.made, unfit.header.count, unfit.header.dirty), (19, 0, 1, true));
                assert!(kept(made.header) && kept(unfit.header));
            }
        }
    }
}
