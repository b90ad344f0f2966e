//! Our side: the proved calls of libtableau_sum.a. crates/tableau_sum says what each does.

pub mod list;
pub mod trials;

use oracle::{Call, Sum};

#[repr(C)]
#[derive(Clone, Copy, Debug)]
pub struct Size {
    pub n: usize,
    pub k: usize,
    pub capacity: usize,
}
#[repr(C)]
#[derive(Clone, Copy, Debug)]
pub struct Header {
    pub size: Size,
    pub count: usize,
    pub threshold: f64,
    pub cutoff: f64,
    pub dirty: bool,
}
#[repr(C)]
#[derive(Clone, Copy, Debug)]
pub struct Counts {
    pub merged: usize,
    pub stored: usize,
    pub dropped: usize,
    pub compared: usize,
}
#[repr(C)]
#[derive(Clone, Copy, Debug)]
pub struct Lost {
    pub dropped: f64,
    pub truncated: f64,
}
#[repr(C)]
#[derive(Clone, Copy, Debug)]
pub struct Answer {
    pub number: u64,
    pub header: Header,
    pub counts: Counts,
    pub lost: Lost,
    pub place: usize,
    pub length: usize,
}

#[allow(improper_ctypes)] // a slice is passed as its pointer and its length
unsafe extern "C" {
    safe fn tableau_sum_fresh(size: Size, threshold: f64, cutoff: f64, store: &mut [u64]) -> Answer;
    safe fn tableau_sum_read_sheet(text: &[u8], store: &mut [u64]) -> Answer;
    safe fn tableau_sum_pauli_error(h: Header, store: &mut [u64], q: usize, x: f64, y: f64, z: f64) -> Answer;
    safe fn tableau_sum_loss_channel(h: Header, store: &mut [u64], q: usize, rate: f64) -> Answer;
    safe fn tableau_sum_depolarize1(h: Header, store: &mut [u64], q: usize, rate: f64) -> Answer;
    safe fn tableau_sum_two_qubit_pauli_error(h: Header, store: &mut [u64], p: usize, q: usize, rates: &[f64; 15]) -> Answer;
    safe fn tableau_sum_depolarize2(h: Header, store: &mut [u64], p: usize, q: usize, rate: f64) -> Answer;
    safe fn tableau_sum_reset_loss_channel(h: Header, store: &mut [u64], q: usize) -> Answer;
    safe fn tableau_sum_h(h: Header, store: &mut [u64], q: usize) -> Answer;
    safe fn tableau_sum_s(h: Header, store: &mut [u64], q: usize) -> Answer;
    safe fn tableau_sum_cnot(h: Header, store: &mut [u64], a: usize, b: usize) -> Answer;
    safe fn tableau_sum_truncate(h: Header, store: &mut [u64]) -> Answer;
    safe fn tableau_sum_normalise(h: Header, store: &mut [u64]) -> Answer;
    safe fn tableau_sum_table(h: Header, store: &[u64], out: &mut [u64]) -> Answer;
    safe fn tableau_sum_pick(h: Header, store: &[u64], draw: f64) -> Answer;
    safe fn tableau_sum_write_sheet(h: Header, store: &[u64], out: &mut [u8]) -> Answer;
    safe fn tableau_sum_write_page(h: Header, store: &[u64], out: &mut [u8]) -> Answer;
    safe fn tableau_sum_view(h: Header, store: &[u64], place: usize) -> Answer;
    safe fn tableau_sum_view_word(h: Header, store: &[u64], place: usize, i: usize) -> u64;
}

impl Header {
    pub fn words(&self) -> [u64; 7] {
        let s = self.size;
        let whole = [s.n, s.k, s.capacity, self.count].map(|v| v as u64);
        [whole[0], whole[1], whole[2], whole[3], self.threshold.to_bits(), self.cutoff.to_bits(), self.dirty as u64]
    }
}
impl Answer {
    /// Everything but the header: number, counts, place, length, and the bits of what was lost.
    pub fn numbers(&self) -> [u64; 9] {
        let c = self.counts;
        let rest = [c.merged, c.stored, c.dropped, c.compared, self.place, self.length].map(|v| v as u64);
        let lost = [self.lost.dropped, self.lost.truncated].map(f64::to_bits);
        [self.number, rest[0], rest[1], rest[2], rest[3], rest[4], rest[5], lost[0], lost[1]]
    }
}

/// A header and the store that it describes.
#[derive(Clone, Debug)]
pub struct Ours {
    pub header: Header,
    pub store: Vec<u64>,
}

impl Ours {
    /// The fresh sum, in a store of the right length that held other words.
    pub fn fresh(size: Size, threshold: f64, cutoff: f64) -> (Ours, Answer) {
        let mut store = vec![7; size.capacity * entry_len(size)];
        let a = Self::fresh_in(size, threshold, cutoff, &mut store);
        (Ours { header: a.header, store }, a)
    }
    pub fn fresh_in(size: Size, threshold: f64, cutoff: f64, store: &mut [u64]) -> Answer {
        tableau_sum_fresh(size, threshold, cutoff, store)
    }

    /// A sum from its listed entries.
    pub fn holding(sum: &Sum, capacity: usize) -> Ours {
        let size = Size { n: sum.n, k: sum.k, capacity };
        let count = sum.words.len() / entry_len(size);
        let mut store = sum.words.clone();
        store.resize(capacity * entry_len(size), 0);
        let header = Header { size, count, threshold: sum.threshold, cutoff: sum.cutoff, dirty: sum.dirty };
        Ours { header, store }
    }

    /// The listed entries.
    pub fn sum(&self) -> Sum {
        let Header { size, count, threshold, cutoff, dirty } = self.header;
        let words = self.store[..count * entry_len(size)].to_vec();
        Sum { n: size.n, k: size.k, threshold, cutoff, dirty, words }
    }

    pub fn call(&mut self, call: Call) -> Answer {
        let (h, store) = (self.header, &mut self.store[..]);
        let a = match call {
            Call::Pauli(q, [x, y, z]) => tableau_sum_pauli_error(h, store, q, x, y, z),
            Call::Loss(q, rate) => tableau_sum_loss_channel(h, store, q, rate),
            Call::Depolarize1(q, rate) => tableau_sum_depolarize1(h, store, q, rate),
            Call::TwoPauli(p, q, rates) => tableau_sum_two_qubit_pauli_error(h, store, p, q, &rates),
            Call::Depolarize2(p, q, rate) => tableau_sum_depolarize2(h, store, p, q, rate),
            Call::Reset(q) => tableau_sum_reset_loss_channel(h, store, q),
            Call::H(q) => tableau_sum_h(h, store, q),
            Call::S(q) => tableau_sum_s(h, store, q),
            Call::Cnot(a, b) => tableau_sum_cnot(h, store, a, b),
            Call::Truncate => tableau_sum_truncate(h, store),
            Call::Normalise => tableau_sum_normalise(h, store),
        };
        self.header = a.header;
        a
    }

    pub fn table(&self, out: &mut [u64]) -> Answer {
        tableau_sum_table(self.header, &self.store, out)
    }
    pub fn pick(&self, draw: f64) -> Answer {
        tableau_sum_pick(self.header, &self.store, draw)
    }
    pub fn write_sheet(&self, out: &mut [u8]) -> Answer {
        tableau_sum_write_sheet(self.header, &self.store, out)
    }
    pub fn write_page(&self, out: &mut [u8]) -> Answer {
        tableau_sum_write_page(self.header, &self.store, out)
    }
    pub fn read_sheet(text: &[u8], store: &mut [u64]) -> Answer {
        tableau_sum_read_sheet(text, store)
    }
    pub fn view(&self, place: usize) -> Answer {
        tableau_sum_view(self.header, &self.store, place)
    }
    pub fn view_word(&self, place: usize, i: usize) -> u64 {
        tableau_sum_view_word(self.header, &self.store, place, i)
    }
}

/// The words of an entry.
pub fn entry_len(size: Size) -> usize {
    oracle::entry_len(size.n, size.k)
}
