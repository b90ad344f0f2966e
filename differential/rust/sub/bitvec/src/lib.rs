//! Stands for the two view traits of `bitvec` that the published files name. A row's bits are one word: n is at most 64.

pub mod view {
    pub trait BitView {
        type Store;
    }
    pub trait BitViewSized: BitView {
        const ZERO: Self;
        fn as_raw_slice(&self) -> &[Self::Store];

        // Not in the crate: what the substitute tableau needs of its bits.
        fn bit(&self, q: usize) -> bool;
        fn flip(&mut self, q: usize);
    }

    impl BitView for [u64; 1] {
        type Store = u64;
    }
    impl BitViewSized for [u64; 1] {
        const ZERO: Self = [0];
        fn as_raw_slice(&self) -> &[u64] {
            self
        }
        fn bit(&self, q: usize) -> bool {
            self[0] >> q & 1 == 1
        }
        fn flip(&mut self, q: usize) {
            self[0] ^= 1 << q;
        }
    }
}
