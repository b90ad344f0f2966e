//! Stands for `ppvm_traits`: the configuration, the channels as traits, and the two names of a hash.

use std::hash::{BuildHasherDefault, Hasher};

pub mod config {
    use bitvec::view::BitViewSized;
    use std::fmt::Debug;
    use std::ops::{AddAssign, Mul, MulAssign};

    pub trait Config: Copy + Debug + Send + Sync + 'static {
        /// The x bits, or the z bits, of a row.
        type Storage: BitViewSized + bytemuck::Pod + PartialEq + Debug + Send + Sync;
        type Coeff: num::Num
            + Clone
            + Debug
            + PartialOrd
            + AddAssign
            + MulAssign
            + MulAssign<f64>
            + Mul<f64, Output = Self::Coeff>
            + From<f64>
            + Send
            + Sync
            + 'static;
        type BuildHasher;
    }
}

pub mod traits {
    use crate::config::Config;

    pub trait Clifford {
        fn x(&mut self, q: usize);
        fn y(&mut self, q: usize);
        fn z(&mut self, q: usize);
        fn h(&mut self, q: usize);
        fn s(&mut self, q: usize);
        fn cnot(&mut self, a: usize, b: usize);
    }
    pub trait PauliError<T: Config> {
        fn pauli_error(&mut self, addr0: usize, p: [T::Coeff; 3]);
    }
    pub trait TwoQubitPauliError<T: Config> {
        fn two_qubit_pauli_error(&mut self, addr0: usize, addr1: usize, p: [T::Coeff; 15]);
    }
    pub trait Depolarizing<T: Config> {
        fn depolarize1(&mut self, addr0: usize, p: T::Coeff);
    }
    pub trait Depolarizing2<T: Config> {
        fn depolarize2(&mut self, addr0: usize, addr1: usize, p: T::Coeff);
    }
    pub trait LossChannel<T: Config> {
        fn loss_channel(&mut self, addr0: usize, p: T::Coeff);
    }
    pub trait CorrelatedLossChannel<T: Config> {
        fn correlated_loss_channel(&mut self, addr0: usize, addr1: usize, p: [T::Coeff; 3]);
    }
    pub trait ResetLossChannel<T: Config> {
        fn reset_loss_channel(&mut self, addr0: usize);
    }
}

/// From a coefficient's index to its value. Only look-ups depend on the hash.
pub type FoldHashMap<K, V> = fxhash::FxHashMap<K, V>;

/// `word_fingerprint` takes whatever hash its target has.
pub type FoldBuildHasher = BuildHasherDefault<WordHash>;

#[derive(Default)]
pub struct WordHash(u64);
impl Hasher for WordHash {
    /// The bytes of every row's x and z words, in one write. With the feature `word-key`, so that the word keys of the two sides can be
    /// compared, it is document 01's word key (point 1); else a quick one, as foldhash is, for timing.
    fn write(&mut self, bytes: &[u8]) {
        self.0 = if cfg!(feature = "word-key") { word_key(bytes) } else { folded(bytes) };
    }
    fn finish(&self) -> u64 {
        self.0
    }
}

fn word(bytes: &[u8]) -> u64 {
    u64::from_ne_bytes(bytes.try_into().unwrap())
}

fn word_key(bytes: &[u8]) -> u64 {
    bytes.chunks_exact(8).fold(0, |key: u64, w| {
        let mut z = key.wrapping_add(0x9E3779B97F4A7C15) ^ word(w);
        z = (z ^ (z >> 30)).wrapping_mul(0xBF58476D1CE4E5B9);
        z = (z ^ (z >> 27)).wrapping_mul(0x94D049BB133111EB);
        z ^ (z >> 31)
    })
}

/// Two words at a time are multiplied, and the halves of the product folded; four such chains side by side.
fn folded(bytes: &[u8]) -> u64 {
    let fold = |a: u64, b: u64| {
        let product = a as u128 * b as u128;
        product as u64 ^ (product >> 64) as u64
    };
    let mut lanes = [0x243F6A8885A308D3u64, 0x13198A2E03707344, 0xA4093822299F31D0, 0x082EFA98EC4E6C89];
    for (i, pair) in bytes.chunks_exact(16).enumerate() {
        let lane = &mut lanes[i % 4];
        *lane = fold(word(&pair[..8]) ^ *lane, word(&pair[8..]) ^ 0x452821E638D01377);
    }
    lanes.into_iter().fold(0, |h: u64, lane| fold(h ^ lane, 0xBE5466CF34E90C6C))
}
