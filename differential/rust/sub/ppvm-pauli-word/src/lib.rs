//! Stands for `ppvm_pauli_word`: a row of a tableau.

use ppvm_traits::config::Config;

pub mod pattern {
    #[derive(Clone, Copy, Debug)]
    pub enum NotIdentity {
        X,
        Y,
        Z,
    }
}

/// Named by measure.rs.
pub enum Pauli {
    Z,
}

/// As `bitvec::BitArray`: the published files read its field `data`.
#[derive(Clone, Copy, PartialEq, Debug)]
pub struct Bits<S> {
    pub data: S,
}

#[derive(Clone, Debug)]
pub struct PauliWord<T: Config> {
    pub xbits: Bits<T::Storage>,
    pub zbits: Bits<T::Storage>,
}
impl<T: Config> PartialEq for PauliWord<T> {
    fn eq(&self, o: &Self) -> bool {
        self.xbits == o.xbits && self.zbits == o.zbits
    }
}

/// i^phase times a Pauli word. Bit 1 of the phase is the sign.
#[derive(Clone, Debug)]
pub struct PhasedPauliWord<T: Config> {
    pub word: PauliWord<T>,
    pub phase: u8,
}
