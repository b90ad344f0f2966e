//! The published files, compiled as they stand, and a driver over them, in one crate: `sum_cutoff` and `p_cumulative` are `pub(crate)`.

include!(concat!(env!("OUT_DIR"), "/published/mods.rs"));

mod driver;
mod page;
mod watched;

pub use driver::{Call, Plain, Published, Sampled, Sum, entry_len, rows_at};
pub use watched::Watch;

/// What measure.rs takes from its crate.
mod prelude {
    pub use crate::data::GeneralizedTableauSum;
    pub use ppvm_pauli_word::Pauli;
}
