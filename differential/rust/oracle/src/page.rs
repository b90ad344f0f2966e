//! The weight page of document 02, request 1, over the published entries. The published code has none: this is the one that a Rust
//! programmer would add to it, by 128-bit numbers and `write!`.

use crate::driver::{Store, loss_word};
use std::fmt::Write;

/// The exact weight, 0 or more and at most 1024, times 1,000,000, cut down.
fn share(weight: f64) -> u128 {
    let bits = weight.abs().to_bits();
    let (field, digits) = ((bits >> 52) as u32, bits & ((1 << 52) - 1));
    let significand = if field == 0 { digits } else { digits | 1 << 52 };
    (u128::from(significand) * 1_000_000).checked_shr(1075 - field.max(1)).unwrap_or(0)
}

pub fn page(store: &Store) -> String {
    let mut text = String::with_capacity(35 * store.entries.len());
    for (i, (tableau, weight)) in store.entries.iter().enumerate() {
        writeln!(text, "{:5}{:11}  {:016X}", i + 1, share(*weight), loss_word(tableau)).expect("a string has room");
    }
    text
}
