//! Masks, as document 01 has them, and changes of an entry that leave its phase-loss key as it is. Keys are linear: 5n masks lie in 64
//! bits, so from n 13 on some of them cancel.

use crate::draw::Draw;
use oracle::rows_at;

pub const GOLDEN: u64 = 0x9E3779B97F4A7C15;

pub fn mixed(mut z: u64) -> u64 {
    z = (z ^ (z >> 30)).wrapping_mul(0xBF58476D1CE4E5B9);
    z = (z ^ (z >> 27)).wrapping_mul(0x94D049BB133111EB);
    z ^ (z >> 31)
}

fn mask(index: usize, salt: u8) -> u64 {
    mixed((index as u64).wrapping_mul(GOLDEN).wrapping_add(salt as u64 * 0x0101010101010101))
}
pub fn sign_mask(row: usize) -> u64 {
    mask(row, 0xA1)
}
pub fn loss_mask(q: usize) -> u64 {
    mask(q, 0xC3)
}

/// A bit of an entry that has a mask, and that mask: a sign, an imaginary bit or a loss.
#[derive(Clone, Copy)]
struct Bit {
    word: usize,
    bit: usize,
    mask: u64,
}

fn masked_bits(n: usize, k: usize) -> Vec<Bit> {
    let phase = |r: usize| rows_at(k) + 3 * r + 2;
    let signs = (0..2 * n).map(|r| Bit { word: phase(r), bit: 1, mask: sign_mask(r) });
    let imags = (0..2 * n).map(|r| Bit { word: phase(r), bit: 0, mask: mask(r, 0xB2) });
    let losses = (0..n).map(|q| Bit { word: 1, bit: q, mask: loss_mask(q) });
    signs.chain(imags).chain(losses).collect()
}

/// Which of at most 5 × 64 bits, by their order.
type Chosen = [u64; 5];

fn xor(a: &mut Chosen, b: &Chosen) {
    a.iter_mut().zip(b).for_each(|(a, b)| *a ^= b);
}

/// Flips bits of the entry whose masks cancel: masks, in random order, are brought to steps until one is the XOR of earlier ones.
pub fn cancel(d: &mut Draw, n: usize, k: usize, e: &mut [u64]) {
    let mut bits = masked_bits(n, k);
    for i in (1..bits.len()).rev() {
        bits.swap(i, d.below(i + 1));
    }
    // falling: each step has a leading bit of its own, and the bits that it is the XOR of
    let mut steps: Vec<(u64, Chosen)> = Vec::new();
    for (i, b) in bits.iter().enumerate() {
        let (mut left, mut used) = (b.mask, [0; 5]);
        used[i / 64] = 1 << (i % 64);
        for (step, of) in &steps {
            if left ^ step < left {
                left ^= step;
                xor(&mut used, of);
            }
        }
        if left == 0 {
            let flipped = bits.iter().enumerate().filter(|(i, _)| used[i / 64] >> (i % 64) & 1 == 1);
            flipped.for_each(|(_, b)| e[b.word] ^= 1 << b.bit);
            return;
        }
        let at = steps.partition_point(|s| s.0 > left);
        steps.insert(at, (left, used));
    }
}
