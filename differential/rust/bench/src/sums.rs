//! The sums that are timed.

use oracle::{Call, Published, Sum, entry_len, rows_at};

/// What the entries of a sum are to each other.
#[derive(Clone, Copy, PartialEq)]
pub enum Kin {
    /// No Pauli makes one entry another, and none is lost.
    Strangers,
    /// Paulis at qubit 0 make one entry another.
    OneQubit,
    /// So do pairs of Paulis at qubits 0 and 1.
    TwoQubits,
    /// Every second entry is the one before it, lost at qubit 0.
    HalfLost,
    /// The same, and Paulis at qubit 1 make one entry another.
    HalfLostAtOther,
}

/// `count` entries of equal weight with right keys. They have the same rows, those of a random-looking circuit, but for phases.
pub fn sum(n: usize, k: usize, count: usize, kin: Kin, cutoff: f64) -> Sum {
    let mut sum = scrambled(n, k);
    let first = sum.words.clone();
    sum.cutoff = cutoff;
    sum.words = (0..count).flat_map(|i| entry(&first, n, k, count, i, kin)).collect();
    sum.dirty = true;
    Published::load(&sum).rebuilt()
}

/// The sum after gates at qubit 0, with right keys: entries that are lost there, which the gates passed over, have other x and z than the
/// rest.
pub fn parted(sum: &Sum) -> Sum {
    let mut p = Published::load(sum);
    for gate in [Call::H(0), Call::S(0)] {
        p.call(gate);
    }
    p.rebuilt()
}

/// One entry: the fresh one after three layers of gates.
fn scrambled(n: usize, k: usize) -> Sum {
    let mut p = Published::fresh(n, k, 0.5, 0.0);
    for layer in 0..3 {
        for q in 0..n {
            p.call(if (q + layer) % 2 == 0 { Call::H(q) } else { Call::S(q) });
        }
        for q in 0..n - 1 {
            p.call(Call::Cnot((q + layer) % n, (q + layer + 1) % n));
        }
    }
    let [sum, _] = p.sums();
    sum
}

/// The entry at place i: a Pauli, by its kin, on the first one's rows; a number in the imaginary bits of the phases of eight rows tells
/// the rest apart. All k coefficients are used.
fn entry(first: &[u64], n: usize, k: usize, count: usize, i: usize, kin: Kin) -> Vec<u64> {
    let mut e = first.to_vec();
    assert_eq!(e.len(), entry_len(n, k));
    e[0] = (1.0 / count as f64).to_bits();
    e[4] = k as u64;
    for c in 0..k {
        e[5 + 3 * c..8 + 3 * c].copy_from_slice(&[c as u64, (1.0 / (1 + c) as f64).to_bits(), 0]);
    }
    let (paulis, each) = match kin {
        Kin::Strangers => (1, i),
        Kin::OneQubit => (4, i),
        Kin::TwoQubits => (16, i),
        Kin::HalfLost => (1, i / 2),
        Kin::HalfLostAtOther => (4, i / 2),
    };
    e[1] = (matches!(kin, Kin::HalfLost | Kin::HalfLostAtOther) && i % 2 == 1) as u64;
    let (pauli, number) = (each % paulis, each / paulis);
    let paulis = if kin == Kin::HalfLostAtOther { [0, pauli] } else { [pauli % 4, pauli / 4] };
    for (row, r) in e[rows_at(k)..].chunks_exact_mut(3).enumerate() {
        for (q, op) in paulis.into_iter().enumerate() {
            let (x, z) = (r[0] >> q & 1, r[1] >> q & 1);
            r[2] ^= 2 * [0, z, x ^ z, x][op];
        }
        if row < 8 {
            r[2] ^= number as u64 >> row & 1;
        }
    }
    e
}
