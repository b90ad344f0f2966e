//! Document 01's marked runs a to j: n 1, K 1, threshold 0.5, cutoff 0, capacity 8 unless said.

use tableau_sum::{Counts, Error, Lost, Outcome, Size, TableauSum};

fn fresh(capacity: usize, cutoff: f64) -> TableauSum {
    TableauSum::fresh(Size { n: 1, k: 1, capacity }, 0.5, cutoff).unwrap()
}

/// A sheet's text: entries of weight bits, loss word and the phases of the two rows.
fn sheet(entries: &[(u64, u64, [u64; 2])]) -> String {
    let fields = |values: &[u64]| values.iter().map(|v| format!("{v:21}")).collect::<String>() + "\n";
    let mut text = fields(&[1, 1, 8, entries.len() as u64, 0.5f64.to_bits(), 0]);
    for &(weight, loss, [x_phase, z_phase]) in entries {
        text += &fields(&[weight, loss, 1]);
        text += &fields(&[0, 1f64.to_bits(), 0]);
        text += &fields(&[1, 0, x_phase]);
        text += &fields(&[0, 1, z_phase]);
    }
    text
}

fn weights(sum: &TableauSum) -> Vec<f64> {
    sum.entries().map(|e| e.weight()).collect()
}
fn phases(sum: &TableauSum) -> Vec<[u64; 2]> {
    sum.entries().map(|e| [0, 1].map(|r| e.rows().nth(r).unwrap().phase)).collect()
}

/// What a call gave, where it lost this by drops and nothing by truncating.
fn outcome(counts: Counts, dropped: f64) -> Result<Outcome, Error> {
    Ok(Outcome { counts, lost: Lost { dropped, truncated: 0.0 } })
}

const A: [u64; 2] = [0, 0];
const B: [u64; 2] = [0, 2];
const C: [u64; 2] = [2, 2];
const D: [u64; 2] = [2, 0];

/// A, B, C and D, each of weight 0.25, of which some are lost.
fn four(lost: [u64; 4]) -> TableauSum {
    let quarter = 0.25f64.to_bits();
    TableauSum::read_sheet(sheet(&[(quarter, lost[0], A), (quarter, lost[1], B), (quarter, lost[2], C), (quarter, lost[3], D)])).unwrap()
}

#[test]
fn a_and_b() {
    let mut sum = fresh(8, 0.0);
    assert_eq!(sum.pauli_error(0, [0.25, 0.125, 0.125]), outcome(Counts { stored: 3, ..Counts::default() }, 0.0));
    assert_eq!(weights(&sum), [0.5, 0.25, 0.125, 0.125]);
    assert_eq!(phases(&sum), [A, B, C, D]);
    assert_eq!(sum.pauli_error(0, [0.25, 0.0, 0.0]).unwrap().counts.merged, 12);
    assert_eq!(weights(&sum), [0.4375, 0.3125, 0.125, 0.125]);
}

#[test]
fn c_and_d() {
    let mut sum = fresh(8, 0.0);
    let dropped = Counts { dropped: 3, ..Counts::default() };
    assert_eq!(sum.pauli_error(0, [0.0; 3]), outcome(dropped, 0.0));
    assert_eq!(weights(&sum), [1.0]);
    let mut sum = fresh(8, 0.25);
    assert_eq!(sum.pauli_error(0, [0.25, 0.0, 0.0]), outcome(dropped, 0.25)); // a quarter is gone, and the sheet does not show it
    assert_eq!(weights(&sum), [1.0]);
}

#[test]
fn e_f_and_g() {
    let mut sum = fresh(8, 0.0);
    assert_eq!(sum.loss_channel(0, 1.0).unwrap().counts.stored, 1);
    assert_eq!((weights(&sum), sum.view(0).unwrap().is_lost(0)), (vec![1.0], true));
    assert_eq!(sum.loss_channel(0, 1.0), Ok(Outcome::default()));
    assert_eq!(fresh(1, 0.0).loss_channel(0, 1.0), Err(Error::NoRoom));
    let mut empty = fresh(8, 1.0);
    assert!(empty.is_empty());
    assert_eq!(empty.depolarize1(0, 0.5), Ok(Outcome::default()));
}

#[test]
fn h_and_i() {
    let mut sum = four([1, 0, 0, 0]);
    assert_eq!(sum.reset_loss_channel(0).unwrap().counts.stored, 1);
    assert_eq!(phases(&sum), [D, B, C, A]);
    let mut sum = four([0, 1, 0, 1]);
    assert_eq!(sum.reset_loss_channel(0).unwrap().counts.stored, 2);
    assert_eq!(phases(&sum), [A, C, D, B]);
    assert!(!sum.is_dirty() && sum.entries().all(|e| e.loss() == 0 && e.weight() == 0.25));
}

#[test]
fn j() {
    let mut sum = TableauSum::read_sheet(sheet(&[(1, 0, A)])).unwrap();
    assert_eq!(sum.pauli_error(0, [0.5, 0.5, 0.0]), Err(Error::NoWeight));
}

#[test]
fn a_merged_weight_above_1024_is_refused_later_and_can_still_be_seen() {
    let most = 1024f64.to_bits();
    let mut sum = TableauSum::read_sheet(sheet(&[(most, 0, A), (most, 1, A)])).unwrap();
    assert_eq!(sum.reset_loss_channel(0).unwrap().counts.merged, 1);
    let before = sum.clone();
    assert_eq!([sum.truncate().map(drop), sum.h(0), sum.table().map(drop), sum.sheet().map(drop)], [Err(Error::BadEntry); 4]);
    assert_eq!((sum.view(0), sum.view_word(0, 0)), (Err(Error::BadEntry), 0));
    assert_eq!((weights(&sum), sum == before), (vec![2048.0], true));
}
