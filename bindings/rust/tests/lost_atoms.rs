//! Gates pass over lost atoms: document 02, request 5.

use tableau_sum::{Circuit, Error, Size, TableauSum};

type Rows = Vec<[u64; 3]>;

/// The rows of each entry.
fn rows(sum: &TableauSum) -> Vec<Rows> {
    sum.entries().map(|e| e.rows().map(|r| [r.x, r.z, r.phase]).collect()).collect()
}

/// Two atoms: all live, and with these ones lost.
fn halves(lost: &[usize]) -> Result<TableauSum, Error> {
    let mut sum = TableauSum::fresh(Size { n: 2, k: 1, capacity: 16 }, 1e-8, 0.0)?;
    for &q in lost {
        sum.loss_channel(q, 0.5)?;
    }
    Ok(sum)
}

const FRESH: [[u64; 3]; 4] = [[1, 0, 0], [2, 0, 0], [0, 1, 0], [0, 2, 0]];

#[test]
fn h_and_s_where_the_atom_is_lost() -> Result<(), Error> {
    let mut sum = halves(&[0])?;
    sum.h(0)?;
    let turned = [[0, 1, 0], [2, 0, 0], [1, 0, 0], [0, 2, 0]];
    assert_eq!(rows(&sum), [turned, FRESH]);
    assert!(sum.is_dirty());
    sum.s(0)?;
    assert_eq!(rows(&sum)[1], FRESH);
    // another atom is turned in both
    sum.h(1)?;
    assert_eq!(rows(&sum)[1], [[1, 0, 0], [0, 2, 0], [0, 1, 0], [2, 0, 0]]);
    Ok(())
}

#[test]
fn cnot_where_either_one_is() -> Result<(), Error> {
    let turned = [[3, 0, 0], [2, 0, 0], [0, 1, 0], [0, 3, 0]];
    for lost in [&[0][..], &[1], &[0, 1]] {
        let mut sum = halves(lost)?;
        sum.cnot(0, 1)?;
        let all = rows(&sum);
        assert_eq!(all[0], turned);
        assert!(all[1..].iter().all(|rows| *rows == FRESH), "{lost:?}");
    }
    Ok(())
}

/// A gate that turns nothing, or has nothing to turn, marks the keys.
#[test]
fn nothing_turned() -> Result<(), Error> {
    let mut sum = halves(&[])?;
    sum.loss_channel(0, 1.0)?;
    sum.truncate()?;
    let all_lost = rows(&sum);
    assert!(!sum.is_dirty() && sum.entries().all(|e| e.is_lost(0)));
    sum.cnot(1, 0)?;
    assert!(sum.is_dirty());
    assert_eq!(rows(&sum), all_lost);

    let mut empty = TableauSum::fresh(Size { n: 2, k: 1, capacity: 1 }, 1e-8, 1.0)?;
    empty.truncate()?;
    assert!(empty.is_empty() && !empty.is_dirty());
    empty.s(1)?;
    assert!(empty.is_dirty());
    Ok(())
}

/// What was lost before a gate comes back as an entry of its own, and what was lost after it merges.
#[test]
fn reset_after_gates() -> Result<(), Error> {
    let entries = |before: bool| {
        let mut circuit = Circuit::new();
        if before {
            circuit.loss_channel(0, 0.5).h(0);
        } else {
            circuit.h(0).loss_channel(0, 0.5);
        }
        circuit.reset_loss_channel(0);
        let mut sum = halves(&[])?;
        assert_eq!(sum.run(&circuit).len(), circuit.len());
        Ok::<_, Error>(sum.len())
    };
    assert_eq!((entries(true)?, entries(false)?), (2, 1));
    Ok(())
}
