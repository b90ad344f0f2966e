//! Sheets, entries and limits.

use tableau_sum::{Coefficient, Error, Row, Size, TableauSum, MAX_CAPACITY, MAX_COEFFICIENTS, MAX_QUBITS};

/// The first sheet, as document 01 prints it.
const FIRST: &str = include_str!("../../../crates/first_sheet/stdout");

#[test]
fn the_first_sheet() {
    let sum = TableauSum::fresh(Size { n: 1, k: 1, capacity: 2 }, 0.5, 0.0).unwrap();
    assert_eq!(sum.sheet().unwrap(), FIRST);
    let read = TableauSum::read_sheet(FIRST).unwrap();
    assert_eq!((read.sheet().unwrap(), read.is_dirty(), sum.is_dirty()), (FIRST.to_string(), true, false));
    assert_eq!((read.size(), read.threshold(), read.cutoff(), read.len()), (sum.size(), 0.5, 0.0, 1));
}

#[test]
fn a_fresh_entry() {
    let sum = TableauSum::fresh(Size { n: 2, k: 3, capacity: 4 }, 0.5, 0.0).unwrap();
    let entry = sum.entries().next().unwrap();
    assert_eq!((entry.weight(), entry.loss(), entry.is_lost(0), entry.is_lost(1000)), (1.0, 0, false, false));
    assert_eq!(entry.coefficients().collect::<Vec<_>>(), [Coefficient { index: 0, re: 1.0, im: 0.0 }]);
    let row = |x, z| Row { x, z, phase: 0 };
    assert_eq!(entry.rows().collect::<Vec<_>>(), [row(1, 0), row(2, 0), row(0, 1), row(0, 2)]);
    assert_eq!((entry.phase_loss_key(), entry.key()), (0, entry.word_key()));
    assert_eq!((entry.words().len(), sum.words().len()), (5 + 9 + 12, 4 * 26));
    assert_eq!(sum.view(0), Ok(entry));
    assert!(entry.words().iter().enumerate().all(|(i, &word)| sum.view_word(0, i) == word));
}

#[test]
fn damaged_sheets() {
    let damage = |from: &str, to: &str| TableauSum::read_sheet(FIRST.replacen(from, to, 1)).unwrap_err();
    assert_eq!(damage("\n", "\r"), Error::BadSheet);
    assert_eq!(damage(" 1 ", "01 "), Error::BadSheet);
    assert_eq!(damage(" 1 ", "+1 "), Error::BadSheet);
    assert_eq!(damage(" 1 ", " 0 "), Error::BadSheet); // n 0: there are rows too many
    assert_eq!(damage("  2 ", "257 "), Error::BadSize);
    assert_eq!(damage(&0.5f64.to_bits().to_string(), &f64::NAN.to_bits().to_string()), Error::BadHeader);
    assert_eq!(damage(&1f64.to_bits().to_string(), &1025f64.to_bits().to_string()), Error::BadEntry);
    for short in [0, 1, 62, 63, 126, 127, FIRST.len() - 1] {
        assert_eq!(TableauSum::read_sheet(&FIRST[..short]), Err(Error::BadSheet));
    }
    assert_eq!(TableauSum::read_sheet([0xff; 200]), Err(Error::BadSheet));
}

#[test]
fn an_output_that_is_too_short_stays_as_it_is() {
    let sum = TableauSum::read_sheet(FIRST).unwrap();
    let mut out = vec![7; FIRST.len() + 1];
    assert_eq!(sum.write_sheet(&mut out[..FIRST.len() - 1]), Err(Error::ShortOutput));
    assert!(out.iter().all(|&b| b == 7));
    assert_eq!(sum.write_sheet(&mut out), Ok(FIRST.len()));
    assert_eq!((&out[..FIRST.len()], out[FIRST.len()]), (FIRST.as_bytes(), 7));
    assert_eq!(sum.write_sheet(&mut []), Err(Error::ShortOutput));
}

#[test]
fn sizes_at_the_limits_and_beside_them() {
    let largest = Size { n: MAX_QUBITS, k: MAX_COEFFICIENTS, capacity: MAX_CAPACITY };
    let mut sum = TableauSum::fresh(largest, 0.5, 0.0).unwrap();
    for q in 0..8 {
        assert_eq!(sum.loss_channel(56 + q, 0.5).unwrap().counts.stored, 1 << q);
    }
    assert_eq!(sum.len(), 256);
    assert_eq!((sum.loss_channel(0, 0.5), sum.loss_channel(64, 0.5)), (Err(Error::NoRoom), Err(Error::BadPlace)));
    let text = sum.sheet().unwrap();
    assert_eq!(TableauSum::read_sheet(&text).unwrap().sheet().unwrap(), text);
    assert_eq!(sum.table().unwrap().last(), Some(&(255, 1.0)));
    let above = [Size { n: 65, ..largest }, Size { k: 25, ..largest }, Size { k: 64, ..largest }, Size { capacity: 257, ..largest }];
    for beside in above.into_iter().chain([Size { n: 0, ..largest }]) {
        assert_eq!(TableauSum::fresh(beside, 0.5, 0.0), Err(Error::BadSize));
    }
    for huge in [Size { n: usize::MAX, ..largest }, Size { capacity: usize::MAX, ..largest }] {
        assert_eq!(TableauSum::fresh(huge, f64::NAN, -1.0), Err(Error::BadSize));
    }
}

/// Request 4 of document 02: a larger K is refused on a whole sheet, and a damaged sheet is refused as one, whatever its K.
#[test]
fn k_on_a_sheet() {
    for (k, read) in [(MAX_COEFFICIENTS, Ok(MAX_COEFFICIENTS)), (MAX_COEFFICIENTS + 1, Err(Error::BadSize)), (64, Err(Error::BadSize))] {
        let text = format!("{}{k:>21}{}", &FIRST[..21], &FIRST[42..]);
        assert_eq!(TableauSum::read_sheet(&text).map(|sum| sum.size().k), read);
        assert_eq!(TableauSum::read_sheet(&text[1..]), Err(Error::BadSheet));
        assert_eq!(TableauSum::read_sheet(&text[..text.len() - 64]), Err(Error::BadSheet));
    }
}

#[test]
fn sums_go_to_other_threads() {
    fn shared<T: Send + Sync + 'static>() {}
    shared::<TableauSum>();
    let sum = TableauSum::fresh(Size { n: 2, k: 1, capacity: 16 }, 0.5, 0.0).unwrap();
    let run = |mut sum: TableauSum| {
        sum.h(0).unwrap();
        sum.depolarize2(0, 1, 0.25).unwrap();
        sum
    };
    let others: Vec<_> = (0..4).map(|_| sum.clone()).map(|own| std::thread::spawn(move || run(own))).collect();
    let here = run(sum);
    assert!(others.into_iter().all(|other| other.join().unwrap() == here));
}
