//! The weight page.

use tableau_sum::{Error, Size, TableauSum};

/// A sum on 64 qubits with these weights, by their bits, and loss words, read from its sheet.
fn sum_of(entries: &[(u64, u64)]) -> TableauSum {
    let line = |numbers: &[u64]| numbers.iter().map(|v| format!("{v:>21}")).collect::<String>() + "\n";
    let count = entries.len() as u64;
    let mut text = line(&[64, 1, count.max(1), count, 0, 0]);
    for &(weight, loss) in entries {
        text += &line(&[weight, loss, 0]);
        text += &line(&[0, 0, 0]).repeat(128);
    }
    TableauSum::read_sheet(text).unwrap()
}

#[test]
fn a_page_as_it_is_printed() {
    let weights = [0.3, 0.7, -0.0, f64::from_bits(1), 1.0, f64::from_bits(0x3fef_ffff_ffff_ffff), 1024.0, 0.000001, 0.5];
    let losses = [0, 1, 1 << 63, u64::MAX, 0x0123_4567_89ab_cdef, 0xfedc_ba98_7654_3210, 2, 3, 1 << 10];
    let entries: Vec<(u64, u64)> = weights.iter().map(|w: &f64| w.to_bits()).zip(losses).collect();
    let page = "    1     299999  0000000000000000\n    2     699999  0000000000000001\n    3          0  8000000000000000
    4          0  FFFFFFFFFFFFFFFF\n    5    1000000  0123456789ABCDEF\n    6     999999  FEDCBA9876543210
    7 1024000000  0000000000000002\n    8          0  0000000000000003\n    9     500000  0000000000000400\n";
    assert_eq!(sum_of(&entries).page().unwrap(), page);
}

#[test]
fn a_fresh_and_an_empty_sum() {
    let size = Size { n: 1, k: 1, capacity: 2 };
    let fresh = |cutoff| TableauSum::fresh(size, 0.5, cutoff).unwrap();
    assert_eq!(fresh(0.0).page().unwrap(), "    1    1000000  0000000000000000\n");
    assert_eq!((fresh(1.0).page().unwrap(), fresh(1.0).write_page(&mut [])), (String::new(), Ok(0)));
}

#[test]
fn a_line_for_each_of_256_entries() {
    let mut sum = TableauSum::fresh(Size { n: 8, k: 1, capacity: 256 }, 0.5, 0.0).unwrap();
    for q in 0..8 {
        sum.loss_channel(q, 0.5).unwrap();
    }
    let page = sum.page().unwrap();
    let line = |(i, entry): (usize, tableau_sum::Entry)| format!("{:>5}       3906  {:016X}\n", i + 1, entry.loss());
    assert_eq!(page, sum.entries().enumerate().map(line).collect::<String>());
    assert!(page.ends_with("  256       3906  00000000000000FF\n"));
}

#[test]
fn an_output_that_is_too_short_stays_as_it_is() {
    let sum = sum_of(&[(0, 0), (1, 1)]);
    let mut out = [7; 71];
    for short in [0, 1, 35, 69] {
        assert_eq!(sum.write_page(&mut out[..short]), Err(Error::ShortOutput));
    }
    assert_eq!(out, [7; 71]);
    assert_eq!(sum.write_page(&mut out), Ok(70));
    assert_eq!((&out[..70], out[70]), (sum.page().unwrap().as_bytes(), 7));
    assert_eq!(sum.write_page(&mut out[..70]), Ok(70));
}

#[test]
fn a_sum_that_every_call_refuses() {
    let mut sum = TableauSum::fresh(Size { n: 1, k: 1, capacity: 4 }, 0.25, 0.0).unwrap();
    sum.loss_channel(0, 0.5).unwrap();
    let heavy = sum.sheet().unwrap().replace(&0.5f64.to_bits().to_string(), &1000f64.to_bits().to_string());
    let mut sum = TableauSum::read_sheet(heavy).unwrap();
    sum.reset_loss_channel(0).unwrap(); // weights of 1000 and 1000 merge
    assert_eq!(sum.page(), Err(Error::BadEntry));
}
