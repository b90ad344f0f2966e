//! Lists of random calls on random sums, each list from the seed and its own number.

use crate::collision::mixed;
use crate::draw::{self, Draw};
use crate::judge;
use crate::pair::{Difference, Pair};
use crate::tally::Tally;

/// Lists until so many calls were made.
pub fn run(seed: u64, calls: usize) {
    let mut tally = Tally::default();
    let mut number = 0;
    while tally.calls < calls {
        list(seed, number, &mut tally);
        number += 1;
    }
    tally.print(&format!("random, seed {seed}, {number} lists"));
}

/// One list again.
pub fn again(seed: u64, number: usize) {
    let mut tally = Tally::default();
    list(seed, number, &mut tally);
    tally.print(&format!("random, seed {seed}, list {number}"));
}

/// One list in five begins with a fresh sum.
fn begin(d: &mut Draw) -> Result<Pair, Difference> {
    let o = draw::sum(d);
    if !d.one_in(5) {
        return Ok(Pair::load(o));
    }
    Pair::fresh(o.header.size, o.header.threshold, o.header.cutoff)
}

/// 1 to 50 calls. Beside one in twenty, the same call is made on a sum with one flaw.
fn list(seed: u64, number: usize, tally: &mut Tally) {
    let mut d = Draw(mixed(seed) ^ mixed(number as u64 + 1));
    let from = format!("seed {seed}, list {number}");
    let differ = |what: Difference| -> ! { panic!("THEY DIFFER ({from}): {what}") };
    let mut pair = begin(&mut d).unwrap_or_else(|e| differ(e));
    for _ in 0..1 + d.below(50) {
        let call = draw::call(&mut d, pair.ours.header.size.n);
        if d.one_in(20) {
            let flawed = draw::flawed(&mut d, &pair.ours);
            tally.call(&from, &mut Pair::load(flawed), call, &mut d);
        }
        tally.call(&from, &mut pair, call, &mut d);
        // an empty sum, or one that every call refuses, is soon left
        if (pair.ours.header.count == 0 || judge::sum_refusal(&pair.ours) != 0) && d.one_in(3) {
            break;
        }
    }
    pair.sheet().unwrap_or_else(|e| differ(e));
}
