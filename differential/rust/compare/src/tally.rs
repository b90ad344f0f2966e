//! What was compared, counted; and a difference, told by the smallest sum that shows it.

use crate::draw::Draw;
use crate::judge;
use crate::pair::{Difference, Pair};
use oracle::Call;
use ours::{Answer, Ours, entry_len};

#[derive(Default)]
pub struct Tally {
    pub calls: usize,
    refused: [usize; 11],
    counts: [u64; 4],
    /// Calls that dropped weight, and such that truncated some.
    lost: [usize; 2],
    /// Accepted gates; those that passed over some entries, for a lost atom; those that passed over all of them.
    gates: [usize; 3],
}

impl Tally {
    /// A call on both sides, compared, and then looks at what it left. A difference ends the program.
    pub fn call(&mut self, from: &str, pair: &mut Pair, call: Call, d: &mut Draw) {
        let (before, seed) = (pair.ours.clone(), d.0);
        match called(pair, call, d) {
            Ok(a) => {
                self.count(&a);
                self.count_gate(&before, call, a.number);
            }
            Err(what) => tell(from, &what, before, call, seed),
        }
    }

    fn count(&mut self, a: &Answer) {
        self.calls += 1;
        self.refused[a.number as usize] += 1;
        for (sum, c) in self.counts.iter_mut().zip(&a.numbers()[1..5]) {
            *sum += c;
        }
        for (calls, bits) in self.lost.iter_mut().zip(&a.numbers()[7..]) {
            *calls += (*bits != 0) as usize;
        }
    }

    fn count_gate(&mut self, before: &Ours, call: Call, number: u64) {
        let qubits = match call {
            Call::H(q) | Call::S(q) => [q, q],
            Call::Cnot(a, b) => [a, b],
            _ => return,
        };
        if number == 0 {
            let lost = |e: &&[u64]| qubits.iter().any(|q| e[1] >> q & 1 == 1);
            let passed = judge::listed(before).filter(lost).count();
            self.gates[0] += 1;
            self.gates[1] += (0 < passed && passed < before.header.count) as usize;
            self.gates[2] += (0 < passed && passed == before.header.count) as usize;
        }
    }

    pub fn print(&self, part: &str) {
        let numbers: Vec<String> = (1..11).filter(|&n| self.refused[n] > 0).map(|n| format!("{n}: {}", self.refused[n])).collect();
        let numbers = if numbers.is_empty() { "none".to_string() } else { numbers.join(", ") };
        let [merged, stored, dropped, compared] = self.counts;
        println!("{part}: {} calls agree; {} accepted, then looked at; refused {numbers}", self.calls, self.refused[0]);
        println!("    branches merged {merged}, stored {stored}, dropped {dropped}; full comparisons {compared}");
        println!("    weight was dropped by {} calls, truncated by {}", self.lost[0], self.lost[1]);
        let [gates, some, all] = self.gates;
        println!("    gates {gates}, of which {some} passed over some entries, for a lost atom, and {all} over all");
    }
}

fn called(pair: &mut Pair, call: Call, d: &mut Draw) -> Result<Answer, Difference> {
    let a = pair.call(call)?;
    if a.number == 0 {
        pair.look(d)?;
    }
    Ok(a)
}

fn without(o: &Ours, place: usize) -> Ours {
    let len = entry_len(o.header.size);
    let mut less = o.clone();
    less.header.count -= 1;
    less.store.drain(place * len..(place + 1) * len);
    less.store.resize(o.store.len(), 0);
    less
}

/// Entries are left out for as long as the two sides still differ.
fn smallest(before: Ours, differs: impl Fn(&Ours) -> bool) -> Ours {
    let mut least = before;
    for place in (0..least.header.count).rev() {
        let less = without(&least, place);
        if differs(&less) {
            least = less;
        }
    }
    least
}

/// Where the call differs only after those before it in its list, or on a store that no call accepts, the sum is told as it was.
fn tell(from: &str, what: &str, before: Ours, call: Call, seed: u64) -> ! {
    let differs = |o: &Ours| called(&mut Pair::load(o.clone()), call, &mut Draw(seed)).is_err();
    let sound = judge::sum_refusal(&before) == 0;
    let least = if sound && differs(&before) { smallest(before, differs) } else { before };
    println!("THEY DIFFER ({from}): {what}\n{call:?}\n{:?}", least.header);
    let line = if sound { entry_len(least.header.size) } else { least.store.len().max(1) };
    for words in least.store.chunks(line).take(least.header.count.max(1)) {
        println!("{words:?}");
    }
    std::process::exit(1)
}
