//! The two sides, loaded with equal entries, stored keys and flag. They are given the same calls; after each, everything is compared.

use crate::draw::Draw;
use crate::judge;
use oracle::{Call, Published, Watch};
use ours::{Answer, Header, Ours, Size, entry_len};
use std::fmt::Debug;
use std::panic::{AssertUnwindSafe, catch_unwind};

/// What differs, in words.
pub type Difference = String;

/// The published side must not change what ours refuses, so it takes a call only once that is accepted.
#[derive(Clone)]
pub struct Pair {
    pub ours: Ours,
    pub published: Published,
}

fn same<T: PartialEq + Debug>(what: &str, ours: T, theirs: T) -> Result<(), Difference> {
    if ours == theirs { Ok(()) } else { Err(format!("{what}: ours {ours:?}, theirs {theirs:?}")) }
}

fn same_words(what: &str, ours: &[u64], theirs: &[u64]) -> Result<(), Difference> {
    same(&format!("length of {what}"), ours.len(), theirs.len())?;
    match (0..ours.len()).find(|&i| ours[i] != theirs[i]) {
        Some(i) => same(&format!("word {i} of {what}"), ours[i], theirs[i]),
        None => Ok(()),
    }
}

/// A call that changes nothing: the number, the header as given, a place and a length, and 0 in all else.
fn plain(what: &str, a: &Answer, number: u64, h: &Header, place: usize, length: usize) -> Result<(), Difference> {
    same(what, a.numbers(), [number, 0, 0, 0, 0, place as u64, length as u64, 0, 0])?;
    same(&format!("header after {what}"), a.header.words(), h.words())
}

impl Pair {
    /// A sum that no call accepts is not loaded on the published side, which is then not called.
    pub fn load(ours: Ours) -> Pair {
        let sound = judge::sum_refusal(&ours) == 0;
        let published = if sound { Published::load(&ours.sum()) } else { Published::fresh(1, 1, 0.0, 0.0) };
        Pair { ours, published }
    }

    /// A fresh sum of sound arguments.
    pub fn fresh(size: Size, threshold: f64, cutoff: f64) -> Result<Pair, Difference> {
        let (ours, a) = Ours::fresh(size, threshold, cutoff);
        let pair = Pair { ours, published: Published::fresh(size.n, size.k, threshold, cutoff) };
        same("fresh", a.numbers(), [0; 9])?;
        pair.same_sums(size, threshold, cutoff)?;
        Ok(pair)
    }

    pub fn call(&mut self, call: Call) -> Result<Answer, Difference> {
        let before = self.ours.clone();
        let answer = self.ours.call(call);
        let early = judge::refusal(&before, call);
        if early != 0 {
            return self.refused(&before, answer, early);
        }
        let mut next = self.published.clone();
        let watch = catch_unwind(AssertUnwindSafe(|| next.call(call))).map_err(|_| "the published code panics")?;
        let late = judge::late_refusal(&before, call, &watch);
        if late != 0 {
            return self.refused(&before, answer, late);
        }
        self.published = next;
        self.accepted(&before.header, answer, watch)
    }

    /// The number is the right one, and nothing was changed.
    fn refused(&self, before: &Ours, answer: Answer, number: u64) -> Result<Answer, Difference> {
        plain("refusal", &answer, number, &before.header, 0, 0)?;
        same_words("refused store", &self.ours.store, &before.store)?;
        Ok(answer)
    }

    fn accepted(&self, before: &Header, answer: Answer, watch: Watch) -> Result<Answer, Difference> {
        let counts = [watch.merged, watch.stored, watch.dropped, watch.compared].map(|c| c as u64);
        let lost = [watch.dropped_weight, watch.truncated_weight].map(f64::to_bits);
        let numbers = [0, counts[0], counts[1], counts[2], counts[3], 0, 0, lost[0], lost[1]];
        same("number, counts, place, length, lost", answer.numbers(), numbers)?;
        if watch.strayed {
            return Err("the published code compares a branch with other places than those of its key".to_string());
        }
        self.same_sums(before.size, before.threshold, before.cutoff)?;
        Ok(answer)
    }

    /// Entries, order, weight bits, keys, count and flag; the slots past the count are 0.
    fn same_sums(&self, size: Size, threshold: f64, cutoff: f64) -> Result<(), Difference> {
        let [mut sum, watched] =
            catch_unwind(AssertUnwindSafe(|| self.published.sums())).map_err(|_| "the published keys are torn apart")?;
        same_words("published entries, watched", &watched.words, &sum.words)?;
        same("published flag, watched", watched.dirty, sum.dirty)?;
        let count = sum.words.len() / entry_len(size);
        let header = Header { size, count, threshold, cutoff, dirty: sum.dirty };
        same("header", self.ours.header.words(), header.words())?;
        sum.words.resize(size.capacity * entry_len(size), 0);
        same_words("store", &self.ours.store, &sum.words)
    }

    // ---- calls that only look

    /// The table, picks, the page and a view. Both sides hold the same sum.
    pub fn look(&self, d: &mut Draw) -> Result<(), Difference> {
        let mut sampled = self.published.sampled();
        let table = sampled.table();
        self.look_at_table(&table)?;
        for draw in draws(d, &table) {
            let h = &self.ours.header;
            let number = match judge::sum_refusal(&self.ours) {
                0 if h.count == 0 => 9,
                0 if !(0.0..1.0).contains(&draw) => 10,
                n => n,
            };
            let place = if number == 0 { sampled.pick(draw) } else { 0 };
            plain(&format!("pick {draw:?}"), &self.ours.pick(draw), number, h, place, 0)?;
        }
        self.look_at_page()?;
        self.look_at_entry(d.below(self.ours.header.count + 1), d)
    }

    /// With room for two words more, which stay as they are, and with one word too few.
    fn look_at_table(&self, table: &[u64]) -> Result<(), Difference> {
        let h = &self.ours.header;
        let number = match judge::sum_refusal(&self.ours) {
            0 if h.count == 0 => 9,
            n => n,
        };
        let mut out = vec![7; table.len() + 2];
        let written = if number == 0 { table } else { &[] };
        plain("table", &self.ours.table(&mut out), number, h, 0, written.len())?;
        same_words("table", &out[..written.len()], written)?;
        same("words past the table", out[written.len()..].iter().all(|w| *w == 7), true)?;
        if h.count > 0 {
            let mut short = vec![7; table.len() - 1];
            let number = if number == 0 { 8 } else { number };
            plain("table without room", &self.ours.table(&mut short), number, h, 0, 0)?;
            same("table without room", short.iter().all(|w| *w == 7), true)?;
        }
        Ok(())
    }

    /// The page of the published entries: with room for two bytes more, which stay as they are, and with one byte too few.
    fn look_at_page(&self) -> Result<(), Difference> {
        let h = &self.ours.header;
        let number = judge::sum_refusal(&self.ours);
        let text = if number == 0 { self.published.page() } else { String::new() };
        let mut out = vec![b'?'; 35 * h.count + 2];
        plain("page", &self.ours.write_page(&mut out), number, h, 0, text.len())?;
        same("page", String::from_utf8_lossy(&out[..text.len()]).as_ref(), &text)?;
        same("bytes past the page", out[text.len()..].iter().all(|b| *b == b'?'), true)?;
        if h.count > 0 {
            let mut short = vec![b'?'; 35 * h.count - 1];
            let number = if number == 0 { 8 } else { number };
            plain("page without room", &self.ours.write_page(&mut short), number, h, 0, 0)?;
            same("page without room", short.iter().all(|b| *b == b'?'), true)?;
        }
        Ok(())
    }

    /// The whole answer, and some of the words.
    fn look_at_entry(&self, place: usize, d: &mut Draw) -> Result<(), Difference> {
        let h = &self.ours.header;
        let len = entry_len(h.size);
        let number = if place >= h.count { 3 } else { judge::sum_refusal(&self.ours) };
        let seen = if number == 0 { &self.ours.store[place * len..(place + 1) * len] } else { &[] };
        plain("view", &self.ours.view(place), number, h, 0, seen.len())?;
        for i in [0, 3, d.below(len), len - 1, len] {
            let word = seen.get(i).copied().unwrap_or(0);
            same(&format!("word {i} of the view"), self.ours.view_word(place, i), word)?;
        }
        Ok(())
    }

    /// The sheet, written and read: the same entries, without keys, and dirty.
    pub fn sheet(&self) -> Result<(), Difference> {
        let h = self.ours.header;
        let number = judge::sum_refusal(&self.ours);
        let mut text = vec![b'?'; 128 + 64 * h.count * (1 + h.size.k + 2 * h.size.n)];
        let a = self.ours.write_sheet(&mut text);
        plain("sheet", &a, number, &h, 0, a.length)?;
        if number != 0 {
            return same("length of a refused sheet", a.length, 0);
        }
        let mut store = vec![7; self.ours.store.len()];
        let read = Ours::read_sheet(&text[..a.length], &mut store);
        plain("sheet read", &read, 0, &Header { dirty: true, ..h }, 0, 0)?;
        let mut entries = self.ours.store.clone();
        for e in entries.chunks_exact_mut(entry_len(h.size)) {
            e[2..4].fill(0);
        }
        same_words("store read", &store, &entries)
    }
}

/// Draws at and beside the totals, and at and past the limits.
fn draws(d: &mut Draw, table: &[u64]) -> Vec<f64> {
    let mut draws = vec![0.0, -0.0, d.unit(), 1f64.next_down(), d.one_of(&[1.0, -1e-300, f64::NAN, f64::INFINITY])];
    if !table.is_empty() {
        let total = f64::from_bits(table[2 * d.below(table.len() / 2) + 1]);
        draws.extend([total, total.next_down()]);
    }
    draws
}
