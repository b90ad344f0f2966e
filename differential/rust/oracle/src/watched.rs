//! The published store, given one branch at a time, so that each merge shows what became of its branch. It works its index of keys out
//! from the stored keys at every merge, so the answer is that of the whole batch; the comparison sees that it is.

use crate::driver::{Coeffs, Row, Store, Tab};
use crate::storage::{Branch, BranchMutation, EntryStore};
use ppvm_tableau::probe;

/// What became of the branches of the last call.
#[derive(Clone, Debug, Default)]
pub struct Watch {
    pub merged: usize,
    pub stored: usize,
    pub dropped: usize,
    pub compared: usize,
    /// The weights of the dropped branches, added from 0 in order; those of the entries that truncating took, in list order.
    pub dropped_weight: f64,
    pub truncated_weight: f64,
    /// A branch was tested with other entries than those whose stored key equals its own, by rising place, up to the one it merged into.
    pub strayed: bool,
    /// Once all branches were merged: the entries, and their weights added from 0.
    pub held: usize,
    pub total: f64,
}

#[derive(Clone)]
pub struct Watched {
    pub inner: Store,
    pub watch: Watch,
}

impl Watched {
    /// One branch, of this full key and weight, merged.
    fn one(&mut self, key: u64, weight: f64, merge: impl FnOnce(&mut Store) -> bool) -> bool {
        let count = self.inner.entries.len();
        let equal: Vec<usize> = (0..count).filter(|&i| self.inner.fingerprints[i] == key).collect();
        let start = self.inner.entries.as_ptr() as usize;
        probe::start();
        let dropped = merge(&mut self.inner);
        // an address inside an entry gives its place
        let seen = probe::stop().into_iter().map(|a| (a - start) / size_of::<(Tab, f64)>());
        let seen: Vec<usize> = seen.collect();
        let stored = self.inner.entries.len() - count;
        let merged = !dropped && stored == 0;
        let w = &mut self.watch;
        w.merged += merged as usize;
        w.stored += stored;
        w.dropped += dropped as usize;
        w.dropped_weight += if dropped { weight } else { 0.0 };
        w.compared += seen.len();
        w.strayed |= if merged { seen.is_empty() || !equal.starts_with(&seen) } else { seen != equal };
        dropped
    }

    fn all(&mut self, dropped: bool) -> bool {
        self.watch.held = self.inner.entries.len();
        self.watch.total = self.inner.entries.iter().fold(0.0, |t, e| t + e.1);
        dropped
    }
}

impl EntryStore<Row, u64, Coeffs> for Watched {
    fn with_capacity(cap: usize) -> Self {
        Watched { inner: Store::with_capacity(cap), watch: Watch::default() }
    }
    fn len(&self) -> usize {
        self.inner.len()
    }
    fn iter<'a>(&'a self) -> impl Iterator<Item = (&'a Tab, &'a f64)>
    where
        Row: 'a,
    {
        self.inner.iter()
    }
    fn for_each_mut<F: FnMut(&mut Tab, &mut f64)>(&mut self, f: F) {
        self.inner.for_each_mut(f)
    }
    fn for_each_mut_with_keys<F: FnMut(&mut Tab, &mut f64, u64, u64)>(&mut self, f: F) {
        self.inner.for_each_mut_with_keys(f)
    }
    fn mark_keys_dirty(&mut self) {
        self.inner.mark_keys_dirty()
    }
    fn insert_or_merge_batch(&mut self, branches: Vec<Branch<Row, u64, Coeffs>>, cutoff: &f64) -> bool {
        let mut any = self.inner.insert_or_merge_batch(Vec::new(), cutoff); // rebuilds the keys, if dirty
        for b in branches {
            any |= self.one(b.2 ^ b.3, b.1, |s| s.insert_or_merge_batch(vec![b], cutoff));
        }
        self.all(any)
    }
    fn insert_or_merge_mutated_branches(&mut self, branches: Vec<(usize, BranchMutation, f64, u64, u64)>, cutoff: &f64) -> bool {
        let mut any = self.inner.insert_or_merge_mutated_branches(Vec::new(), cutoff);
        for b in branches {
            any |= self.one(b.3 ^ b.4, b.2, |s| s.insert_or_merge_mutated_branches(vec![b], cutoff));
        }
        self.all(any)
    }
    /// Entries are marked by their places before: those that are not there after it went.
    fn retain<F: FnMut(&Tab, &f64) -> bool>(&mut self, f: F) {
        let weights: Vec<f64> = self.inner.entries.iter().map(|e| e.1).collect();
        self.inner.entries.iter_mut().enumerate().for_each(|(i, e)| e.0.place = i);
        self.inner.retain(f);
        let left: Vec<usize> = self.inner.entries.iter().map(|e| e.0.place).collect();
        let went = (0..weights.len()).filter(|i| !left.contains(i));
        self.watch.truncated_weight = went.fold(0.0, |t, i| t + weights[i]);
    }
    fn drain_where<F: FnMut(&Tab) -> bool>(&mut self, pred: F) -> Vec<Branch<Row, u64, Coeffs>> {
        self.inner.drain_where(pred)
    }
}
