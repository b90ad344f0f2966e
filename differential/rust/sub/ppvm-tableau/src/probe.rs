//! With the feature `probe`: notes, while switched on, the address of the existing entry's statuses at each likeness test. Every such test begins with `!=` of two
//! lists of statuses or, for a loss branch, of their two lengths; nothing else in a merge asks for either.

use crate::data::Statuses;
use std::cell::RefCell;

struct Notes {
    seen: Vec<usize>,
    /// The next length asked for is that of the branch's parent.
    parent_next: bool,
}
thread_local! {
    static NOTES: RefCell<Option<Notes>> = const { RefCell::new(None) };
}

/// From now on tests are noted.
pub fn start() {
    NOTES.set(Some(Notes { seen: Vec::new(), parent_next: false }));
}

/// The addresses noted since `start`, one for each likeness test.
pub fn stop() -> Vec<usize> {
    NOTES.take().map_or(Vec::new(), |n| n.seen)
}

fn note(f: impl FnOnce(&mut Notes)) {
    if cfg!(feature = "probe") {
        NOTES.with_borrow_mut(|notes| notes.as_mut().map(f));
    }
}

pub(crate) fn note_eq(existing: &Statuses) {
    note(|n| n.seen.push(existing as *const Statuses as usize));
}

pub(crate) fn note_len(of: &Statuses) {
    note(|n| {
        if !n.parent_next {
            n.seen.push(of as *const Statuses as usize);
        }
        n.parent_next = !n.parent_next;
    });
}
