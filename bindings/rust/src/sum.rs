use crate::ffi::{self, Answer, Header, Room};
use crate::size::PAGE_LINE;
use crate::{Entry, Error, Size};
use std::fmt;

/// What became of the branches of a channel or a reset.
#[repr(C)]
#[derive(Clone, Copy, Debug, Default, PartialEq, Eq, Hash)]
pub struct Counts {
    /// Branches that found an entry that is alike, which gained their weight.
    pub merged: usize,
    /// Branches that became an entry of their own.
    pub stored: usize,
    /// Branches that were not above the cutoff.
    pub dropped: usize,
    /// Full comparisons of a branch with an entry.
    pub compared: usize,
}

/// The weight that a channel, a reset or truncating took out of a sum.
///
/// A planner looks at it first. A channel or a truncate that loses something divides what is left by its total, so the sheet, the page and
/// the table add up to 1 whatever was lost, and shots are planned as if it had never been there. Only these two figures tell.
#[repr(C)]
#[derive(Clone, Copy, Debug, Default, PartialEq)]
pub struct Lost {
    /// Of the branches that were dropped, before anything is divided: their weights, added in order from 0. Of a sum whose weights came to 1
    /// this is the fraction that is gone. Branches of rate 0 are dropped too, and add 0.
    pub dropped: f64,
    /// Of the entries that truncating took: their weights, added in list order from 0. Where a branch was dropped they were divided before,
    /// so this is a fraction of what the drops had left.
    pub truncated: f64,
}

/// What a channel or a reset did.
#[derive(Clone, Copy, Debug, Default, PartialEq)]
pub struct Outcome {
    /// What became of its branches.
    pub counts: Counts,
    /// The weight that it took out of the sum.
    pub lost: Lost,
}

/// A weighted sum of stabilizer tableaux, with its store. See the [crate's page](crate).
///
/// `==` compares headers and stores word for word, stored keys included.
#[derive(Clone, PartialEq)]
pub struct TableauSum {
    // Given by the library, with the store that it describes: store.len() is size.store_words().
    header: Header,
    store: Vec<u64>,
}

/// Whether a call that gave this number was done.
pub(crate) fn judged(number: u64) -> Result<(), Error> {
    match number {
        0 => Ok(()),
        _ => Err(Error::from_number(number).expect("a call gives no other number")),
    }
}

/// An answer, if it is none of a refused call.
fn accepted(answer: Answer) -> Result<Answer, Error> {
    judged(answer.number).map(|()| answer)
}

/// # A sum begins
impl TableauSum {
    /// The fresh sum: one entry of weight 1, rows 0 to n - 1 X on qubit i, rows n to 2n - 1 Z, phases 0, one coefficient 1 + 0i at index 0.
    /// It has no entry if 1 is not above the cutoff.
    ///
    /// Two entries are alike if they have the same losses and rows and if their coefficients differ by less than the threshold: the square
    /// of the distance is below its square, so with threshold 0 no two entries with coefficients are. A branch that is alike to no entry is
    /// kept only if its weight is above the cutoff.
    ///
    /// # Errors
    /// [`Error::BadSize`], [`Error::BadHeader`].
    pub fn fresh(size: Size, threshold: f64, cutoff: f64) -> Result<Self, Error> {
        // SAFETY: store and length are those of a vector.
        Self::begin(size, |store, len| unsafe { ffi::tableau_sum_fresh(size, threshold, cutoff, store, len) })
    }

    /// The sum that a sheet says. It is dirty.
    ///
    /// # Errors
    /// [`Error::BadSheet`], then [`Error::BadSize`], [`Error::BadHeader`], [`Error::BadEntry`].
    pub fn read_sheet(text: impl AsRef<[u8]>) -> Result<Self, Error> {
        let text = text.as_ref();
        let size = Size::of_sheet(text).unwrap_or(Size { n: 0, k: 0, capacity: 0 });
        // SAFETY: text, store and their lengths are those of a slice and of a vector.
        Self::begin(size, |store, len| unsafe { ffi::tableau_sum_read_sheet(text.as_ptr(), text.len(), store, len) })
    }

    /// With a size outside the limits the store is empty, which the library refuses.
    pub(crate) fn begin(size: Size, call: impl FnOnce(*mut u64, usize) -> Answer) -> Result<Self, Error> {
        let mut store = vec![0; size.store_words().unwrap_or(0)];
        let answer = accepted(call(store.as_mut_ptr(), store.len()))?;
        Ok(TableauSum { header: answer.header, store })
    }
}

/// # Channels
///
/// Each entry whose qubits are live gives a branch for each rate, of its weight times that rate, and keeps its weight times 1 minus the
/// total. Then the branches are merged, in order. If any was dropped the sum is normalised; at the end it is truncated.
///
/// # Errors
/// Each gives [`Error::BadPlace`], [`Error::BadRate`], [`Error::BadEntry`], [`Error::NoRoom`], [`Error::NoWeight`]; the reset only
/// [`Error::BadPlace`] and [`Error::BadEntry`].
// SAFETY, here and below: `change`, `make` and `look` pass the store of this sum and its length; other slices are borrowed from elsewhere.
impl TableauSum {
    /// X, Y and Z at qubit q with these rates.
    pub fn pauli_error(&mut self, q: usize, rates: [f64; 3]) -> Result<Outcome, Error> {
        let [x, y, z] = rates;
        self.branch(|h, store, len| unsafe { ffi::tableau_sum_pauli_error(h, store, len, q, x, y, z) })
    }

    /// Qubit q is lost with this rate.
    pub fn loss_channel(&mut self, q: usize, rate: f64) -> Result<Outcome, Error> {
        self.branch(|h, store, len| unsafe { ffi::tableau_sum_loss_channel(h, store, len, q, rate) })
    }

    /// X, Y and Z at qubit q, each with a third of the rate.
    pub fn depolarize1(&mut self, q: usize, rate: f64) -> Result<Outcome, Error> {
        self.branch(|h, store, len| unsafe { ffi::tableau_sum_depolarize1(h, store, len, q, rate) })
    }

    /// Pairs of Paulis at qubits p and q, which may be the same one. The rates are in the order IX IY IZ XI XX XY XZ YI YX YY YZ ZI ZX ZY
    /// ZZ, the first letter at p and the second at q.
    pub fn two_qubit_pauli_error(&mut self, p: usize, q: usize, rates: [f64; 15]) -> Result<Outcome, Error> {
        self.branch(|h, store, len| unsafe { ffi::tableau_sum_two_qubit_pauli_error(h, store, len, p, q, &rates) })
    }

    /// Each of these pairs with a fifteenth of the rate.
    pub fn depolarize2(&mut self, p: usize, q: usize, rate: f64) -> Result<Outcome, Error> {
        self.branch(|h, store, len| unsafe { ffi::tableau_sum_depolarize2(h, store, len, p, q, rate) })
    }

    /// Entries that are lost at qubit q become live, and are merged. An entry that is alike to none and not above the cutoff is dropped;
    /// nothing is truncated or normalised.
    pub fn reset_loss_channel(&mut self, q: usize) -> Result<Outcome, Error> {
        self.branch(|h, store, len| unsafe { ffi::tableau_sum_reset_loss_channel(h, store, len, q) })
    }

    fn branch(&mut self, call: impl FnOnce(Header, *mut u64, usize) -> Answer) -> Result<Outcome, Error> {
        self.change(call).map(|answer| Outcome { counts: answer.counts, lost: answer.lost })
    }
}

/// # Gates
///
/// They act on the rows of every entry that has not lost a qubit of the gate; the others stay as they are, whichever of CNOT's two is lost.
/// The sum is dirty afterwards, also if no entry was turned.
///
/// # Errors
/// [`Error::BadPlace`], [`Error::BadEntry`].
impl TableauSum {
    /// H at qubit q.
    pub fn h(&mut self, q: usize) -> Result<(), Error> {
        self.change(|h, store, len| unsafe { ffi::tableau_sum_h(h, store, len, q) }).map(drop)
    }

    /// S at qubit q.
    pub fn s(&mut self, q: usize) -> Result<(), Error> {
        self.change(|h, store, len| unsafe { ffi::tableau_sum_s(h, store, len, q) }).map(drop)
    }

    /// CNOT from qubit a, which controls, to qubit b, which is another.
    pub fn cnot(&mut self, a: usize, b: usize) -> Result<(), Error> {
        self.change(|h, store, len| unsafe { ffi::tableau_sum_cnot(h, store, len, a, b) }).map(drop)
    }
}

/// # Weights
impl TableauSum {
    /// Keeps the entries whose weight is above the cutoff and, if any went, normalises.
    ///
    /// # Errors
    /// [`Error::BadEntry`].
    pub fn truncate(&mut self) -> Result<Lost, Error> {
        self.change(|h, store, len| unsafe { ffi::tableau_sum_truncate(h, store, len) }).map(|answer| answer.lost)
    }

    /// Divides each weight by the total of all, added in list order.
    ///
    /// # Errors
    /// [`Error::BadEntry`], [`Error::NoWeight`].
    #[doc(alias = "normalize_probabilities")]
    pub fn normalise(&mut self) -> Result<(), Error> {
        self.change(|h, store, len| unsafe { ffi::tableau_sum_normalise(h, store, len) }).map(drop)
    }

    /// A call that can change the sum. Refused, it has changed no word, and the header stays.
    fn change(&mut self, call: impl FnOnce(Header, *mut u64, usize) -> Answer) -> Result<Answer, Error> {
        let answer = accepted(call(self.header, self.store.as_mut_ptr(), self.store.len()))?;
        self.header = answer.header;
        Ok(answer)
    }

    /// The calls of a circuit, from their words, each with a record in `log`. Gives how many were made.
    pub(crate) fn make(&mut self, calls: &[u64], log: &mut [u64], stop: bool) -> usize {
        let (store, text) = (&mut self.store, &mut [0u8; 0]);
        let ran = unsafe {
            ffi::tableau_sum_run(
                self.header,
                store.as_mut_ptr(),
                store.len(),
                calls.as_ptr(),
                calls.len(),
                log.as_mut_ptr(),
                log.len(),
                text.as_mut_ptr(),
                text.len(),
                Room { shown: 0, bytes: 0 },
                stop,
            )
        };
        assert_eq!(ran.number, 0, "whole calls of known kinds that show nothing fit, if there is a record for each");
        self.header = ran.header;
        ran.made
    }
}

/// # Calls that only look
///
/// # Errors
/// Besides those named, each gives [`Error::BadEntry`].
impl TableauSum {
    /// The sampling table, by falling weight (of equal weights the earlier entry first): each entry's place in the list, from 0, and the
    /// running total of weights up to and with it.
    ///
    /// # Errors
    /// [`Error::NoWeight`] of an empty sum.
    pub fn table(&self) -> Result<Vec<(usize, f64)>, Error> {
        let mut out = vec![0; 2 * self.len()];
        self.look(|h, store, len| unsafe { ffi::tableau_sum_table(h, store, len, out.as_mut_ptr(), out.len()) })?;
        Ok(out.chunks_exact(2).map(|t| (t[0] as usize, f64::from_bits(t[1]))).collect())
    }

    /// The place of the first entry of the table whose total is above the draw, else of the last.
    ///
    /// # Errors
    /// [`Error::NoWeight`] of an empty sum, [`Error::BadDraw`].
    pub fn pick(&self, draw: f64) -> Result<usize, Error> {
        self.look(|h, store, len| unsafe { ffi::tableau_sum_pick(h, store, len, draw) }).map(|answer| answer.place)
    }

    /// The sheet of the sum: ASCII text, without keys and flag.
    pub fn sheet(&self) -> Result<String, Error> {
        let mut out = vec![0; self.size().sheet_bytes(self.len())];
        let length = self.write_sheet(&mut out)?;
        out.truncate(length);
        Ok(String::from_utf8(out).expect("a sheet is ASCII"))
    }

    /// Writes the sheet to the start of `out`, and gives its length in bytes. What stands behind it in `out` stays.
    ///
    /// # Errors
    /// [`Error::ShortOutput`]; nothing is written then.
    pub fn write_sheet(&self, out: &mut [u8]) -> Result<usize, Error> {
        let answer = self.look(|h, store, len| unsafe { ffi::tableau_sum_write_sheet(h, store, len, out.as_mut_ptr(), out.len()) })?;
        Ok(answer.length)
    }

    /// The weight page of the sum: ASCII text, a line of 34 columns for each entry, in list order. Its place, from 1; its share in parts per
    /// million, which is the exact weight times 1,000,000 cut down to a whole number; its loss word as 16 hexadecimal capitals, highest
    /// qubits first. The page of an empty sum is empty.
    pub fn page(&self) -> Result<String, Error> {
        let mut out = vec![0; PAGE_LINE * self.len()];
        self.write_page(&mut out)?;
        Ok(String::from_utf8(out).expect("a page is ASCII"))
    }

    /// Writes the page to the start of `out`, and gives its length in bytes. What stands behind it in `out` stays.
    ///
    /// # Errors
    /// [`Error::ShortOutput`]; nothing is written then.
    pub fn write_page(&self, out: &mut [u8]) -> Result<usize, Error> {
        let answer = self.look(|h, store, len| unsafe { ffi::tableau_sum_write_page(h, store, len, out.as_mut_ptr(), out.len()) })?;
        Ok(answer.length)
    }

    /// A view of the entry at a place. The library checks the whole sum once for it, and the view then reads the store;
    /// [`entries`](TableauSum::entries) makes no call.
    ///
    /// # Errors
    /// [`Error::BadPlace`].
    pub fn view(&self, place: usize) -> Result<Entry<'_>, Error> {
        let length = self.look(|h, store, len| unsafe { ffi::tableau_sum_view(h, store, len, place) })?.length;
        Ok(Entry::new(self.size(), &self.store[place * length..][..length]))
    }

    /// Word i of that view; 0 past its end, and where the view is refused. Each call checks the whole sum again: whoever reads many words
    /// takes them from one [view](TableauSum::view), or from the store, [`words`](TableauSum::words), where they stand from
    /// `place * entry_words` on.
    pub fn view_word(&self, place: usize, i: usize) -> u64 {
        unsafe { ffi::tableau_sum_view_word(self.header, self.store.as_ptr(), self.store.len(), place, i) }
    }

    /// A call that changes nothing.
    fn look(&self, call: impl FnOnce(Header, *const u64, usize) -> Answer) -> Result<Answer, Error> {
        accepted(call(self.header, self.store.as_ptr(), self.store.len()))
    }
}

/// # What the sum is
///
/// No call is made for these, and none is refused.
impl TableauSum {
    /// The entries, in list order; also those of a sum that calls refuse with [`Error::BadEntry`].
    pub fn entries(&self) -> impl ExactSizeIterator<Item = Entry<'_>> + DoubleEndedIterator {
        let size = self.size();
        let stretches = self.store.chunks_exact(self.store.len() / size.capacity);
        stretches.take(self.len()).map(move |words| Entry::new(size, words))
    }

    /// How many entries there are.
    pub fn len(&self) -> usize {
        self.header.count
    }

    /// Whether there is no entry.
    pub fn is_empty(&self) -> bool {
        self.len() == 0
    }

    /// Qubits, coefficients and capacity.
    pub fn size(&self) -> Size {
        self.header.size
    }

    /// The threshold, by which coefficients are compared.
    pub fn threshold(&self) -> f64 {
        self.header.threshold
    }

    /// The cutoff, above which unmatched branches are kept.
    pub fn cutoff(&self) -> f64 {
        self.header.cutoff
    }

    /// Whether the stored keys are stale: after a gate or a reading, until the next channel or reset, which rebuilds them.
    pub fn is_dirty(&self) -> bool {
        self.header.dirty
    }

    /// Every word of the store. Those past the last entry are 0.
    pub fn words(&self) -> &[u64] {
        &self.store
    }
}

impl fmt::Debug for TableauSum {
    fn fmt(&self, f: &mut fmt::Formatter<'_>) -> fmt::Result {
        f.debug_struct("TableauSum").field("header", &self.header).finish_non_exhaustive()
    }
}
