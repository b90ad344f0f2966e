//! Weighted sums of stabilizer tableaux under Pauli and loss noise: a safe interface to `libtableau_sum.a`, an engine that is proved.
//!
//! A [`TableauSum`] is a list of entries, each a tableau with a weight. Channels make branches; a branch that equals an entry merges into
//! it, others are kept if their weight is above the cutoff. What is not kept is told by each call ([`Lost`]); the weights that are left add
//! up to 1 all the same. A shot planner reads the sampling table, or the sheet, which is text; people read the page.
//!
//! ```
//! use tableau_sum::{Error, Lost, Size, TableauSum};
//!
//! let mut sum = TableauSum::fresh(Size { n: 3, k: 1, capacity: 32 }, 1e-6, 1e-3)?;
//! sum.h(0)?;
//! sum.cnot(0, 1)?;
//! sum.cnot(1, 2)?; // three atoms in a GHZ state
//! let made = sum.depolarize1(0, 0.03)?;
//! assert_eq!((made.counts.stored, sum.len()), (3, 4));
//! assert_eq!(made.lost, Lost { dropped: 0.0, truncated: 0.0 });
//!
//! let (place, total) = sum.table()?[0]; // by falling weight
//! assert_eq!((place, total), (0, 0.97));
//! assert_eq!(sum.pick(0.985)?, 2);
//! assert_eq!(TableauSum::read_sheet(sum.sheet()?)?.len(), 4);
//! // place, exact weight in parts per million, losses; the float 0.97 is a little below 97/100
//! assert_eq!(sum.page()?.lines().next(), Some("    1     969999  0000000000000000"));
//! assert_eq!(sum.loss_channel(3, 0.1), Err(Error::BadPlace)); // there is no qubit 3
//! # Ok::<(), Error>(())
//! ```
//!
//! A [`Circuit`] holds a list of such calls, which [`TableauSum::run`] makes in one call of the library. [`TableauSum::try_cutoffs`] shows
//! for several cutoffs how many entries a list of channels leads to.
//!
//! # What is promised
//!
//! Proved of the library: each call gives exactly what document 01 of the project says, the page what request 1 of document 02 says, the
//! trials what request 2 says, and the gates, on lost atoms, what request 5 says (request 3 changes no call, request 4 is the limit
//! [`MAX_COEFFICIENTS`], and its other requests are not built), for every input; it ends, stays inside the memory that it is lent, and
//! changes nothing if it is refused; no list of calls leaves stale keys behind that make a branch miss its equal. The library never panics
//! and never unwinds. It has no state of its own, so a [`TableauSum`] is [`Send`] and [`Sync`] like the vector that it owns. In a thread
//! with a small stack, [`STACK_BYTES`] says what a call takes.
//!
//! Not proved, but tested: this crate, which lends the library the memory.
//!
//! # Building
//!
//! The build links `libtableau_sum.a` from the folder that `TABLEAU_SUM_LIB` names, else from `target/staticlib` of the repository, where
//! `bindings/library` writes it. It is for x86-64 Linux. Nothing is downloaded.

#![deny(missing_docs)]

mod circuit;
mod entry;
mod error;
mod ffi;
mod size;
mod sum;
mod trials;

pub use circuit::{Circuit, Run, Step};
pub use entry::{Coefficient, Entry, Row};
pub use error::Error;
pub use size::{Size, MAX_CAPACITY, MAX_COEFFICIENTS, MAX_QUBITS, STACK_BYTES};
pub use sum::{Counts, Lost, Outcome, TableauSum};
pub use trials::{Channel, Refusal, Trial, MAX_CUTOFFS, MAX_STEPS};
