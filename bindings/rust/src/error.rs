use std::fmt;

/// Why a call was refused: document 01's number for it, or document 02's. A refused call changes nothing. The lowest number that applies is
/// given, but the reader tests [`Error::BadSheet`] first, and trials [`Error::BadTrials`] before [`Error::BadHeader`].
///
/// (The library's number 19, of a list of calls or steps that does not fit, is not among them: a [`Circuit`](crate::Circuit) and a
/// [`Channel`](crate::Channel) always fit.)
#[derive(Clone, Copy, Debug, PartialEq, Eq, Hash)]
#[non_exhaustive]
pub enum Error {
    /// 1: `n`, `k` or `capacity` is outside its limits. (The store of a [`TableauSum`](crate::TableauSum) always has the right length.)
    BadSize = 1,
    /// 2: The threshold or the cutoff is NaN, infinite or below 0; or a sheet has more entries than its capacity.
    BadHeader = 2,
    /// 3: A qubit is not below `n`; or both qubits of a CNOT are the same; or the place to be viewed is not below the count.
    BadPlace = 3,
    /// 4: A rate is NaN, below 0 or above 1; or the rates, added from the first on, come to more than 1. For depolarising this is asked of
    /// the rate itself and of its parts' total.
    BadRate = 4,
    /// 5: An entry has a weight that is NaN, below 0 or above 1024, more than `k` coefficients, a coefficient that is NaN or infinite, a
    /// phase above 3, or an x, z or loss bit at `n` or higher. A sheet can say so. Merging can lift a weight above 1024: every later call
    /// on that sum then gives this number.
    BadEntry = 5,
    /// 6: A channel would hold more than `capacity` entries before it truncates.
    NoRoom = 6,
    /// 7: A sheet's text breaks its columns, digits, line ends or number of lines, or has a field of 2^64 or more.
    BadSheet = 7,
    /// 8: The output is shorter than needed.
    ShortOutput = 8,
    /// 9: The weights of a list that is to be normalised, and is not empty, add up to 0; or a table or a pick is asked of an empty list.
    NoWeight = 9,
    /// 10: A draw is NaN, below 0, or 1 or more.
    BadDraw = 10,
    /// 11: There are no steps or no cutoffs to be tried, or more than 64 steps or 8 cutoffs.
    BadTrials = 11,
}

impl Error {
    /// All of them, by rising number.
    pub const ALL: &'static [Error] = &[
        Error::BadSize,
        Error::BadHeader,
        Error::BadPlace,
        Error::BadRate,
        Error::BadEntry,
        Error::NoRoom,
        Error::BadSheet,
        Error::ShortOutput,
        Error::NoWeight,
        Error::BadDraw,
        Error::BadTrials,
    ];

    /// The document's number.
    pub fn number(self) -> u64 {
        self as u64
    }

    /// The error that has this number, if one has.
    pub fn from_number(number: u64) -> Option<Error> {
        Error::ALL.iter().copied().find(|e| e.number() == number)
    }
}

impl fmt::Display for Error {
    fn fmt(&self, f: &mut fmt::Formatter<'_>) -> fmt::Result {
        f.write_str(match self {
            Error::BadSize => "n, k or capacity is outside its limits, or the store has another length",
            Error::BadHeader => "the count is above the capacity, or the threshold or the cutoff is NaN, infinite or below 0",
            Error::BadPlace => "a qubit is not below n, both qubits of a CNOT are the same, or no entry is at that place",
            Error::BadRate => "a rate is NaN, below 0 or above 1, or the total of the rates is above 1",
            Error::BadEntry => "an entry has a weight, coefficient, phase or bit outside its limits, or a word that must be 0 is not",
            Error::NoRoom => "the store has no room for the branches",
            Error::BadSheet => "the text is no sheet",
            Error::ShortOutput => "the output is too short",
            Error::NoWeight => "the weights add up to 0, or there is no entry",
            Error::BadDraw => "the draw is NaN, below 0, or 1 or more",
            Error::BadTrials => "there are no steps or no cutoffs to be tried, or more than 64 steps or 8 cutoffs",
        })
    }
}

impl std::error::Error for Error {}

#[cfg(test)]
mod tests {
    use super::*;

    #[test]
    fn numbers_are_those_of_the_documents() {
        let numbers: Vec<u64> = Error::ALL.iter().map(|e| e.number()).collect();
        assert_eq!(numbers, [1, 2, 3, 4, 5, 6, 7, 8, 9, 10, 11]);
        assert_eq!(Error::from_number(7), Some(Error::BadSheet));
        assert_eq!([0, 12, u64::MAX].map(Error::from_number), [None; 3]);
    }
}
