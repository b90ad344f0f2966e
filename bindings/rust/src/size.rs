/// The most qubits of a sum.
pub const MAX_QUBITS: usize = 64;
/// The most coefficients that an entry can have room for. (Up to request 4 of document 02 it was 64; a sheet with more gives
/// [`Error::BadSize`](crate::Error::BadSize).)
pub const MAX_COEFFICIENTS: usize = 24;
/// The most entries that a sum can have room for.
pub const MAX_CAPACITY: usize = 256;

/// Every call of the library takes less stack than this. Measured by the repository's `examples/c/stack.c`: at most 27,688 bytes, by
/// trials of cutoffs.
pub const STACK_BYTES: usize = 36864;

/// Columns of a field of a sheet.
const COLUMNS: usize = 21;
/// Bytes of a line of a page: 34 columns, and the line's end.
pub(crate) const PAGE_LINE: usize = 35;

/// How large a sum can be. Each number is at least 1.
#[repr(C)]
#[derive(Clone, Copy, Debug, PartialEq, Eq, Hash)]
pub struct Size {
    /// Qubits, at most [`MAX_QUBITS`].
    pub n: usize,
    /// Coefficients that an entry has room for, at most [`MAX_COEFFICIENTS`].
    pub k: usize,
    /// Entries that there is room for, at most [`MAX_CAPACITY`].
    pub capacity: usize,
}

impl Size {
    /// Words of an entry: 5 + 3k + 6n. `None` outside the limits.
    pub fn entry_words(self) -> Option<usize> {
        let within = |x: usize, most: usize| (1..=most).contains(&x);
        let sound = within(self.n, MAX_QUBITS) && within(self.k, MAX_COEFFICIENTS) && within(self.capacity, MAX_CAPACITY);
        sound.then(|| 5 + 3 * self.k + 6 * self.n)
    }

    /// Words of the whole store: capacity times those of an entry. `None` outside the limits.
    pub fn store_words(self) -> Option<usize> {
        self.entry_words().map(|words| self.capacity * words)
    }

    /// The size on the first line of a sheet, if it can be read; the library judges the text.
    pub(crate) fn of_sheet(text: &[u8]) -> Option<Size> {
        let field = |i: usize| std::str::from_utf8(text.get(i * COLUMNS..(i + 1) * COLUMNS)?).ok()?.trim_start().parse().ok();
        Some(Size { n: field(0)?, k: field(1)?, capacity: field(2)? })
    }

    /// The most bytes of a sheet of so many entries: a line of six fields, and lines of three.
    pub(crate) fn sheet_bytes(self, count: usize) -> usize {
        6 * COLUMNS + 1 + count * (1 + self.k + 2 * self.n) * (3 * COLUMNS + 1)
    }
}

#[cfg(test)]
mod tests {
    use super::*;

    #[test]
    fn words_within_the_limits_and_beside_them() {
        assert_eq!(Size { n: 1, k: 1, capacity: 2 }.store_words(), Some(28));
        assert_eq!(Size { n: 64, k: 24, capacity: 256 }.store_words(), Some(256 * 461));
        let beside = [(0, 1, 1), (65, 1, 1), (1, 0, 1), (1, 25, 1), (1, 1, 0), (1, 1, 257), (usize::MAX, 1, 1), (1, 1, usize::MAX)];
        for (n, k, capacity) in beside {
            assert_eq!(Size { n, k, capacity }.store_words(), None);
        }
    }

    #[test]
    fn the_size_on_a_sheet() {
        let line = |a: &str, b: &str, c: &str| format!("{a:>21}{b:>21}{c:>21}").into_bytes();
        assert_eq!(Size::of_sheet(&line("1", "2", "256")), Some(Size { n: 1, k: 2, capacity: 256 }));
        assert_eq!(Size::of_sheet(&line("1", "2", "256")[..62]), None);
        assert_eq!(Size::of_sheet(&line("1", "x", "256")), None);
        assert_eq!(Size::of_sheet(&line("1", "2", "18446744073709551616")), None);
        assert_eq!(Size::of_sheet(&[0xff; 63]), None);
    }
}
