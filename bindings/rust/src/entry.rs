use crate::Size;

/// Where an entry's words stand, from the start of its stretch.
const WEIGHT: usize = 0;
const LOSS: usize = 1;
const WORD_KEY: usize = 2;
const PHASE_LOSS_KEY: usize = 3;
const COEFFICIENT_COUNT: usize = 4;
const HEAD_WORDS: usize = 5;

/// A coefficient of an entry: re + im·i at an index.
#[derive(Clone, Copy, Debug, PartialEq)]
pub struct Coefficient {
    /// Its index.
    pub index: u64,
    /// Its real part.
    pub re: f64,
    /// Its imaginary part.
    pub im: f64,
}

/// A row of an entry: bit q of `x` and of `z` is qubit q.
#[derive(Clone, Copy, Debug, PartialEq, Eq, Hash)]
pub struct Row {
    /// The X part.
    pub x: u64,
    /// The Z part.
    pub z: u64,
    /// The phase, 0 to 3: the power of i. Bit 1 is the sign.
    pub phase: u64,
}

/// One entry of a sum, looked at through its stretch of the store.
#[derive(Clone, Copy, Debug, PartialEq)]
pub struct Entry<'a> {
    size: Size,
    words: &'a [u64],
}

impl<'a> Entry<'a> {
    /// `words` are the entry's stretch, 5 + 3k + 6n of them.
    pub(crate) fn new(size: Size, words: &'a [u64]) -> Self {
        Entry { size, words }
    }

    /// The weight.
    pub fn weight(&self) -> f64 {
        f64::from_bits(self.words[WEIGHT])
    }

    /// The lost qubits: bit q is qubit q.
    pub fn loss(&self) -> u64 {
        self.words[LOSS]
    }

    /// Whether a qubit is lost.
    pub fn is_lost(&self, q: usize) -> bool {
        q < 64 && self.loss() >> q & 1 == 1
    }

    /// The stored key of the rows' x and z. It is stale while the sum is [dirty](crate::TableauSum::is_dirty).
    pub fn word_key(&self) -> u64 {
        self.words[WORD_KEY]
    }

    /// The stored key of phases and losses. It is stale while the sum is [dirty](crate::TableauSum::is_dirty).
    pub fn phase_loss_key(&self) -> u64 {
        self.words[PHASE_LOSS_KEY]
    }

    /// The full key, by which equals are found: the two keys, XORed.
    pub fn key(&self) -> u64 {
        self.word_key() ^ self.phase_loss_key()
    }

    /// The coefficients that are in use.
    pub fn coefficients(&self) -> impl ExactSizeIterator<Item = Coefficient> + DoubleEndedIterator + 'a {
        let count = self.words[COEFFICIENT_COUNT] as usize;
        let triples = self.words[HEAD_WORDS..HEAD_WORDS + 3 * self.size.k].chunks_exact(3);
        triples.take(count).map(|t| Coefficient { index: t[0], re: f64::from_bits(t[1]), im: f64::from_bits(t[2]) })
    }

    /// The 2n rows: of a fresh sum, X on each qubit and then Z.
    pub fn rows(&self) -> impl ExactSizeIterator<Item = Row> + DoubleEndedIterator + 'a {
        let triples = self.words[HEAD_WORDS + 3 * self.size.k..].chunks_exact(3);
        triples.map(|t| Row { x: t[0], z: t[1], phase: t[2] })
    }

    /// The words themselves: weight bits, loss word, word key, phase-loss key, coefficient count; k times index, re bits, im bits; 2n times
    /// x, z, phase.
    pub fn words(&self) -> &'a [u64] {
        self.words
    }
}
