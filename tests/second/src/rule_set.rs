//! Sets of rules, by their position in the file from 0.

/// A set of positions, a bit for each in words of 64; the last word is not 0.
#[derive(Clone, PartialEq, Eq, PartialOrd, Ord, Debug, Default)]
pub struct RuleSet(Vec<u64>);

/// The positions of the bits in words, rising.
fn positions(words: impl Iterator<Item = u64>) -> impl Iterator<Item = usize> {
    let positive = |bits: u64| (bits != 0).then_some(bits);
    words.enumerate().flat_map(move |(word, bits)| {
        let lowest_off = move |bits: &u64| positive(bits & (bits - 1));
        let left = std::iter::successors(positive(bits), lowest_off);
        left.map(move |bits| 64 * word + bits.trailing_zeros() as usize)
    })
}

impl RuleSet {
    /// Whether the set has the position.
    pub fn has(&self, position: usize) -> bool {
        self.0.get(position / 64).map_or(false, |word| word >> (position % 64) & 1 == 1)
    }

    /// Whether the set has no position.
    pub fn is_empty(&self) -> bool {
        self.0.is_empty()
    }

    /// Puts the position into the set.
    pub fn put(&mut self, position: usize) {
        let words = self.0.len().max(position / 64 + 1);
        self.0.resize(words, 0);
        self.0[position / 64] |= 1 << (position % 64);
    }

    /// Adds another's positions to the set.
    pub fn add(&mut self, other: &RuleSet) {
        let words = self.0.len().max(other.0.len());
        self.0.resize(words, 0);
        self.0.iter_mut().zip(&other.0).for_each(|(word, more)| *word |= more);
    }

    /// The set with another's positions added.
    pub fn with(&self, other: &RuleSet) -> RuleSet {
        let mut both = self.clone();
        both.add(other);
        both
    }

    /// The positions of the set, rising.
    pub fn positions(&self) -> impl Iterator<Item = usize> + '_ {
        positions(self.0.iter().copied())
    }

    /// The positions that two sets share, rising.
    pub fn shared<'a>(&'a self, other: &'a RuleSet) -> impl Iterator<Item = usize> + 'a {
        positions(self.0.iter().zip(&other.0).map(|(one, other)| one & other))
    }
}

impl FromIterator<usize> for RuleSet {
    /// The set of the given positions.
    fn from_iter<I: IntoIterator<Item = usize>>(positions: I) -> RuleSet {
        let mut set = RuleSet::default();
        positions.into_iter().for_each(|position| set.put(position));
        set
    }
}
