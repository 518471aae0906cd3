//! The editors: a lent table of records, one for each, and which of them is the caller's.

pub use crate::raw::EDITORS;
use crate::{refusal, Refusal};

/// The number at which a record is full.
pub const FULL: u32 = 9_999;

/// The record of one editor: slips answered and slips refused.
#[derive(Clone, Copy, PartialEq, Eq, Debug, Default)]
pub struct Tally {
    pub answered: u32,
    pub refused: u32,
}

impl Tally {
    /// Whether one of the two numbers has come to the last that is counted.
    pub fn is_full(&self) -> bool {
        self.answered.max(self.refused) >= FULL
    }

    /// Adds one slip, answered or refused.
    pub fn add(&mut self, answered: bool) {
        *(if answered { &mut self.answered } else { &mut self.refused }) += 1;
    }
}

/// Who sends a slip: the lent table of records and the editor's number, either of which may be wrong.
pub struct Caller<'a> {
    pub records: &'a mut [Tally],
    pub editor: usize,
}

/// Whether a number is that of an editor.
pub fn is_editor(number: usize) -> bool {
    (1..=EDITORS).contains(&number)
}

impl<'a> Caller<'a> {
    /// The caller's own record, or 44 where the number is no editor's or the table has another length.
    pub fn own(self) -> Result<&'a mut Tally, Refusal> {
        if self.records.len() == EDITORS && is_editor(self.editor) {
            Ok(&mut self.records[self.editor - 1])
        } else {
            Err(refusal(44, 0))
        }
    }
}

/// Forty fresh records.
pub fn fresh() -> Vec<Tally> {
    vec![Tally::default(); EDITORS]
}
