//! The table as the interface has it: the same bytes go to the native engine and to the proved library.

pub use crate::raw::{Assignment, Literal, Name, Rule, Slot, Table, ASSIGNMENTS, LITERALS, RULES, SLOTS, VALUES};

/// The places of one slot in an array indexed by pair, and of all slots.
pub const ROW: usize = 16;
pub const PAIRS: usize = SLOTS * ROW;

impl Rule {
    /// The literals used; no more than there are places.
    #[inline]
    pub fn literals(&self) -> &[Literal] {
        &self.literals[..LITERALS.min(self.tested as usize)]
    }

    /// The assignments used; no more than there are places.
    #[inline]
    pub fn assignments(&self) -> &[Assignment] {
        &self.assignments[..ASSIGNMENTS.min(self.assigned as usize)]
    }
}

impl Table {
    /// Clears a table that a reading filled: the slots and the rules used, and after each the one that it may have begun.
    #[inline]
    pub fn clear(&mut self) {
        let (width, count) = (self.width as usize, self.count as usize);
        self.slots[..SLOTS.min(width + 1)].fill(Slot::default());
        self.rules[..RULES.min(count + 1)].fill(Rule::default());
        (self.width, self.count) = (0, 0);
    }
}

/// The place of a pair in an array indexed by pair, kept inside it.
#[inline]
pub fn place(slot: u8, value: u8) -> usize {
    ((slot as usize) << 4 | (value & 15) as usize) & (PAIRS - 1)
}
