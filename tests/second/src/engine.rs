//! What the comparison asks of an engine, and the second engine as one.

use crate::editors::Caller;
use crate::response::Outputs;
use crate::table::{Name, Pair, Table};
use crate::table31::{slot_name, tested, unlayered, value_name};
use crate::{cards, marks, print, read, refusal, response, strata, Refusal};

/// Which response a table is read for and asked by.
#[derive(Clone, Copy, PartialEq, Eq, Debug)]
pub enum Way {
    Strata,
    Marks,
}

/// The entry points of an engine, over bytes lent by the caller and tables by value.
pub trait Engine {
    /// Reads a rule text: the refusal 10 to 18, and the table, which is without slots or rules after a refusal.
    fn read(&mut self, text: &[u8]) -> (Option<Refusal>, Box<Table>);

    /// Reads a rule text without test 18: the refusal 10 to 17, and the table, its strata 0 throughout.
    fn read_unlayered(&mut self, text: &[u8]) -> (Option<Refusal>, Box<Table>);

    /// Prints a rule text in the house style into an output: the print's length, or 10 to 18, 34, 33.
    fn print(&mut self, text: &[u8], output: &mut [u8]) -> Result<usize, Refusal>;

    /// The least strata of a table's rules, the table's own strata not looked at: 31 or 18 where there are none.
    fn strata(&mut self, table: &Table) -> Result<Vec<u16>, Refusal>;

    /// Where a slot's name stands in the text, or 31.
    fn slot_name(&mut self, text: &[u8], table: &Table, slot: u8) -> Result<Name, Refusal>;

    /// Where a value's name stands in the text, or 31.
    fn value_name(&mut self, text: &[u8], table: &Table, slot: u8, value: u8) -> Result<Name, Refusal>;

    /// The values of a card, or 31, 20 to 23.
    fn unpack_card(&mut self, table: &Table, card: &[u8]) -> Result<Vec<u8>, Refusal>;

    /// The changes of a slip, or 31, 24 to 28.
    fn unpack_slip(&mut self, table: &Table, slip: &[u8]) -> Result<Vec<Pair>, Refusal>;

    /// Packs a card into an output: its length, or 31, 21, 22, 30.
    fn pack_card(&mut self, table: &Table, values: &[u8], output: &mut [u8]) -> Result<usize, Refusal>;

    /// Packs a slip into an output: its length, or 31, 24 to 27, 30.
    fn pack_slip(&mut self, table: &Table, changes: &[Pair], output: &mut [u8]) -> Result<usize, Refusal>;

    /// The response of a way, counted in the caller's record: the changes' length, or 44, 32, 31, 20 to 28, 30, then 40, or by marks 41 and 42.
    fn respond(
        &mut self,
        way: Way,
        table: &Table,
        caller: Caller,
        card: &[u8],
        slip: &[u8],
        outputs: Outputs,
    ) -> Result<usize, Refusal>;

    /// How many rules fired, by the fired record.
    fn fired_count(&mut self, record: &[u8]) -> usize;

    /// Reads a rule text for a response.
    fn read_for(&mut self, way: Way, text: &[u8]) -> (Option<Refusal>, Box<Table>) {
        match way {
            Way::Strata => self.read(text),
            Way::Marks => self.read_unlayered(text),
        }
    }
}

/// The second engine.
pub struct Second;

/// The two parts of a reading: the refusal, and the table, which is without slots or rules after one.
pub fn parts(reading: Result<Box<Table>, Refusal>) -> (Option<Refusal>, Box<Table>) {
    match reading {
        Ok(table) => (None, table),
        Err(why) => (Some(why), Table::empty()),
    }
}

impl Engine for Second {
    fn read(&mut self, text: &[u8]) -> (Option<Refusal>, Box<Table>) {
        parts(read::read(text))
    }

    fn read_unlayered(&mut self, text: &[u8]) -> (Option<Refusal>, Box<Table>) {
        parts(read::read_unlayered(text))
    }

    fn print(&mut self, text: &[u8], output: &mut [u8]) -> Result<usize, Refusal> {
        print::put(&print::printed(text)?, output)
    }

    fn strata(&mut self, table: &Table) -> Result<Vec<u16>, Refusal> {
        strata::strata(&unlayered(table)?.rules).map_err(|rule| refusal(18, rule))
    }

    fn slot_name(&mut self, text: &[u8], table: &Table, slot: u8) -> Result<Name, Refusal> {
        slot_name(text, table, slot)
    }

    fn value_name(&mut self, text: &[u8], table: &Table, slot: u8, value: u8) -> Result<Name, Refusal> {
        value_name(text, table, slot, value)
    }

    fn unpack_card(&mut self, table: &Table, card: &[u8]) -> Result<Vec<u8>, Refusal> {
        cards::unpack_card(&tested(table)?, card)
    }

    fn unpack_slip(&mut self, table: &Table, slip: &[u8]) -> Result<Vec<Pair>, Refusal> {
        cards::unpack_slip(&tested(table)?, slip)
    }

    fn pack_card(&mut self, table: &Table, values: &[u8], output: &mut [u8]) -> Result<usize, Refusal> {
        cards::put(&cards::pack_card(&tested(table)?, values)?, output, 1)
    }

    fn pack_slip(&mut self, table: &Table, changes: &[Pair], output: &mut [u8]) -> Result<usize, Refusal> {
        cards::put(&cards::pack_slip(&tested(table)?, changes)?, output, 2)
    }

    fn respond(
        &mut self,
        way: Way,
        table: &Table,
        caller: Caller,
        card: &[u8],
        slip: &[u8],
        outputs: Outputs,
    ) -> Result<usize, Refusal> {
        match way {
            Way::Strata => response::respond(table, caller, card, slip, outputs),
            Way::Marks => marks::respond(table, caller, card, slip, outputs),
        }
    }

    fn fired_count(&mut self, record: &[u8]) -> usize {
        response::fired_count(record)
    }
}
