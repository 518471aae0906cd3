//! What the benchmark asks of an engine, and the native engine as one.

use crate::print::Printer;
use crate::read::{self, Workspace};
use crate::response::{self, Answer, Caller, Outputs};
use crate::table::Table;
use crate::test31::tested;
use crate::Refusal;

/// The entry points that are measured, and the table between reading and response.
pub trait Engine {
    /// Reads a text into the engine's table, or gives a refusal 10 to 18 and leaves the table without slots or rules.
    fn read(&mut self, text: &[u8]) -> Result<(), Refusal>;

    /// Reads a text without test 18 into the engine's table, or gives a refusal 10 to 17 and leaves the table without slots or rules.
    fn read_unlayered(&mut self, text: &[u8]) -> Result<(), Refusal>;

    /// The table of the last reading.
    fn table(&self) -> &Table;

    /// Prints a text in the house style: the print's length, or 10 to 18, 34, 33.
    fn print(&mut self, text: &[u8], out: &mut [u8]) -> Result<usize, Refusal>;

    /// Whether a table is in order; 31 where it is not.
    fn is_sound(&mut self, table: &Table) -> bool;

    /// The response, counted in the caller's record: the answer, or 44, 32, 31, 20 to 28, 30, 40.
    fn respond(
        &mut self,
        table: &Table,
        caller: Caller,
        card: &[u8],
        slip: &[u8],
        outputs: Outputs,
    ) -> Result<Answer, Refusal>;

    /// The response by marks, counted in the caller's record: the answer, or 44, 32, 31, 20 to 28, 30, 41, 42.
    fn respond_by_marks(
        &mut self,
        table: &Table,
        caller: Caller,
        card: &[u8],
        slip: &[u8],
        outputs: Outputs,
    ) -> Result<Answer, Refusal>;
}

/// The native engine, with what it keeps from one reading or print to the next.
pub struct Native {
    workspace: Box<Workspace>,
    table: Box<Table>,
    printer: Printer,
}

impl Native {
    /// The native engine before any reading.
    pub fn new() -> Native {
        Native { workspace: Workspace::new(), table: Table::empty(), printer: Printer::new() }
    }
}

impl Default for Native {
    fn default() -> Native {
        Native::new()
    }
}

impl Engine for Native {
    fn read(&mut self, text: &[u8]) -> Result<(), Refusal> {
        read::read(text, &mut self.table, &mut self.workspace)
    }

    fn read_unlayered(&mut self, text: &[u8]) -> Result<(), Refusal> {
        read::read_unlayered(text, &mut self.table, &mut self.workspace)
    }

    fn table(&self) -> &Table {
        &self.table
    }

    fn print(&mut self, text: &[u8], out: &mut [u8]) -> Result<usize, Refusal> {
        self.read(text)?;
        self.printer.print(&self.table, &self.workspace.names, out)
    }

    fn is_sound(&mut self, table: &Table) -> bool {
        tested(table).is_some()
    }

    fn respond(
        &mut self,
        table: &Table,
        caller: Caller,
        card: &[u8],
        slip: &[u8],
        outputs: Outputs,
    ) -> Result<Answer, Refusal> {
        response::respond(table, caller, card, slip, outputs)
    }

    fn respond_by_marks(
        &mut self,
        table: &Table,
        caller: Caller,
        card: &[u8],
        slip: &[u8],
        outputs: Outputs,
    ) -> Result<Answer, Refusal> {
        response::respond_by_marks(table, caller, card, slip, outputs)
    }
}
