//! The responses by strata and by marks: the tests of their inputs, then the answer.

use crate::cards::{bytes_for, unpack_card, unpack_slip, write_card, write_slip, Changes};
use crate::firing::{fire, Fired};
use crate::marks::mark;
use crate::raw::{Tally, EDITORS, SLIP_BYTES};
use crate::table::{Table, SLOTS};
use crate::test31::{tested, tested_for_marks, Lasts};
use crate::{refusal, Refusal};

/// The number at which a record is full.
const FULL: u16 = 9_999;

/// Who calls: a lent table of records, and the caller's editor number.
pub struct Caller<'a> {
    pub records: &'a mut [Tally],
    pub editor: usize,
}

impl<'a> Caller<'a> {
    /// The caller's own record: the number is from 1 to 40, in a table of forty records; 44 where there is none.
    #[inline]
    fn own(self) -> Result<&'a mut Tally, Refusal> {
        let records = <&mut [Tally; EDITORS]>::try_from(self.records).map_err(|_| refusal(44, 0))?;
        records.get_mut(self.editor.wrapping_sub(1)).ok_or(refusal(44, 0))
    }
}

/// The three outputs of a response.
pub struct Outputs<'a> {
    pub card: &'a mut [u8],
    pub changes: &'a mut [u8],
    pub fired: &'a mut [u8],
}

/// An answer: the length of the changes, and how many rules fired.
#[derive(Clone, Copy, PartialEq, Eq, Debug)]
pub struct Answer {
    pub length: usize,
    pub fired: usize,
}

/// Refuses with 30 the first output that is too short.
#[inline]
fn room(table: &Table, outputs: &Outputs) -> Result<(), Refusal> {
    if outputs.card.len() < bytes_for(6 + 4 * table.width as usize) {
        return Err(refusal(30, 1));
    }
    if outputs.changes.len() < SLIP_BYTES {
        return Err(refusal(30, 2));
    }
    if outputs.fired.len() < bytes_for(table.count as usize) {
        return Err(refusal(30, 3));
    }
    Ok(())
}

/// The rules fired by strata, or 40.
#[inline]
fn by_strata(table: &Table, _: &Lasts, values: &[u8; SLOTS], changes: &mut Changes) -> Result<Fired, Refusal> {
    let fired = fire(&table.rules[..table.count as usize], values, changes);
    let conflicts: u32 =
        (0..SLOTS).map(|slot| u32::from(changes[slot] & changes[slot].wrapping_sub(1) != 0) << slot).sum();
    if conflicts != 0 {
        return Err(refusal(40, conflicts.trailing_zeros() as usize));
    }
    Ok(fired)
}

/// The rules fired by marks, or 41 or 42.
#[inline]
fn by_marks(table: &Table, lasts: &Lasts, values: &[u8; SLOTS], changes: &mut Changes) -> Result<Fired, Refusal> {
    mark(&table.rules[..table.count as usize], lasts, values, changes).map_err(|number| refusal(number, 0))
}

/// The answer on a table that was tested, or 31, 20 to 28, 30, or the refusal of what decides on the card's values and the slip's changes: it gives the fired rules, and the changes become all changes.
#[inline]
fn answer(
    table: &Table,
    tested: Option<Lasts>,
    card: &[u8],
    slip: &[u8],
    outputs: &mut Outputs,
    decide: impl FnOnce(&Table, &Lasts, &[u8; SLOTS], &mut Changes) -> Result<Fired, Refusal>,
) -> Result<Answer, Refusal> {
    let lasts = tested.ok_or(refusal(31, 0))?;
    let mut values = unpack_card(&lasts, table.width as usize, card)?;
    let mut changes = unpack_slip(&lasts, table.width as usize, slip)?;
    room(table, outputs)?;
    let fired = decide(table, &lasts, &values, &mut changes)?;
    for (value, change) in values.iter_mut().zip(&changes) {
        if *change != 0 {
            *value = change.trailing_zeros() as u8;
        }
    }
    write_card(&values, table.width as usize, outputs.card);
    let length = write_slip(&changes, outputs.changes);
    let record = outputs.fired[..bytes_for(table.count as usize)].chunks_mut(8);
    record.zip(fired).for_each(|(bytes, word)| bytes.copy_from_slice(&word.to_be_bytes()[..bytes.len()]));
    Ok(Answer { length, fired: fired.iter().map(|word| word.count_ones() as usize).sum() })
}

/// Counts an answer or its refusal in the caller's record; 44 where there is none, 32 where it is full.
#[inline]
fn counted(caller: Caller, answer: impl FnOnce() -> Result<Answer, Refusal>) -> Result<Answer, Refusal> {
    let own = caller.own()?;
    if own.answered >= FULL || own.refused >= FULL {
        return Err(refusal(32, 0));
    }
    let answer = answer();
    match answer {
        Ok(_) => own.answered += 1,
        Err(_) => own.refused += 1,
    }
    answer
}

/// The strata response: the answer, or 44, 32, 31, 20 to 28, 30, 40.
pub fn respond(
    table: &Table,
    caller: Caller,
    card: &[u8],
    slip: &[u8],
    mut outputs: Outputs,
) -> Result<Answer, Refusal> {
    counted(caller, || answer(table, tested(table), card, slip, &mut outputs, by_strata))
}

/// The response by marks: the answer, or 44, 32, 31, 20 to 28, 30, 41, 42.
pub fn respond_by_marks(
    table: &Table,
    caller: Caller,
    card: &[u8],
    slip: &[u8],
    mut outputs: Outputs,
) -> Result<Answer, Refusal> {
    counted(caller, || answer(table, tested_for_marks(table), card, slip, &mut outputs, by_marks))
}
