//! The functions of the library for programs in Rust; rl.h says of each what it does. A table of records is lent for a call by `&mut`, so no other thread can touch it meanwhile. It is the crate `rl` where the library is installed; a program may also copy this file and raw.rs.
#![allow(dead_code, unused_imports)]

#[path = "raw.rs"]
mod raw;

pub use raw::{is_sound, Assignment, Card, Change, Literal, Name, Refusal, Rule, Slip, Slot, Table, Tally};
pub use raw::{ASSIGNMENTS, CARD_BYTES, EDITORS, FIRED_BYTES, LITERALS, PRINT_BYTES, RULES, SLIP_BYTES, SLOTS, VALUES};

use raw::{given, RlName, RlRead, RlResponse};

// Links the library whose functions raw.rs declares.
#[link(name = "rl", kind = "static")]
extern "C" {}

/// What a response answers: the length of the changes, and how many rules fired.
#[derive(Clone, Copy, PartialEq, Eq, Debug)]
pub struct Answer {
    pub length: usize,
    pub fired: usize,
}

/// The part of the text at a name's place.
fn part(text: &[u8], name: RlName) -> Result<&[u8], Refusal> {
    given(name.number, 0, &text[name.start..name.start + name.size])
}

/// The table of a reading.
fn table_of(read: RlRead) -> Result<Box<Table>, Refusal> {
    given(read.number, read.second, Box::new(read.table))
}

/// What a response answers.
fn told(response: RlResponse) -> Result<Answer, Refusal> {
    let answer = Answer { length: response.length, fired: response.fired };
    given(response.number, response.second, answer)
}

/// Reads a rule text into a table.
pub fn read(text: &[u8]) -> Result<Box<Table>, Refusal> {
    table_of(raw::read(text))
}

/// Reads a rule text without test 18 into a table with stratum 0 throughout, for the response by marks.
pub fn read_unlayered(text: &[u8]) -> Result<Box<Table>, Refusal> {
    table_of(raw::read_unlayered(text))
}

/// Prints a rule text in the house style into the output; gives the print's length.
pub fn print(text: &[u8], out: &mut [u8]) -> Result<usize, Refusal> {
    let printed = raw::print(text, out);
    given(printed.number, printed.second, printed.length)
}

/// A slot's name, a part of the text.
pub fn slot_name<'a>(text: &'a [u8], table: &Table, slot: usize) -> Result<&'a [u8], Refusal> {
    part(text, raw::slot_name(text, table, slot))
}

/// The name of a slot's value, values counted from 1, a part of the text; value 0, NONE, has none and is 31.
pub fn value_name<'a>(text: &'a [u8], table: &Table, slot: usize, value: usize) -> Result<&'a [u8], Refusal> {
    part(text, raw::value_name(text, table, slot, value))
}

/// Unpacks bytes as a card.
pub fn unpack_card(table: &Table, bytes: &[u8]) -> Result<Card, Refusal> {
    let read = raw::unpack_card(table, bytes);
    given(read.number, read.second, read.card)
}

/// Unpacks bytes as a slip.
pub fn unpack_slip(table: &Table, bytes: &[u8]) -> Result<Slip, Refusal> {
    let read = raw::unpack_slip(table, bytes);
    given(read.number, read.second, read.slip)
}

/// Packs a card into the output; gives the packed length.
pub fn pack_card(table: &Table, card: Card, out: &mut [u8]) -> Result<usize, Refusal> {
    let packed = raw::pack_card(table, card, out);
    given(packed.number, packed.second, packed.length)
}

/// Packs a slip into the output; gives the packed length.
pub fn pack_slip(table: &Table, slip: Slip, out: &mut [u8]) -> Result<usize, Refusal> {
    let packed = raw::pack_slip(table, slip, out);
    given(packed.number, packed.second, packed.length)
}

/// Responds to an editor's packed card and packed slip, and counts it in the editor's record.
pub fn respond(
    table: &Table,
    records: &mut [Tally],
    editor: usize,
    card: &[u8],
    slip: &[u8],
    new_card: &mut [u8],
    changes: &mut [u8],
    fired: &mut [u8],
) -> Result<Answer, Refusal> {
    told(raw::respond(table, records, editor, card, slip, new_card, changes, fired))
}

/// Responds by marks to an editor's packed card and packed slip, and counts it in the editor's record.
pub fn respond_by_marks(
    table: &Table,
    records: &mut [Tally],
    editor: usize,
    card: &[u8],
    slip: &[u8],
    new_card: &mut [u8],
    changes: &mut [u8],
    fired: &mut [u8],
) -> Result<Answer, Refusal> {
    told(raw::respond_by_marks(table, records, editor, card, slip, new_card, changes, fired))
}

/// Whether a rule, counted from 1, has its bit in a fired record.
pub fn has_fired(fired: &[u8], rule: usize) -> bool {
    fired[(rule - 1) / 8] >> (7 - (rule - 1) % 8) & 1 == 1
}
