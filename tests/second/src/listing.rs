//! What the program prints.

use crate::cards::{card_length, slip_length, unpack_slip, CHANGES};
use crate::editors::{fresh, is_editor, Caller, Tally};
use crate::read::{read_within, PROGRAM};
use crate::response::{respond, Outputs};
use crate::table::{Name, Pair, Table, NONE};
use crate::table31::{slot_name, tested, value_name};
use crate::{refusal, Refusal};

/// The number of an editor file: its only byte, as it stands; 44 where that is no editor's or the file is not one byte long.
fn editor_number(file: &[u8]) -> Result<usize, Refusal> {
    match file {
        [byte] if is_editor(usize::from(*byte)) => Ok(usize::from(*byte)),
        _ => Err(refusal(44, 0)),
    }
}

/// The bytes of a response that was answered, and the editor's record after it.
struct Answered {
    card: Vec<u8>,
    changes: Vec<u8>,
    fired: Vec<u8>,
    tally: Tally,
}

/// The response to an editor on fresh records.
fn answered(table: &Table, editor: usize, card: &[u8], slip: &[u8]) -> Result<Answered, Refusal> {
    let mut records = fresh();
    let mut new = vec![0; card_length(table.width as usize)];
    let mut changes = vec![0; slip_length(CHANGES)];
    let mut fired = vec![0; (table.count as usize + 7) / 8];
    let outputs = Outputs { card: &mut new, changes: &mut changes, fired: &mut fired };
    let length = respond(table, Caller { records: &mut records, editor }, card, slip, outputs)?;
    changes.truncate(length);
    Ok(Answered { card: new, changes, fired, tally: records[editor - 1] })
}

/// A line for each rule in number order.
fn rule_lines(table: &Table, fired: &[u8]) -> String {
    let line = |at: usize| {
        let state = if fired[at / 8] >> (7 - at % 8) & 1 == 1 { "fired" } else { "idle" };
        format!("rule {} stratum {} {}\n", at + 1, table.rules[at].stratum, state)
    };
    (0..table.count as usize).map(line).collect()
}

/// A line for each change in slot order, the word NONE where a value is withdrawn.
fn change_lines(text: &[u8], table: &Table, changes: &[u8]) -> Result<String, Refusal> {
    let word = |name: Name| String::from_utf8_lossy(&text[name.range()]).into_owned();
    let line = |pair: Pair| {
        let slot = word(slot_name(text, table, pair.0)?);
        let value = match pair.1 {
            NONE => "NONE".to_string(),
            value => word(value_name(text, table, pair.0, value)?),
        };
        Ok(format!("change {slot} {value}\n"))
    };
    unpack_slip(&tested(table)?, changes)?.into_iter().map(line).collect()
}

/// The lines of an answer by a way of reading, or the refusal; that of the editor comes before the reading's.
fn lines(
    read: impl Fn(&[u8]) -> Result<Box<Table>, Refusal>,
    [text, card, slip, editor]: [&[u8]; 4],
) -> Result<String, Refusal> {
    let editor = editor_number(editor)?;
    let table = read(text)?;
    let answered = answered(&table, editor, card, slip)?;
    let card: String = answered.card.iter().map(|byte| format!("{byte:02X}")).collect();
    let Tally { answered: good, refused: bad } = answered.tally;
    let rules = rule_lines(&table, &answered.fired);
    let changes = change_lines(text, &table, &answered.changes)?;
    Ok(format!("{rules}{changes}card {card}\ntally {editor} {good} {bad}\n"))
}

/// What a program prints for the contents of its four files, by its way of reading.
pub fn listing_by(read: impl Fn(&[u8]) -> Result<Box<Table>, Refusal>, files: [&[u8]; 4]) -> String {
    match lines(read, files) {
        Ok(lines) => lines,
        Err(why) => format!("refused {} {}\n", why.number, why.second),
    }
}

/// What the program prints for the contents of its four files.
pub fn listing(text: &[u8], card: &[u8], slip: &[u8], editor: &[u8]) -> String {
    listing_by(|text| read_within(PROGRAM, text), [text, card, slip, editor])
}
