//! The stored days of editors, all on one rule text, and the lines of what an engine says of each call.

use crate::cards::card_length;
use crate::days::{respond, Entry, Responded};
use crate::editors::Tally;
use crate::engine::{Engine, Way};
use crate::lent::{lend, MARGIN};
use crate::mark_lines::{hexadecimal, record, refused, short_stretch};
use crate::print_lines::{number, stretch};
use crate::table::Table;

/// So many things from the front of an input, their number in one byte.
fn list<T>(input: &mut &[u8], item: impl Fn(&mut &[u8]) -> T) -> Vec<T> {
    (0..number(input, 1)).map(|_| item(input)).collect()
}

/// A record in two bytes for each count.
fn tally(input: &mut &[u8]) -> Tally {
    let mut count = || number(input, 2) as u32;
    Tally { answered: count(), refused: count() }
}

/// A call: the number that calls, the kind of question, card, slip and output lengths; the records come from the day.
fn call(input: &mut &[u8]) -> (usize, Entry) {
    let editor = number(input, 8);
    let kind = number(input, 1);
    let (card, slip) = (short_stretch(input).to_vec(), short_stretch(input).to_vec());
    let rooms = [0; 3].map(|_| number(input, 1));
    (kind, Entry { records: Vec::new(), editor, card, slip, rooms })
}

/// What a response says: the refusal, after which the outputs are as they were, or the outputs; and the records that it changed.
fn said(table: &Table, entry: &Entry, left: &Responded) -> String {
    let front = |output: usize, length: usize| &left.outputs[output][MARGIN..MARGIN + length];
    let told = match left.result {
        Err(why) if left.outputs == lend(entry.rooms, |_| ()).1 => refused(why),
        Err(why) => refused(why) + " written",
        Ok(length) => {
            let fired = front(2, (usize::from(table.count) + 7) / 8);
            let card = front(0, card_length(table.width.into()));
            let outputs = [("fired", fired), ("changes", front(1, length)), ("card", card)];
            outputs.map(|(word, bytes)| hexadecimal(word, bytes)).concat()
        }
    };
    let changed = (1..).zip(entry.records.iter().zip(&left.records)).filter(|(_, (before, after))| before != after);
    told + &changed.map(|(editor, (_, after))| record(editor, after)).collect::<String>()
}

/// The lines of a day: by strata, by marks, or by strata on the table as read without test 18.
fn lines(engine: &mut dyn Engine, tables: [&Table; 2], mut records: Vec<Tally>, calls: Vec<(usize, Entry)>) -> String {
    let mut written = String::new();
    for (kind, asked) in calls {
        let (way, table) = [(Way::Strata, tables[0]), (Way::Marks, tables[0]), (Way::Strata, tables[1])][kind];
        let entry = Entry { records, ..asked };
        let left = respond(engine, way, table, &entry);
        written += &format!("call {}{}\n", entry.editor, said(table, &entry, &left));
        records = left.records;
    }
    written
}

/// The lines for an input.
pub fn output(engine: &mut dyn Engine, mut input: &[u8]) -> Vec<u8> {
    let text = stretch(&mut input);
    let tables = [engine.read(text).1, engine.read_unlayered(text).1];
    let mut written = String::new();
    for day in 1.. {
        if input.is_empty() {
            break;
        }
        let (records, calls) = (list(&mut input, tally), list(&mut input, call));
        written += &format!("day {day}\n{}", lines(engine, [&tables[0], &tables[1]], records, calls));
    }
    written.into_bytes()
}
