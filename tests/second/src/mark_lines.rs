//! The stored cases of the response by marks, each a rule text, an editor number, a card and a slip, and the lines of what an engine says of them.

use crate::cards::card_length;
use crate::editors::{fresh, Caller, Tally};
use crate::engine::{Engine, Way};
use crate::firing_checks::given_to;
use crate::print_lines::{number, text};
use crate::table::Table;
use crate::Refusal;

/// A length in one byte and so many bytes, from the front of an input.
pub fn short_stretch<'a>(input: &mut &'a [u8]) -> &'a [u8] {
    let length = number(input, 1);
    let (front, rest) = input.split_at(length);
    *input = rest;
    front
}

/// A refusal.
pub fn refused(why: Refusal) -> String {
    format!(" refused {} {}", why.number, why.second)
}

/// A word and bytes in hexadecimal, or a stroke where there are none.
pub fn hexadecimal(word: &str, bytes: &[u8]) -> String {
    let digits: String = bytes.iter().map(|byte| format!("{byte:02X}")).collect();
    format!(" {word} {}", if digits.is_empty() { "-" } else { &digits })
}

/// The record of an editor.
pub fn record(editor: usize, record: &Tally) -> String {
    format!(" tally {editor} {} {}", record.answered, record.refused)
}

/// The records that are not fresh.
fn counted(records: &[Tally]) -> String {
    let changed = (1..).zip(records).filter(|(_, record)| **record != Tally::default());
    changed.map(|(editor, changed)| record(editor, changed)).collect()
}

/// A case: the editor who calls, the card and the slip.
struct Called<'a> {
    editor: usize,
    card: &'a [u8],
    slip: &'a [u8],
}

/// What an engine's response by a way says on fresh records: the refusal or the outputs, and the records that it changed.
fn response(engine: &mut dyn Engine, way: Way, table: &Table, called: &Called) -> String {
    let mut records = fresh();
    let caller = Caller { records: &mut records, editor: called.editor };
    let given = given_to(engine, way, table, caller, called.card, called.slip);
    let fired = &given.fired[..(usize::from(table.count) + 7) / 8];
    let new_card = &given.card[..card_length(table.width.into())];
    let outputs = [("fired", fired), ("changes", &given.changes), ("card", new_card)];
    let said = given.refused.map_or_else(|| outputs.map(|(word, bytes)| hexadecimal(word, bytes)).concat(), refused);
    said + &counted(&records)
}

/// The lines of a case: the reading, the strata response where it is accepted, and the response by marks on the reading without test 18.
fn lines(engine: &mut dyn Engine, text: &[u8], called: &Called) -> String {
    let strata = |table: &Table| -> String {
        table.rules[..table.count.into()].iter().map(|rule| format!(" {}", rule.stratum)).collect()
    };
    let by_strata = match engine.read(text) {
        (Some(why), _) => format!("read{}\n", refused(why)),
        (None, table) => {
            let response = response(engine, Way::Strata, &table, called);
            format!("read strata{}\nstrata{response}\n", strata(&table))
        }
    };
    let by_marks = match engine.read_unlayered(text) {
        (Some(why), _) => refused(why),
        (None, table) => response(engine, Way::Marks, &table, called),
    };
    format!("{by_strata}marks{by_marks}\n")
}

/// The lines for an input.
pub fn output(engine: &mut dyn Engine, mut input: &[u8]) -> Vec<u8> {
    let mut written = String::new();
    for case in 1.. {
        if input.is_empty() {
            break;
        }
        let text = text(&mut input);
        let editor = number(&mut input, 1);
        let called = Called { editor, card: short_stretch(&mut input), slip: short_stretch(&mut input) };
        written += &format!("case {case}\n{}", lines(engine, &text, &called));
    }
    written.into_bytes()
}
