//! The stored cases through the library: `stored texts`, `stored prints`, `stored marks`, `stored days` and `stored cards` read the input of that kind from standard input and write what the library says of each case.

use std::io::{Read, Write};

use proved::Proved;
use second::raw::{self, Card, Change, RlPacked, Slip, Table, SLOTS};
use second::{day_lines, mark_lines, print_lines, read_lines};

/// The bytes of the output that a packing is lent the front of, and what it holds before.
const ROOM: usize = 64;
const BEFORE: u8 = 165;

/// An input of cards and slips, byte by byte from its front.
struct Input<'a>(&'a [u8]);

impl<'a> Input<'a> {
    /// So many bytes.
    fn bytes(&mut self, count: usize) -> &'a [u8] {
        let (taken, rest) = self.0.split_at(count);
        self.0 = rest;
        taken
    }

    /// One byte.
    fn byte(&mut self) -> u8 {
        self.bytes(1)[0]
    }

    /// A length of one byte, and so many bytes.
    fn stretch(&mut self) -> &'a [u8] {
        let count = self.byte().into();
        self.bytes(count)
    }

    /// The count that an unpacked form says: 255 stands for the greatest there is.
    fn count(&mut self) -> usize {
        match self.byte() {
            255 => usize::MAX,
            count => count.into(),
        }
    }

    /// A table without rules: the number of slots, and the number of values of each that has a place.
    fn table(&mut self) -> Box<Table> {
        let mut table = Table::empty();
        table.width = self.byte().into();
        for slot in table.slots.iter_mut().take(table.width as usize) {
            slot.count = self.byte().into();
        }
        table
    }

    /// An unpacked card: its count, how many values follow, and these.
    fn card(&mut self) -> Card {
        let mut card = Card { values: [0; SLOTS], count: self.count() };
        let given = self.stretch();
        card.values[..given.len()].copy_from_slice(given);
        card
    }

    /// An unpacked slip in the same manner.
    fn slip(&mut self) -> Slip {
        let mut slip = Slip { changes: [Change { slot: 0, value: 0 }; SLOTS], count: self.count() };
        let given = usize::from(self.byte());
        for change in &mut slip.changes[..given] {
            *change = Change { slot: self.byte(), value: self.byte() };
        }
        slip
    }
}

/// Each number after a space.
fn numbers(all: impl IntoIterator<Item = usize>) -> String {
    all.into_iter().map(|number| format!(" {number}")).collect()
}

/// What a result says by its number: the word of its success, or the refusal.
fn outcome(number: u8, second: usize, success: String) -> String {
    match number {
        0 => success,
        _ => format!(" refused {number} {second}"),
    }
}

/// What unpacking comes to, with all places of the form.
fn unpacked(number: u8, second: usize, count: usize, places: impl Iterator<Item = u8>) -> String {
    outcome(number, second, " accepted".into()) + &numbers([count]) + &numbers(places.map(usize::from))
}

/// What packing into the front of an output comes to, with the whole output after it.
fn packed(input: &mut Input, pack: impl FnOnce(&mut [u8]) -> RlPacked) -> String {
    let mut output = [BEFORE; ROOM];
    let result = pack(&mut output[..usize::from(input.byte())]);
    let success = format!(" packed {}", result.length);
    outcome(result.number, result.second, success) + &numbers(output.map(usize::from))
}

/// What the library says of one case: its kind, the table and the rest.
fn case(input: &mut Input) -> String {
    let kind = input.byte();
    let table = *input.table();
    match kind {
        0 => {
            let bytes = input.stretch();
            let read = raw::unpack_card(&table, bytes);
            unpacked(read.number, read.second, read.card.count, read.card.values.into_iter())
        }
        1 => {
            let bytes = input.stretch();
            let read = raw::unpack_slip(&table, bytes);
            let places = read.slip.changes.into_iter().flat_map(|change| [change.slot, change.value]);
            unpacked(read.number, read.second, read.slip.count, places)
        }
        2 => {
            let card = input.card();
            packed(input, |out| raw::pack_card(&table, card, out))
        }
        3 => {
            let slip = input.slip();
            packed(input, |out| raw::pack_slip(&table, slip, out))
        }
        _ => panic!("no kind of case: {kind}"),
    }
}

/// The lines for an input of cards and slips: the number of cases in two bytes, and these.
fn card_lines(input: &[u8]) -> Vec<u8> {
    let mut input = Input(input);
    let cases = usize::from(input.byte()) * 256 + usize::from(input.byte());
    let lines: String = (1..=cases).map(|number| format!("case {number}{}\n", case(&mut input))).collect();
    lines.into_bytes()
}

fn main() -> std::io::Result<()> {
    let mut input = Vec::new();
    std::io::stdin().read_to_end(&mut input)?;
    let written = match std::env::args().nth(1).as_deref() {
        Some("texts") => read_lines::output(&mut Proved::default(), &input),
        Some("prints") => print_lines::output(&mut Proved::default(), &input),
        Some("marks") => mark_lines::output(&mut Proved::default(), &input),
        Some("days") => day_lines::output(&mut Proved::default(), &input),
        Some("cards") => card_lines(&input),
        _ => panic!("stored texts, stored prints, stored marks, stored days, or stored cards"),
    };
    std::io::stdout().write_all(&written)
}
