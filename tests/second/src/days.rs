//! Days of calls: several editors with one table of records, held to the second engine after each call, and the same calls in another order.

use crate::editors::{Caller, Tally};
use crate::engine::{Engine, Second, Way};
use crate::gen::{self, File, Rng};
use crate::gen_editors::Day;
use crate::gen_text::Sketch;
use crate::lent::{lend, same, Difference, MARGIN};
use crate::raw::{CARD_BYTES, FIRED_BYTES, SLIP_BYTES};
use crate::read::PROGRAM;
use crate::response::{needed, Outputs};
use crate::table::Table;
use crate::table31::unlayered;
use crate::Refusal;

/// The calls of a day, and of one on a table of more rules than the program takes.
const CALLS: usize = 4;
const CALLS_ON_MANY: usize = 2;

/// The entry of a response: the records and the editor who calls, card, slip and output lengths.
#[derive(Clone, Debug)]
pub struct Entry {
    pub records: Vec<Tally>,
    pub editor: usize,
    pub card: Vec<u8>,
    pub slip: Vec<u8>,
    pub rooms: [usize; 3],
}

/// A difference, and the entry it was seen with, if one was reached.
pub struct Seen {
    pub entry: Option<Entry>,
    pub difference: Difference,
}

/// What a response left: its result, all records of the lent table, and the outputs.
pub struct Responded {
    pub result: Result<usize, Refusal>,
    pub records: Vec<Tally>,
    pub outputs: Vec<Vec<u8>>,
}

/// The response of an engine by a way, and what it left.
pub fn respond(engine: &mut dyn Engine, way: Way, table: &Table, entry: &Entry) -> Responded {
    let mut records = entry.records.clone();
    let caller = Caller { records: &mut records, editor: entry.editor };
    let (result, outputs) = lend(entry.rooms, |[card, changes, fired]| {
        engine.respond(way, table, caller, &entry.card, &entry.slip, Outputs { card, changes, fired })
    });
    Responded { result, records, outputs }
}

/// Says where what two responses left differs; the outputs are whole, with their margins.
fn same_response(ours: &Responded, theirs: &Responded) -> Result<(), Difference> {
    same("the response", &ours.result, &theirs.result)?;
    same("the records after a response", &ours.records, &theirs.records)?;
    same("the outputs of a response", &ours.outputs, &theirs.outputs)
}

/// Compares one response by a way; gives what the second engine left.
pub fn compare_response(
    other: &mut dyn Engine,
    way: Way,
    table: &Table,
    entry: &Entry,
) -> Result<Responded, Difference> {
    let ours = respond(&mut Second, way, table, entry);
    same_response(&ours, &respond(other, way, table, entry))?;
    let record = &ours.outputs[2][MARGIN..MARGIN + entry.rooms[2]];
    same("the number of fired rules", &Second.fired_count(record), &other.fired_count(record))?;
    Ok(ours)
}

/// Compares the unpacking of an entry and the packing back, then the packing of made forms with any room.
fn compare_cards(
    other: &mut dyn Engine,
    table: &Table,
    entry: &Entry,
    sketch: &Sketch,
    rng: &mut Rng,
) -> Result<(), Difference> {
    let card = Second.unpack_card(table, &entry.card);
    same("unpacking a card", &card, &other.unpack_card(table, &entry.card))?;
    let slip = Second.unpack_slip(table, &entry.slip);
    same("unpacking a slip", &slip, &other.unpack_slip(table, &entry.slip))?;
    let made_card = if rng.chance(1, 2) { card.ok() } else { None };
    let values = made_card.unwrap_or_else(|| gen::unpacked_card(rng, sketch));
    let room = rng.below(20);
    let ours = lend([room], |[output]| Second.pack_card(table, &values, output));
    same("packing a card", &ours, &lend([room], |[output]| other.pack_card(table, &values, output)))?;
    let made_slip = if rng.chance(1, 2) { slip.ok() } else { None };
    let changes = made_slip.unwrap_or_else(|| gen::unpacked_slip(rng, sketch));
    let most = *rng.pick(&[6, 40]);
    let room = rng.below(most);
    let ours = lend([room], |[output]| Second.pack_slip(table, &changes, output));
    same("packing a slip", &ours, &lend([room], |[output]| other.pack_slip(table, &changes, output)))
}

/// The lengths that a response on any table needs, as far as its counts say.
fn needed_by(table: &Table) -> [usize; 3] {
    unlayered(table).map_or([CARD_BYTES, SLIP_BYTES, FIRED_BYTES], |program| needed(&program))
}

/// The sketch that cards and slips are made for: the file's, but for most refused files the empty one.
pub fn fitting(rng: &mut Rng, file: &File, table: &Table) -> Sketch {
    if table.width == 0 && rng.chance(3, 4) {
        gen::empty_sketch()
    } else {
        file.sketch.clone()
    }
}

/// An entry of a day for a table made from a sketch, with the records that the day has come to.
pub fn entry(rng: &mut Rng, sketch: &Sketch, table: &Table, day: &Day) -> Entry {
    Entry {
        records: day.records.clone(),
        editor: day.caller(rng),
        card: gen::card(rng, sketch),
        slip: gen::slip(rng, sketch),
        rooms: gen::rooms(rng, needed_by(table)),
    }
}

/// A call of a day: its way and table, its entry, and what the second engine left.
struct Call<'a> {
    desk: (Way, &'a Table),
    entry: Entry,
    left: Responded,
}

/// Compares a day of calls that share their records, which are handed on from each to the next: the ways and tables in turn.
pub fn compare_day(
    other: &mut dyn Engine,
    desks: &[(Way, &Table)],
    sketch: &Sketch,
    rng: &mut Rng,
) -> Result<(), Box<Seen>> {
    let mut day = Day::new(rng);
    let mut calls = Vec::new();
    let many = desks.iter().any(|(_, table)| usize::from(table.count) > PROGRAM.rules);
    for desk in desks.iter().cycle().take(if many { CALLS_ON_MANY } else { CALLS }) {
        let (way, table) = *desk;
        let entry = entry(rng, sketch, table, &day);
        let cards = compare_cards(other, table, &entry, sketch, rng);
        match cards.and_then(|_| compare_response(other, way, table, &entry)) {
            Ok(left) => {
                day.records = left.records.clone();
                calls.push(Call { desk: *desk, entry, left });
            }
            Err(difference) => return Err(Box::new(Seen { entry: Some(entry), difference })),
        }
    }
    compare_reordered(other, &calls, rng)
}

/// The calls of a day in another order, in which those of each editor keep their own.
fn reordered<'a>(calls: &'a [Call], rng: &mut Rng) -> Vec<&'a Call<'a>> {
    let mut turns: Vec<usize> = calls.iter().map(|call| call.entry.editor).collect();
    rng.shuffle(&mut turns);
    let mut waiting: Vec<&Call> = calls.iter().collect();
    let mut next = |editor: usize| {
        let at = waiting.iter().position(|call| call.entry.editor == editor);
        waiting.remove(at.expect("an editor has a turn for each call"))
    };
    turns.into_iter().map(|editor| next(editor)).collect()
}

/// Compares the calls of a day in another order: each has the result and the outputs that it had before, and the records end as they ended.
fn compare_reordered(other: &mut dyn Engine, calls: &[Call], rng: &mut Rng) -> Result<(), Box<Seen>> {
    let mut records = calls[0].entry.records.clone();
    for call in reordered(calls, rng) {
        let entry = Entry { records, ..call.entry.clone() };
        let (way, table) = call.desk;
        let left = respond(other, way, table, &entry);
        let wanted = (&call.left.result, &call.left.outputs);
        let compared = same("a call in another order", &wanted, &(&left.result, &left.outputs));
        compared.map_err(|difference| Box::new(Seen { entry: Some(entry), difference }))?;
        records = left.records;
    }
    let ended = &calls[calls.len() - 1].left.records;
    let compared = same("the records after another order", ended, &records);
    compared.map_err(|difference| Box::new(Seen { entry: None, difference }))
}
