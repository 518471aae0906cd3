//! The native engine held to the second engine on generated inputs, good and damaged.

use native::engine::{Engine, Native};
use native::raw::{Tally, PRINT_BYTES};
use native::response::{Caller, Outputs};
use native::table::{Assignment, Literal, Name, Rule, Slot, Table, RULES};
use native::Refusal;
use second::engine::{Engine as _, Second, Way};
use second::gen::{any_file, card, rooms, slip, File, Rng};
use second::gen_editors::Day;
use second::gen_large::large_file;
use second::gen_marks;
use second::gen_tables::damaged;
use second::gen_text::Sketch;
use second::print::{printed, put};
use second::table::Table as SecondTable;

/// The second engine's table in the native layout.
fn converted(from: &SecondTable) -> Box<Table> {
    let mut table = Table::empty();
    let name = |name: &second::table::Name| Name { start: name.start, size: name.size };
    for (to, from) in table.slots.iter_mut().zip(&from.slots) {
        *to = Slot { name: name(&from.name), values: from.values.each_ref().map(name), count: from.count };
    }
    for (to, from) in table.rules.iter_mut().zip(&from.rules) {
        let literal = |l: &second::table::LiteralPlace| Literal {
            becomes: l.becomes,
            negated: l.negated,
            slot: l.slot,
            value: l.value,
        };
        let assignment = |a: &second::table::AssignmentPlace| Assignment { slot: a.slot, value: a.value };
        *to = Rule {
            slot: from.slot,
            value: from.value,
            literals: from.literals.each_ref().map(literal),
            tested: from.tested,
            assignments: from.assignments.each_ref().map(assignment),
            assigned: from.assigned,
            stratum: from.stratum,
        };
    }
    (table.width, table.count) = (from.width, from.count);
    table
}

/// A refusal of the second engine.
fn refused(why: second::Refusal) -> Refusal {
    Refusal { number: why.number, second: why.second }
}

/// A table of records of the second engine in two bytes for each count.
fn two_bytes(records: &[second::editors::Tally]) -> Vec<Tally> {
    let count = |n: u32| u16::try_from(n).expect("a count of two bytes");
    records.iter().map(|own| Tally { answered: count(own.answered), refused: count(own.refused) }).collect()
}

/// One response of both engines by a way to a generated card, slip, table of records, editor number and outputs; gives the number it came to.
fn responses(rng: &mut Rng, way: Way, table: &SecondTable, sketch: &Sketch, engine: &mut Native) -> u8 {
    let (card, slip, day) = (card(rng, sketch), slip(rng, sketch), Day::new(rng));
    let editor = day.caller(rng);
    let needed =
        [(6 + 4 * table.width.min(40) as usize).div_ceil(8), 37, (table.count as usize).min(RULES + 40).div_ceil(8)];
    let lengths = rooms(rng, needed);
    let mut theirs = lengths.map(|length| vec![0xA5; length]);
    let mut ours = theirs.clone();
    let mut their_records = day.records;
    let mut our_records = two_bytes(&their_records);
    let [a, b, c] = &mut theirs;
    let outputs = second::response::Outputs { card: a, changes: b, fired: c };
    let caller = second::editors::Caller { records: &mut their_records, editor };
    let their_answer = Second.respond(way, table, caller, &card, &slip, outputs);
    let [a, b, c] = &mut ours;
    let outputs = Outputs { card: a, changes: b, fired: c };
    let caller = Caller { records: &mut our_records, editor };
    let given = converted(table);
    let our_answer = match way {
        Way::Strata => engine.respond(&given, caller, &card, &slip, outputs),
        Way::Marks => engine.respond_by_marks(&given, caller, &card, &slip, outputs),
    };
    assert_eq!(theirs, ours);
    assert_eq!(two_bytes(&their_records), our_records);
    assert_eq!(their_answer.map_err(refused), our_answer.map(|answer| answer.length));
    if let Ok(answer) = our_answer {
        assert_eq!(answer.fired, Second.fired_count(&ours[2][..(table.count as usize).div_ceil(8)]));
    }
    our_answer.map_or_else(|why| why.number, |_| 0)
}

/// Prints of both engines into outputs about as long as the print; gives the numbers they came to.
fn prints(text: &[u8], engine: &mut Native) -> [u8; 4] {
    let print = printed(text);
    let length = print.as_ref().map_or(PRINT_BYTES + 1, Vec::len);
    [length, length.saturating_sub(1), length + 5, 0].map(|room| {
        let (mut theirs, mut ours) = (vec![0xA5; room], vec![0xA5; room]);
        let their_length = print.as_ref().map_err(|why| *why).and_then(|print| put(print, &mut theirs));
        let our_length = engine.print(text, &mut ours);
        assert!(theirs == ours, "{}", String::from_utf8_lossy(text));
        assert_eq!(their_length.map_err(refused), our_length);
        our_length.map_or_else(|why| why.number, |_| 0)
    })
}

/// The file of a round: a large one now and then.
fn file_of(rng: &mut Rng, round: u64) -> File {
    if round % 400 == 0 {
        large_file(rng, round / 400)
    } else {
        any_file(rng)
    }
}

/// Readings, prints and responses agree, and every number comes up.
#[test]
fn agrees_with_the_second_engine() {
    let mut rng = Rng::new(20);
    let mut engine = Native::new();
    let mut seen = [0; 45];
    for round in 0..20_000 {
        let file = file_of(&mut rng, round);
        let (why, theirs) = Second.read(&file.text);
        let ours = engine.read(&file.text);
        assert_eq!(why.map(refused), ours.err(), "{}", String::from_utf8_lossy(&file.text));
        assert!(*converted(&theirs) == *engine.table(), "round {round}");
        seen[why.map_or(0, |why| why.number) as usize] += 1;
        for number in prints(&file.text, &mut engine) {
            seen[number as usize] += 1;
        }
        let given = if round % 4 == 0 { damaged(&mut rng, &theirs, file.text.len()) } else { theirs };
        for _ in 0..3 {
            seen[responses(&mut rng, Way::Strata, &given, &file.sketch, &mut engine) as usize] += 1;
        }
    }
    println!("{seen:?}");
    for number in (10..=18).chain(20..=28).chain(30..=34).chain([40, 44]) {
        assert!(seen[number] > 0, "{number} never came up");
    }
}

/// Readings without test 18 and responses by marks agree, and every number comes up; on files of any kind and on those made for it.
#[test]
fn agrees_with_the_second_engine_by_marks() {
    let mut rng = Rng::new(21);
    let mut engine = Native::new();
    let mut seen = [0; 45];
    for round in 0..20_000 {
        let file = if round % 2 == 0 { file_of(&mut rng, round) } else { gen_marks::file(&mut rng) };
        let (why, theirs) = Second.read_unlayered(&file.text);
        let ours = engine.read_unlayered(&file.text);
        assert_eq!(why.map(refused), ours.err(), "{}", String::from_utf8_lossy(&file.text));
        assert!(*converted(&theirs) == *engine.table(), "round {round}");
        seen[why.map_or(0, |why| why.number) as usize] += 1;
        let layered = Second.read(&file.text).1;
        let changed = damaged(&mut rng, if round % 3 == 0 { &theirs } else { &layered }, file.text.len());
        for table in [&theirs, &theirs, &theirs, &layered, &changed] {
            seen[responses(&mut rng, Way::Marks, table, &file.sketch, &mut engine) as usize] += 1;
        }
    }
    println!("{seen:?}");
    for number in (10..=17).chain(20..=28).chain(30..=32).chain([41, 42, 44]) {
        assert!(seen[number] > 0, "{number} never came up");
    }
}
