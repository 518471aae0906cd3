//! The test 31, names shown, the order of a response's refusals, what is counted, and what generated tables show.

use second::editors::{fresh, Caller, Tally};
use second::engine::{Engine, Second, Way};
use second::fault::Fault;
use second::program_cases::{A, B, C, D, E, SLOTS};
use second::read::read;
use second::response::Outputs;
use second::strata::strata;
use second::table::{LiteralPlace, Name, Table};
use second::table31::{slot_name, tested, unlayered, value_name};
use second::table_lines::{generated, tables};
use second::{broken_strata, refusal, Refusal};

const TEXT: &[u8] =
    b"SLOT x {0,1}; SLOT y {0,1}; WHEN x *= 1 IF y |= 1 THEN y := 1; WHEN x *= 1 IF NOT y *= 1 THEN x := 0;";

/// The table of the text, changed.
fn changed(change: impl FnOnce(&mut Table)) -> Box<Table> {
    let mut table = read(TEXT).unwrap();
    change(&mut table);
    table
}

/// Whether a changed table is 31.
fn is_31(change: impl FnOnce(&mut Table)) -> bool {
    tested(&changed(change)) == Err(refusal(31, 0))
}

#[test]
fn tables_that_are_31() {
    assert!(!is_31(|_| ()));
    assert!(is_31(|table| table.width = 33));
    assert!(is_31(|table| table.width = 3));
    assert!(is_31(|table| table.width = 1));
    assert!(is_31(|table| table.count = 2_000));
    assert!(is_31(|table| table.count = 2_001));
    assert!(is_31(|table| table.count = u16::MAX));
    assert!(is_31(|table| table.count += 256));
    assert!(is_31(|table| table.count = 3));
    assert!(is_31(|table| table.slots[0].count = 16));
    assert!(is_31(|table| table.slots[0].count = 0));
    assert!(is_31(|table| table.slots[0].count = 1));
    assert!(is_31(|table| table.rules[0].value = 3));
    assert!(is_31(|table| table.rules[0].literals[0].value = 3));
    assert!(is_31(|table| table.rules[0].literals[0].slot = 2));
    assert!(is_31(|table| table.rules[0].tested = 9));
    assert!(is_31(|table| table.rules[0].assigned = 5));
    assert!(is_31(|table| table.rules[0].stratum = 2));
    assert!(is_31(|table| table.rules[1].stratum = 3));
    assert!(is_31(|table| table.rules[1].stratum += 256));
    assert!(is_31(|table| table.rules[0].stratum = u16::MAX));
    assert!(is_31(|table| table.rules[1].stratum = 0));
    assert!(is_31(|table| table.rules[1].assignments[0].value = 2));
    assert!(is_31(|table| {
        table.rules[0].assigned = 2;
        table.rules[0].assignments[1] = table.rules[0].assignments[0];
    }));
}

#[test]
fn tables_that_are_not_31() {
    assert!(!is_31(
        |table| table.rules[0].literals[1] = LiteralPlace { slot: 200, value: 99, ..LiteralPlace::default() }
    ));
    assert!(!is_31(|table| table.rules[2].stratum = 9));
    assert!(!is_31(|table| table.slots[0].name = Name { start: u32::MAX, size: u32::MAX }));
    assert!(!is_31(|table| table.rules[1].assigned = 0));
    assert!(!is_31(|table| table.rules[0].tested = 2));
    assert!(!is_31(|table| table.rules[0].value = 0));
    assert!(!is_31(|table| table.rules[0].literals[0].value = 0));
    assert!(!is_31(|table| table.rules[1].assignments[0].value = 0));
    assert!(!is_31(|table| table.count = 1));
    assert!(!is_31(|table| *table = *Table::empty()));
}

/// Of some strata for the rules of a text, those that are not 31.
fn passing(rules: &[&str], strata: &[&[u16]]) -> Vec<Vec<u16>> {
    let mut table = read(format!("{SLOTS}{}", rules.concat()).as_bytes()).unwrap();
    let mut passes = |numbers: &&&[u16]| {
        table.rules.iter_mut().zip(numbers.iter()).for_each(|(rule, number)| rule.stratum = *number);
        tested(&table).is_ok()
    };
    strata.iter().filter(|numbers| passes(numbers)).map(|numbers| numbers.to_vec()).collect()
}

#[test]
fn a_table_carries_the_least_strata() {
    let pairs: [&[u16]; 9] =
        [&[1, 1], &[2, 2], &[1, 2], &[2, 1], &[0, 0], &[0, 1], &[255, 255], &[257, 257], &[258, 257]];
    assert_eq!(passing(&[A, C], &pairs), [[1, 1]]);
    assert_eq!(passing(&[A, B], &pairs), [[1, 1]]);
    assert_eq!(passing(&[D, E], &pairs), [[2, 1]]);
    assert_eq!(passing(&[E, D], &pairs), [[1, 2]]);
    let own = "WHEN x *= 1 IF TRUE THEN x := 1;";
    assert_eq!(passing(&[own], &[&[0], &[1], &[2]]), [[1]]);
    let [first, second] = ["WHEN x *= 1 IF NOT y *= 1 THEN z := 1;", "WHEN z *= 1 IF TRUE THEN x := 1;"];
    let lowest = "WHEN y *= 0 IF TRUE THEN y := 1;";
    let threes: [&[u16]; 6] = [&[2, 2, 1], &[3, 3, 1], &[1, 1, 1], &[2, 1, 1], &[1, 2, 1], &[3, 3, 2]];
    assert_eq!(passing(&[first, second, lowest], &threes), [[2, 2, 1]]);
    let [bar, empty] = ["WHEN x *= 1 IF NOT y *= NONE THEN z := 1;", "WHEN x *= 1 IF TRUE THEN y := NONE;"];
    assert_eq!(passing(&[bar, empty], &pairs), [[2, 1]]);
    assert_eq!(passing(&["WHEN y *= NONE IF TRUE THEN z := 1;", empty], &pairs), [[1, 1]]);
    let chain: [&[u16]; 6] = [&[1, 1, 1], &[1, 2, 3], &[1, 1, 2], &[2, 2, 2], &[1, 1, 0], &[3, 2, 1]];
    assert_eq!(passing(&[A, B, "WHEN y *= 1 IF TRUE THEN x := 0;"], &chain), [[1, 1, 1]]);
}

#[test]
fn names_are_stretches_of_the_text() {
    let table = read(TEXT).unwrap();
    assert_eq!(slot_name(TEXT, &table, 1), Ok(Name { start: 19, size: 1 }));
    assert_eq!(value_name(TEXT, &table, 1, 2), Ok(Name { start: 24, size: 1 }));
    assert_eq!(slot_name(TEXT, &table, 2), Err(refusal(31, 0)));
    assert_eq!(value_name(TEXT, &table, 1, 0), Err(refusal(31, 0)));
    assert_eq!(value_name(TEXT, &table, 1, 3), Err(refusal(31, 0)));
    assert_eq!(slot_name(&TEXT[..19], &table, 1), Err(refusal(31, 0)));
    assert_eq!(slot_name(&TEXT[..20], &table, 1), Ok(Name { start: 19, size: 1 }));
    let wide = changed(|table| table.width = 99);
    assert_eq!(slot_name(TEXT, &wide, 1), Ok(Name { start: 19, size: 1 }));
    assert_eq!(slot_name(TEXT, &wide, 32), Err(refusal(31, 0)));
}

/// The response on a table to an editor with a record, with outputs of some lengths: the record after it and the result.
fn response(table: &Table, tally: (u32, u32), slip: &[u8], rooms: [usize; 3]) -> ((u32, u32), Result<usize, Refusal>) {
    let (mut card, mut changes, mut fired) = (vec![0; rooms[0]], vec![0; rooms[1]], vec![0; rooms[2]]);
    let outputs = Outputs { card: &mut card, changes: &mut changes, fired: &mut fired };
    let mut records = fresh();
    records[4] = Tally { answered: tally.0, refused: tally.1 };
    let result =
        Second.respond(Way::Strata, table, Caller { records: &mut records, editor: 5 }, &[0x08, 0x44], slip, outputs);
    ((records[4].answered, records[4].refused), result)
}

#[test]
fn a_record_counts_all_but_32() {
    let table = read(TEXT).unwrap();
    let rooms = [2, 37, 1];
    assert_eq!(response(&table, (3, 4), &[0], rooms), ((4, 4), Ok(1)));
    assert_eq!(response(&table, (9_998, 9_998), &[0], rooms), ((9_999, 9_998), Ok(1)));
    assert_eq!(response(&table, (9_999, 0), &[0], rooms), ((9_999, 0), Err(refusal(32, 0))));
    assert_eq!(response(&table, (0, 10_000), &[], rooms), ((0, 10_000), Err(refusal(32, 0))));
    assert_eq!(response(&table, (0, 9_998), &[], rooms), ((0, 9_999), Err(refusal(24, 0))));
}

#[test]
fn refusals_come_in_their_order() {
    let table = read(TEXT).unwrap();
    let bad = changed(|table| table.rules[0].stratum = 7);
    let conflict = [0x04, 0x04];
    assert_eq!(response(&bad, (0, 9_999), &[], [0; 3]).1, Err(refusal(32, 0)));
    assert_eq!(response(&bad, (0, 0), &[], [0; 3]), ((0, 1), Err(refusal(31, 0))));
    assert_eq!(response(&table, (0, 0), &[1], [0; 3]).1, Err(refusal(28, 0)));
    assert_eq!(response(&table, (0, 0), &conflict, [1, 36, 0]).1, Err(refusal(30, 1)));
    assert_eq!(response(&table, (0, 0), &conflict, [2, 36, 0]).1, Err(refusal(30, 2)));
    assert_eq!(response(&table, (0, 0), &conflict, [2, 37, 0]).1, Err(refusal(30, 3)));
    assert_eq!(response(&table, (0, 0), &conflict, [2, 37, 1]), ((0, 1), Err(refusal(40, 0))));
}

/// Whether a fault changes a table's strata, or whether the table passes 31.
fn shows(fault: Fault, table: &Table) -> bool {
    let rules = unlayered(table).map_or(Vec::new(), |program| program.rules);
    broken_strata::strata(fault, &rules) != strata(&rules)
        || broken_strata::program(fault, table).is_ok() != tested(table).is_ok()
}

#[test]
fn ten_inputs_of_tables_show_each_fault_of_strata_and_31() {
    let tables: Vec<Box<Table>> = (1..=10).flat_map(|seed| tables(&generated(seed))).collect();
    let faults = [
        Fault::HighestOnCircle,
        Fault::BehindCircle,
        Fault::BeforeCircle,
        Fault::LowestOnAnyCircle,
        Fault::SimpleCircles,
        Fault::OwnNotOnly,
        Fault::PlainCircleRefused,
        Fault::OwnTestRefused,
        Fault::OwnNotFree,
        Fault::NoStrata,
        Fault::WasBinds,
        Fault::PlainFalls,
        Fault::TriggerFalls,
        Fault::NegatedLevel,
        Fault::TriggerFree,
        Fault::SlotsBind,
        Fault::NoneFree,
        Fault::StrataTooHigh,
        Fault::StrataUntested,
        Fault::AnyStrata,
        Fault::EachAsAsked,
        Fault::FallingStrata,
        Fault::ZeroStratum,
        Fault::StrataByLastByte,
        Fault::StrataCut,
        Fault::StrataHeld,
        Fault::CircleRuleCut,
        Fault::CountHeld,
        Fault::UnusedTested,
        Fault::NoAssignments,
        Fault::NoneTriggerLacking,
        Fault::NoneTestLacking,
        Fault::NoneAssignmentLacking,
        Fault::NoneCounted,
    ];
    for fault in faults {
        assert!(tables.iter().any(|table| shows(fault, table)), "{fault:?}");
    }
}
