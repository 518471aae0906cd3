//! The response by marks: cases of section 3 of document 02, its refusals and tables, and its orders of selection.

use second::broken::Broken;
use second::cards::slip_bytes;
use second::editors::{fresh, Caller, Tally};
use second::engine::{Engine, Second, Way};
use second::fault::Fault;
use second::firing_checks::{given, given_by, Given};
use second::kinds::Kind;
use second::mark_checks::{check_small, MarkCounts};
use second::marks::{and, not, Truth};
use second::program_cases::{A, B, C, D, E, H, SLOTS, X_TO_1, Y_TO_1, ZEROS, Z_TO_1};
use second::read::{read, read_unlayered};
use second::response::Outputs;
use second::table::Table;
use second::{refusal, Refusal};

/// Rules that each bring what the other asks for under NOT, a rule that bars itself, and a card without values.
const EITHER: [&str; 2] = ["WHEN x *= 1 IF NOT y *= 1 THEN z := 1;", "WHEN x *= 1 IF NOT z *= 1 THEN y := 1;"];
const OWN_BAR: &str = "WHEN x *= 1 IF NOT y *= 1 THEN y := 1;";
const EMPTY: [u8; 3] = [0x0C, 0, 0];

/// The text of the three slots and some rules.
fn text(rules: &[&str]) -> Vec<u8> {
    format!("{SLOTS}\n{}\n", rules.join("\n")).into_bytes()
}

/// The response by marks to a card and a slip under some rules read without test 18.
fn by_marks(rules: &[&str], card: &[u8], slip: &[u8]) -> Given {
    given_by(&mut Second, Way::Marks, &read_unlayered(&text(rules)).unwrap(), card, slip)
}

/// The outcome of a response by marks: the changes, or the refusal's number; and the first byte of the fired record.
fn outcome(rules: &[&str], card: &[u8], slip: &[u8]) -> Result<(Vec<u8>, u8), Refusal> {
    let given = by_marks(rules, card, slip);
    given.refused.map_or(Ok((given.changes, given.fired[0])), Err)
}

/// An answer with some changes, each to 1, and a fired record.
fn changed(slots: &[u8], fired: u8) -> Result<(Vec<u8>, u8), Refusal> {
    Ok((slip_bytes(&slots.iter().map(|slot| (*slot, 2)).collect::<Vec<_>>()), fired))
}

/// The rule that 18 names.
fn circle(rules: &[&str]) -> Option<Refusal> {
    read(&text(rules)).err()
}

const CLASH: Result<(Vec<u8>, u8), Refusal> = Err(Refusal { number: 41, second: 0 });
const UNKNOWN: Result<(Vec<u8>, u8), Refusal> = Err(Refusal { number: 42, second: 0 });

#[test]
fn a_not_on_another_value_of_the_slips_slot_is_true_from_the_start() {
    let rules = ["WHEN x *= 1 IF NOT z *= 1 THEN y := 0;", "WHEN x *= 1 IF NOT y *= 0 THEN z := 1;"];
    let slip = slip_bytes(&[(0, 2), (1, 2)]);
    assert_eq!(circle(&rules), Some(refusal(18, 1)));
    assert_eq!(outcome(&rules, &EMPTY, &slip), changed(&[0, 1, 2], 0x40));
    assert_eq!(outcome(&[rules[1], rules[0]], &EMPTY, &slip), changed(&[0, 1, 2], 0x80));
    assert_eq!(outcome(&rules, &EMPTY, &X_TO_1), UNKNOWN);
    let own = ["WHEN x *= 1 IF NOT x *= 0 THEN z := 1;", "WHEN x *= 1 IF NOT z *= 1 THEN x := 0;"];
    assert_eq!(circle(&own), Some(refusal(18, 1)));
    assert_eq!(outcome(&own, &EMPTY, &X_TO_1), changed(&[0, 2], 0x80));
}

#[test]
fn a_plain_circle_without_an_outside_cause_stays_unknown() {
    assert_eq!(outcome(&[A, C], &ZEROS, &Y_TO_1), UNKNOWN);
    assert_eq!(given(&mut Second, &read(&text(&[A, C])).unwrap(), &ZEROS, &Y_TO_1).refused, None);
    assert_eq!(outcome(&[A, C], &ZEROS, &X_TO_1), changed(&[0, 2], 0xC0));
    assert_eq!(outcome(&[A, C], &ZEROS, &Z_TO_1), changed(&[0, 2], 0xC0));
    assert_eq!(outcome(&["WHEN x *= 1 IF TRUE THEN x := 1;"], &ZEROS, &Y_TO_1), UNKNOWN);
    assert_eq!(outcome(&["WHEN x *= 1 IF TRUE THEN x := 1;"], &ZEROS, &X_TO_1), changed(&[0], 0x80));
    let dead = ["WHEN x *= 1 IF y |= 1 THEN z := 1;", "WHEN z *= 1 IF TRUE THEN x := 1;"];
    assert_eq!(outcome(&dead, &ZEROS, &Y_TO_1), changed(&[1], 0));
}

#[test]
fn none_is_one_more_value_of_each_slot() {
    let back = "WHEN x *= 1 IF TRUE THEN y := NONE;";
    let withdrawn = |pairs: &[(u8, u8)], fired: u8| Ok((slip_bytes(pairs), fired));
    assert_eq!(outcome(&[back], &ZEROS, &X_TO_1), withdrawn(&[(0, 2), (1, 0)], 0x80));
    assert_eq!(outcome(&[back], &EMPTY, &X_TO_1), withdrawn(&[(0, 2), (1, 0)], 0x80));
    assert_eq!(outcome(&[back], &ZEROS, &slip_bytes(&[(0, 2), (1, 2)])), CLASH);
    assert_eq!(outcome(&[back], &ZEROS, &slip_bytes(&[(0, 2), (1, 0)])), withdrawn(&[(0, 2), (1, 0)], 0x80));
    assert_eq!(outcome(&["WHEN x *= 1 IF TRUE THEN x := NONE;"], &ZEROS, &X_TO_1), CLASH);
    let woken = [back, "WHEN y *= NONE IF NOT z |= NONE THEN z := 1;"];
    assert_eq!(outcome(&woken, &ZEROS, &X_TO_1), withdrawn(&[(0, 2), (1, 0), (2, 2)], 0xC0));
    assert_eq!(outcome(&woken, &EMPTY, &X_TO_1), withdrawn(&[(0, 2), (1, 0)], 0x80));
    assert_eq!(outcome(&[woken[1]], &ZEROS, &slip_bytes(&[(1, 0)])), withdrawn(&[(1, 0), (2, 2)], 0x80));
}

#[test]
fn none_is_unknown_until_a_value_comes_or_no_rule_is_left() {
    let own = "WHEN x *= 1 IF NOT y *= NONE THEN y := NONE;";
    assert_eq!(circle(&[own]), Some(refusal(18, 1)));
    assert_eq!(outcome(&[own], &ZEROS, &X_TO_1), UNKNOWN);
    assert_eq!(outcome(&[own], &ZEROS, &Y_TO_1), changed(&[1], 0));
    assert_eq!(outcome(&[own], &ZEROS, &slip_bytes(&[(0, 2), (1, 2)])), CLASH);
    assert_eq!(outcome(&[own], &EMPTY, &X_TO_1), Ok((slip_bytes(&[(0, 2), (1, 0)]), 0x80)));
    let either = ["WHEN x *= 1 IF NOT y *= NONE THEN z := NONE;", "WHEN x *= 1 IF NOT z *= NONE THEN y := NONE;"];
    assert_eq!(outcome(&either, &ZEROS, &X_TO_1), UNKNOWN);
    let kept = slip_bytes(&[(0, 2), (1, 1)]);
    assert_eq!(outcome(&either, &ZEROS, &kept), Ok((slip_bytes(&[(0, 2), (1, 1), (2, 0)]), 0x80)));
    let barred = ["WHEN x *= 1 IF NOT y *= 1 THEN z := 1;", "WHEN x *= 1 IF NOT z *= 1 THEN y := 1;"];
    let withdrawn = slip_bytes(&[(0, 2), (1, 0)]);
    assert_eq!(outcome(&barred, &ZEROS, &withdrawn), Ok((slip_bytes(&[(0, 2), (1, 0), (2, 2)]), 0x80)));
}

#[test]
fn case_h_is_41() {
    assert_eq!(outcome(&[H], &ZEROS, &X_TO_1), CLASH);
    assert_eq!(outcome(&[H], &ZEROS, &Y_TO_1), changed(&[1], 0));
    assert_eq!(given(&mut Second, &read(&text(&[H])).unwrap(), &ZEROS, &X_TO_1).refused, Some(refusal(40, 0)));
}

#[test]
fn a_circle_through_a_not_is_decided_by_card_or_slip_or_stays_unknown() {
    assert_eq!(circle(&EITHER), Some(refusal(18, 1)));
    assert_eq!(outcome(&EITHER, &ZEROS, &X_TO_1), UNKNOWN);
    assert_eq!(outcome(&EITHER, &ZEROS, &Z_TO_1), changed(&[2], 0));
    assert_eq!(outcome(&EITHER, &ZEROS, &slip_bytes(&[(0, 2), (1, 2)])), changed(&[0, 1], 0x40));
    assert_eq!(
        outcome(&EITHER, &ZEROS, &slip_bytes(&[(0, 2), (1, 1)])),
        Ok((slip_bytes(&[(0, 2), (1, 1), (2, 2)]), 0x80))
    );
    assert_eq!(outcome(&EITHER, &[0x0C, 0x48, 0x40], &X_TO_1), changed(&[0, 2], 0x80));
    assert_eq!(outcome(&[OWN_BAR], &ZEROS, &X_TO_1), UNKNOWN);
    assert_eq!(outcome(&[OWN_BAR], &ZEROS, &Y_TO_1), changed(&[1], 0));
    assert_eq!(outcome(&[OWN_BAR], &ZEROS, &slip_bytes(&[(0, 2), (1, 2)])), changed(&[0, 1], 0));
    assert_eq!(outcome(&[OWN_BAR], &ZEROS, &slip_bytes(&[(0, 2), (1, 1)])), CLASH);
    assert_eq!(outcome(&[OWN_BAR], &[0x0C, 0x48, 0x40], &X_TO_1), changed(&[0, 1], 0x80));
}

#[test]
fn a_clash_comes_before_what_is_unknown() {
    let barred = "WHEN x *= 1 IF NOT z *= 1 THEN z := 1;";
    assert_eq!(outcome(&[barred], &ZEROS, &X_TO_1), UNKNOWN);
    assert_eq!(outcome(&[barred, H], &ZEROS, &X_TO_1), CLASH);
    assert_eq!(outcome(&[H, barred], &ZEROS, &X_TO_1), CLASH);
    let late = [barred, A, "WHEN z *= 1 IF TRUE THEN z := 0;"];
    assert_eq!(outcome(&late, &ZEROS, &X_TO_1), CLASH);
}

#[test]
fn files_with_strata_get_the_strata_response() {
    let entries: [(&[&str], [u8; 3], [u8; 2]); 6] = [
        (&[A], ZEROS, X_TO_1),
        (&[B], ZEROS, X_TO_1),
        (&[A, B], ZEROS, X_TO_1),
        (&[D, E], ZEROS, Y_TO_1),
        (&[A, B], EMPTY, X_TO_1),
        (&[A], ZEROS, [0x04, 0x02]),
    ];
    for (rules, card, slip) in entries {
        let theirs = given(&mut Second, &read(&text(rules)).unwrap(), &card, &slip);
        assert_eq!((theirs.refused, by_marks(rules, &card, &slip)), (None, theirs.clone()), "{rules:?}");
    }
    assert_eq!(outcome(&[], &ZEROS, &X_TO_1), changed(&[0], 0));
    assert_eq!(given_by(&mut Second, Way::Marks, &read_unlayered(b"").unwrap(), &[0], &[0]).refused, None);
}

/// The table of rules with some strata.
fn carrying(rules: &[&str], strata: &[u16]) -> Box<Table> {
    let mut table = read_unlayered(&text(rules)).unwrap();
    table.rules.iter_mut().zip(strata).for_each(|(rule, number)| rule.stratum = *number);
    table
}

#[test]
fn a_table_has_stratum_0_throughout_or_the_least() {
    let number = |table: &Table, way: Way| {
        let slip = if way == Way::Marks { X_TO_1 } else { Y_TO_1 };
        given_by(&mut Second, way, table, &ZEROS, &slip).refused.map_or(0, |why| why.number)
    };
    let numbers =
        |rules: &[&str], strata: &[u16]| [Way::Marks, Way::Strata].map(|way| number(&carrying(rules, strata), way));
    assert_eq!(numbers(&[D, E], &[0, 0]), [0, 31]);
    assert_eq!(numbers(&[D, E], &[2, 1]), [0, 0]);
    for strata in [[0, 1], [2, 0], [1, 1], [1, 2], [3, 1], [3, 2], [255, 255], [258, 257], [256, 256]] {
        assert_eq!(numbers(&[D, E], &strata), [31, 31], "{strata:?}");
    }
    assert_eq!(numbers(&EITHER, &[0, 0]), [42, 31]);
    for strata in [[1, 1], [1, 2], [0, 1], [1, 0]] {
        assert_eq!(numbers(&EITHER, &strata), [31, 31], "{strata:?}");
    }
    assert_eq!(numbers(&[], &[]), [0, 0]);
    let zeros = carrying(&[D, E], &[0, 0]);
    assert_eq!(Second.unpack_card(&zeros, &ZEROS), Err(refusal(31, 0)));
    assert_eq!(Second.unpack_slip(&zeros, &X_TO_1), Err(refusal(31, 0)));
    assert_eq!(Second.pack_card(&zeros, &[1, 1, 1], &mut [0; 3]), Err(refusal(31, 0)));
    assert_eq!(Second.pack_slip(&zeros, &[(0, 1)], &mut [0; 3]), Err(refusal(31, 0)));
}

#[test]
fn reading_without_18_keeps_10_to_17() {
    assert_eq!(read_unlayered(&text(&[A, "WHEN x *= 1 IF NOT z *= 1 THEN z := 1"])).err(), Some(refusal(12, 1)));
    assert_eq!(read_unlayered(&vec![b' '; 262_145]).err(), Some(refusal(10, 0)));
    let table = read_unlayered(&text(&[D, E])).unwrap();
    assert_eq!([table.rules[0].stratum, table.rules[1].stratum, table.rules[2].stratum], [0; 3]);
    let mut layered = read(&text(&[D, E])).unwrap();
    layered.rules.iter_mut().for_each(|rule| rule.stratum = 0);
    assert!(*table == *layered);
}

/// The response by marks under some rules to an editor with a record, with outputs of some lengths: the record after it and the result.
fn response(rules: &[&str], tally: (u32, u32), card: &[u8], rooms: [usize; 3]) -> ((u32, u32), Result<usize, Refusal>) {
    let (mut new, mut changes, mut fired) = (vec![7; rooms[0]], vec![7; rooms[1]], vec![7; rooms[2]]);
    let outputs = Outputs { card: &mut new, changes: &mut changes, fired: &mut fired };
    let mut records = fresh();
    records[39] = Tally { answered: tally.0, refused: tally.1 };
    let table = read_unlayered(&text(rules)).unwrap();
    let caller = Caller { records: &mut records, editor: 40 };
    let result = Second.respond(Way::Marks, &table, caller, card, &X_TO_1, outputs);
    let kept = [new, changes, fired].concat().iter().all(|byte| *byte == 7);
    assert_eq!(kept, result.is_err());
    ((records[39].answered, records[39].refused), result)
}

#[test]
fn clash_and_unknown_come_last_and_are_counted() {
    let rooms = [3, 37, 1];
    assert_eq!(response(&[H], (9_999, 0), &ZEROS, rooms), ((9_999, 0), Err(refusal(32, 0))));
    assert_eq!(response(&[H], (0, 9_999), &ZEROS, rooms), ((0, 9_999), Err(refusal(32, 0))));
    assert_eq!(response(&[H], (9_998, 9_998), &ZEROS, rooms), ((9_998, 9_999), Err(refusal(41, 0))));
    assert_eq!(response(&[OWN_BAR], (4, 5), &ZEROS, rooms), ((4, 6), Err(refusal(42, 0))));
    assert_eq!(response(&[H], (0, 0), &[0x0C, 0x44, 0x41], [0; 3]), ((0, 1), Err(refusal(23, 0))));
    assert_eq!(response(&[H], (0, 0), &ZEROS, [2, 36, 0]), ((0, 1), Err(refusal(30, 1))));
    assert_eq!(response(&[OWN_BAR], (0, 0), &ZEROS, [3, 36, 0]), ((0, 1), Err(refusal(30, 2))));
    assert_eq!(response(&[OWN_BAR], (0, 0), &ZEROS, [3, 37, 0]), ((0, 1), Err(refusal(30, 3))));
    assert_eq!(response(&[A], (4, 5), &ZEROS, rooms), ((5, 5), Ok(3)));
}

/// False, unknown and true as 0, 1 and 2.
fn number(truth: Truth) -> u8 {
    match truth {
        Truth::False => 0,
        Truth::Unknown => 1,
        Truth::True => 2,
    }
}

/// All lists of so many truths.
fn lists(length: usize) -> Vec<Vec<Truth>> {
    let longer =
        |list: Vec<Truth>| [Truth::True, Truth::False, Truth::Unknown].map(|truth| [&list[..], &[truth]].concat());
    (0..length).fold(vec![Vec::new()], |lists, _| lists.into_iter().flat_map(longer).collect())
}

/// All orders of a list.
fn orders(list: &[Truth]) -> Vec<Vec<Truth>> {
    let Some((first, rest)) = list.split_first() else {
        return vec![Vec::new()];
    };
    let placed = |order: Vec<Truth>| {
        (0..=order.len()).map(move |at| [&order[..at], &[*first], &order[at..]].concat()).collect::<Vec<_>>()
    };
    orders(rest).into_iter().flat_map(placed).collect()
}

#[test]
fn and_is_the_smaller_in_any_order_and_not_is_two_minus() {
    for list in (0..6).flat_map(lists) {
        let least = list.iter().map(|truth| number(*truth)).min().unwrap_or(2);
        assert!(orders(&list).into_iter().all(|order| number(and(order)) == least), "{list:?}");
    }
    assert!([Truth::True, Truth::False, Truth::Unknown]
        .into_iter()
        .all(|truth| number(not(truth)) == 2 - number(truth)));
}

#[test]
fn orders_of_selection_and_firing_orders_agree_with_the_response() {
    let mut counts = MarkCounts::default();
    (1..=8_000).for_each(|seed| check_small(&mut Second, seed, &mut counts).unwrap());
    println!("{counts:?}");
    for outcomes in [&counts.circled, &counts.layered] {
        assert!(outcomes.answers > 200 && outcomes.clashes > 100 && outcomes.unknowns > 100, "{counts:?}");
    }
    assert!(counts.strict.answers > 200 && counts.strict.clashes > 100 && counts.strict.unknowns == 0, "{counts:?}");
    let seldom = [
        counts.conflicting_orders,
        counts.clashes_with_unknown,
        counts.unknown_answered,
        counts.unknown_conflicts,
        counts.by_chance,
    ];
    assert!(seldom.iter().all(|count| *count >= 10) && counts.all_orders > 3_000, "{counts:?}");
    assert!(counts.moved > 1_000, "{counts:?}");
    let kinds = [
        Kind::MarkWithdrawn,
        Kind::MarkWithdrawnByRule,
        Kind::MarkWoken,
        Kind::NoneRuledOut,
        Kind::NoneClashes,
        Kind::NoneUnknown,
    ];
    assert!(kinds.iter().all(|kind| counts.kinds.get(kind) >= Some(&10)), "{counts:?}");
}

#[test]
fn broken_responses_are_not_what_the_orders_come_to() {
    let faults = [
        Fault::UnlayeredCircle,
        Fault::UnlayeredLayered,
        Fault::ZeroTaken,
        Fault::LayeredRefused,
        Fault::RivalsUnknown,
        Fault::SlipRivalsUnknown,
        Fault::UnknownAsFalse,
        Fault::UnknownLiteralFalse,
        Fault::UnknownNotTrue,
        Fault::UnknownAndFalse,
        Fault::FalseAndUnknown,
        Fault::TrueAndUnknown,
        Fault::HadByMark,
        Fault::EmptyByMark,
        Fault::MarkedNeverNone,
        Fault::NoneUnmarked,
        Fault::NoneNoRival,
        Fault::NoneWithoutRivals,
        Fault::EmptyRuledOut,
        Fault::AssignerUnseen,
        Fault::TriggerUnseen,
        Fault::UnassignedOnly,
        Fault::RuledOutOnce,
        Fault::UnfoundedSets,
        Fault::MarkedIdle,
        Fault::ClashIgnored,
        Fault::UnknownBeforeClash,
        Fault::UnknownNegative,
        Fault::UnknownNamed,
        Fault::ClashAsConflict,
        Fault::MarksByStrata,
    ];
    for fault in faults {
        let fails = |seed: u64| check_small(&mut Broken::new(fault), seed, &mut MarkCounts::default()).is_err();
        assert!((1..1_000).any(fails), "{fault:?}");
    }
}
