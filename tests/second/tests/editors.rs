//! The records of editors: section 4 of document 02, by both responses and in the program.

use second::broken::Broken;
use second::compare::{compare_seeds, Seed};
use second::editors::{fresh, Caller, Tally, EDITORS};
use second::engine::{Engine, Second, Way};
use second::fault::Fault;
use second::listing::listing;
use second::program_cases::{A, B, H, SLOTS, X_TO_1, ZEROS};
use second::read::read;
use second::response::Outputs;
use second::table::Table;
use second::{refusal, Refusal};

const WAYS: [Way; 2] = [Way::Strata, Way::Marks];

/// The table of the three slots and some rules.
fn table(rules: &[&str]) -> Box<Table> {
    read(format!("{SLOTS}\n{}\n", rules.join("\n")).as_bytes()).unwrap()
}

/// A record.
fn tally(answered: u32, refused: u32) -> Tally {
    Tally { answered, refused }
}

/// The response of a way to an editor; outputs change exactly where it is answered.
fn respond(way: Way, table: &Table, records: &mut [Tally], editor: usize, card: &[u8]) -> Result<usize, Refusal> {
    let (mut new, mut changes, mut fired) = ([7; 3], [7; 37], [7; 1]);
    let outputs = Outputs { card: &mut new, changes: &mut changes, fired: &mut fired };
    let result = Second.respond(way, table, Caller { records, editor }, card, &X_TO_1, outputs);
    assert_eq!(new == [7; 3] && changes == [7; 37] && fired == [7; 1], result.is_err());
    result
}

#[test]
fn forty_four_comes_first_and_changes_nothing() {
    let mut unsound = table(&[A]);
    unsound.rules[0].stratum = 9;
    let full = tally(9_999, 9_999);
    for way in WAYS {
        for (length, editor) in [(40, 0), (40, 41), (40, 255), (40, 256), (40, 297), (40, 1 << 32), (40, usize::MAX)] {
            let mut records = vec![full; length];
            assert_eq!(respond(way, &unsound, &mut records, editor, &[]), Err(refusal(44, 0)), "{editor}");
            assert_eq!(records, vec![full; length]);
        }
        for length in [0, 1, 39, 41, 80] {
            for editor in [0, 1, 39, 40, 41, 80] {
                let mut records = vec![tally(1, 2); length];
                assert_eq!(respond(way, &table(&[A]), &mut records, editor, &ZEROS), Err(refusal(44, 0)), "{length}");
                assert_eq!(records, vec![tally(1, 2); length]);
            }
        }
    }
}

#[test]
fn an_editors_slip_changes_that_editors_record_alone() {
    let before: Vec<Tally> = (0..EDITORS as u32).map(|at| tally(at, 100 + at)).collect();
    for way in WAYS {
        for editor in 1..=EDITORS {
            let own = before[editor - 1];
            let conflict = if way == Way::Strata { 40 } else { 41 };
            for (rules, card, wanted, after) in [
                (A, &ZEROS[..], Ok(3), tally(own.answered + 1, own.refused)),
                (H, &ZEROS, Err(refusal(conflict, 0)), tally(own.answered, own.refused + 1)),
                (A, &[], Err(refusal(20, 0)), tally(own.answered, own.refused + 1)),
            ] {
                let mut records = before.clone();
                assert_eq!(respond(way, &table(&[rules]), &mut records, editor, card), wanted);
                let mut expected = before.clone();
                expected[editor - 1] = after;
                assert_eq!(records, expected);
            }
        }
    }
}

#[test]
fn thirty_two_looks_at_the_callers_record_alone() {
    let rules = table(&[A]);
    for way in WAYS {
        for own in [tally(9_999, 0), tally(0, 9_999), tally(10_000, 65_535)] {
            let mut records = fresh();
            records[14] = own;
            let before = records.clone();
            assert_eq!(respond(way, &rules, &mut records, 15, &[]), Err(refusal(32, 0)));
            assert_eq!(records, before);
        }
        let mut records = vec![tally(9_999, 9_999); EDITORS];
        records[14] = tally(9_998, 9_998);
        assert_eq!(respond(way, &rules, &mut records, 15, &ZEROS), Ok(3));
        assert_eq!(records[14], tally(9_999, 9_998));
        assert_eq!(respond(way, &rules, &mut records, 15, &ZEROS), Err(refusal(32, 0)));
        records[14] = tally(9_998, 9_998);
        assert_eq!(respond(way, &rules, &mut records, 15, &[]), Err(refusal(20, 0)));
        assert_eq!(records[14], tally(9_998, 9_999));
        records[14] = tally(9_999, 9_999);
        assert_eq!(records, vec![tally(9_999, 9_999); EDITORS]);
    }
}

/// All orders of some calls by editor and card in which those of each editor keep their own.
fn orders<'a>(calls: &[(usize, &'a [u8])]) -> Vec<Vec<(usize, &'a [u8])>> {
    if calls.is_empty() {
        return vec![Vec::new()];
    }
    let is_first = |at: &usize| calls[..*at].iter().all(|call| call.0 != calls[*at].0);
    let starting = |at: usize| {
        let rest = [&calls[..at], &calls[at + 1..]].concat();
        let longer = |order: Vec<(usize, &'a [u8])>| [vec![calls[at]], order].concat();
        orders(&rest).into_iter().map(longer).collect::<Vec<_>>()
    };
    (0..calls.len()).filter(is_first).flat_map(starting).collect()
}

#[test]
fn a_day_ends_alike_in_every_order_that_keeps_each_editors_own() {
    let rules = table(&[A]);
    let calls: [(usize, &[u8]); 8] =
        [(1, &ZEROS), (1, &[]), (2, &ZEROS), (2, &ZEROS), (40, &[]), (40, &ZEROS), (0, &ZEROS), (1, &ZEROS)];
    let mut start = fresh();
    start[0] = tally(9_998, 9_998);
    start[39] = tally(3, 9_998);
    for way in WAYS {
        let ends = orders(&calls).into_iter().map(|order| {
            let mut records = start.clone();
            for (editor, card) in order {
                let _ = respond(way, &rules, &mut records, editor, card);
            }
            records
        });
        let mut wanted = start.clone();
        wanted[0] = tally(9_999, 9_998);
        wanted[1] = tally(2, 0);
        wanted[39] = tally(3, 9_999);
        let ends: Vec<Vec<Tally>> = ends.collect();
        assert_eq!(ends.len(), 8 * 7 * 6 * 5 * 4 * 3 * 2 / (6 * 2 * 2));
        assert!(ends.into_iter().all(|records| records == wanted));
    }
}

#[test]
fn the_program_refuses_an_editors_file_before_it_reads_the_rules() {
    let text = format!("{SLOTS}{A}{B}");
    let printed = |text: &str, card: &[u8], editor: &[u8]| listing(text.as_bytes(), card, &X_TO_1, editor);
    for editor in [1, 15, 40] {
        let last = format!("card 0C8880\ntally {editor} 1 0\n");
        assert!(printed(&text, &ZEROS, &[editor]).ends_with(&last));
    }
    for editor in [&[][..], &[0], &[41], b"1", &[255], &[7, 7], b"\x07\n", &[0, 7], &[7; 40]] {
        for (text, card) in [(&text[..], &ZEROS[..]), ("(", &ZEROS), (&" ".repeat(65_536), &[]), (&text, &[])] {
            assert_eq!(printed(text, card, editor), "refused 44 0\n");
        }
    }
    assert_eq!(printed("(", &ZEROS, &[40]), "refused 11 0\n");
    assert_eq!(printed(&text, &[], &[40]), "refused 20 0\n");
    assert_eq!(printed(&format!("{SLOTS}{H}"), &ZEROS, &[40]), "refused 40 0\n");
}

#[test]
fn faults_of_editors_show_within_few_seeds() {
    let faults = [
        Fault::FirstCounted,
        Fault::NextCounted,
        Fault::NextCountedToo,
        Fault::AllCounted,
        Fault::RefusedAsAnswered,
        Fault::FullByFirst,
        Fault::FullByNext,
        Fault::FullByAny,
        Fault::FullByAll,
        Fault::FullTogether,
        Fault::FullStartsAnew,
        Fault::ClearedOnFull,
        Fault::NoEditorCounted,
        Fault::ClearedWithoutEditor,
        Fault::EditorNamed,
        Fault::EditorAfterFull,
        Fault::EditorAfterTable,
        Fault::LongerTaken,
        Fault::ShorterTaken,
        Fault::NoNumberAsFirst,
        Fault::NumbersAround,
        Fault::NumberCut,
        Fault::NumbersFromNone,
        Fault::LastNumberRefused,
    ];
    for fault in faults {
        let (failing, tried) = compare_seeds(&mut Broken::new(fault), Seed::Any, 1, 200);
        assert!(failing.is_some(), "{fault:?} is not found in {tried}");
    }
}
