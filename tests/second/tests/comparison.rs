//! The comparison finds each fault, strata and firing orders are what they are defined to be, and the program opens before it reads.

use std::collections::BTreeSet;
use std::process::Command;

use second::broken::Broken;
use second::broken_reading;
use second::compare::{compare_seeds, refusals_met, shrunk, store, Seed};
use second::engine::{Engine, Second, Way};
use second::fault::{Fault, FAULTS, LARGE_FAULTS, PROGRAM_FAULTS};
use second::firing_checks::{check_small, Counts};
use second::gen::{card, card_values, program_file, slip, slip_changes, Rng};
use second::gen_large::LARGE;
use second::gen_rules::{sketch, Ranks, Shape};
use second::listing::{listing, listing_by};
use second::orders::{complete_orders, complete_sets, consistent_ends};
use second::strata::strata;
use second::table::{Literal, Rule};

/// The seeds in which each fault must be found.
const BUDGET: u64 = 8_000;

/// The seeds in which each fault of the program must be found.
const PROGRAM_SEEDS: u64 = 2_000;

/// A small shape.
const SMALL: Shape = Shape { slots: 4, values: 2, rules: 5, literals: 2, assignments: 2, ranks: Ranks::Free };

#[test]
fn each_fault_is_found() {
    for fault in FAULTS {
        let (failing, tried) = compare_seeds(&mut Broken::new(*fault), Seed::Any, 1, BUDGET);
        let failing = failing.unwrap_or_else(|| panic!("{fault:?} is not found in {tried}"));
        println!("{fault:?}: found after {tried}, {}", failing.difference.place);
    }
}

#[test]
fn each_fault_about_the_limits_is_found_in_large_files() {
    for fault in LARGE_FAULTS {
        let (failing, tried) = compare_seeds(&mut Broken::new(*fault), Seed::Large, 1, 4 * LARGE);
        let failing = failing.unwrap_or_else(|| panic!("{fault:?} is not found in {tried}"));
        println!("{fault:?}: found after {tried}, {}", failing.difference.place);
    }
}

#[test]
fn each_fault_of_the_program_is_found() {
    for fault in PROGRAM_FAULTS {
        let differs = |seed: &u64| {
            let mut rng = Rng::new(*seed);
            let file = program_file(&mut rng, *seed);
            let (card, slip) = (card(&mut rng, &file.sketch), slip(&mut rng, &file.sketch));
            let files: [&[u8]; 4] = [&file.text, &card, &slip, &[1]];
            let read = |text: &[u8]| {
                let (refused, table) = broken_reading::read(*fault, text);
                refused.map_or(Ok(table), Err)
            };
            listing_by(read, files) != listing(&file.text, &card, &slip, &[1])
        };
        let found = (1..=PROGRAM_SEEDS).find(differs);
        println!("{fault:?}: found at {found:?}");
        assert!(found.is_some(), "{fault:?} is not found");
    }
}

#[test]
fn the_second_engine_agrees_with_itself() {
    assert!(compare_seeds(&mut Second, Seed::Any, 1, 500).0.is_none());
    assert!(compare_seeds(&mut Second, Seed::Large, 1, LARGE).0.is_none());
}

#[test]
fn every_refusal_is_met() {
    let seeds = || (1..=4_000).map(Seed::Any).chain((1..=LARGE).map(Seed::Large));
    let met = |way: Way| refusals_met(way, seeds()).into_keys().collect::<Vec<u8>>();
    let all = [0, 10, 11, 12, 13, 14, 15, 16, 17, 18, 20, 21, 22, 23, 24, 25, 26, 27, 28, 30, 31, 32, 33, 34, 40, 44];
    assert_eq!(met(Way::Strata), all);
    let all = [0, 10, 11, 12, 13, 14, 15, 16, 17, 20, 21, 22, 23, 24, 25, 26, 27, 28, 30, 31, 32, 41, 42, 44];
    assert_eq!(met(Way::Marks), all);
}

#[test]
fn a_failing_input_is_kept() {
    let fault = Fault::NumberOrder;
    let failing = compare_seeds(&mut Broken::new(fault), Seed::Any, 1, BUDGET).0.expect("the fault is found");
    let smaller = shrunk(&mut Broken::new(fault), &failing);
    assert!(smaller.text.len() <= failing.text.len());
    let folder = std::env::temp_dir().join(format!("second-kept-{}", std::process::id()));
    store(&folder, &smaller).unwrap();
    assert_eq!(std::fs::read(folder.join("rules.txt")).unwrap(), smaller.text);
    assert!(["card.bin", "slip.bin", "editor.bin", "seen.txt"].iter().all(|name| folder.join(name).exists()));
    std::fs::remove_dir_all(&folder).unwrap();
}

/// All lists of numbers from 1 to a highest.
fn numberings(count: usize, highest: u16) -> Vec<Vec<u16>> {
    if count == 0 {
        return vec![Vec::new()];
    }
    let longer = |list: Vec<u16>| (1..=highest).map(move |number| [list.clone(), vec![number]].concat());
    numberings(count - 1, highest).into_iter().flat_map(longer).collect()
}

/// Whether a rule waits for another by a plain `*=`, or by one under NOT.
fn waits(rule: &Rule, other: &Rule, negated: bool) -> bool {
    let by_trigger = !negated && other.assignments.contains(&rule.trigger);
    let tests = |literal: &Literal| literal.becomes && literal.negated == negated;
    by_trigger || rule.literals.iter().any(|literal| tests(literal) && other.assignments.contains(&literal.pair))
}

/// Whether a walk of dependence comes from a rule back to it and passes a NOT: a search over rules, each met before a NOT or after one.
fn walks_round(rules: &[Rule], start: usize) -> bool {
    let mut met = BTreeSet::new();
    let mut waiting = vec![(start, false)];
    while let Some((at, passed)) = waiting.pop() {
        for next in 0..rules.len() {
            let plain = waits(&rules[at], &rules[next], false).then_some((next, passed));
            let negated = waits(&rules[at], &rules[next], true).then_some((next, true));
            waiting.extend([plain, negated].into_iter().flatten().filter(|step| met.insert(*step)));
        }
    }
    met.contains(&(start, true))
}

#[test]
fn strata_are_the_least_numbers_that_hold() {
    let (mut layered, mut circled) = (0, 0);
    for seed in 1..600 {
        let ranks = [Ranks::Free, Ranks::Level, Ranks::Below][seed as usize % 3];
        let rules = sketch(&mut Rng::new(seed), &Shape { ranks, ..SMALL }).rules;
        let holds = |numbers: &Vec<u16>, at: usize, other: usize| {
            (numbers[other] <= numbers[at] || !waits(&rules[at], &rules[other], false))
                && (numbers[other] < numbers[at] || !waits(&rules[at], &rules[other], true))
        };
        let all = |numbers: &Vec<u16>| (0..rules.len()).all(|at| (0..rules.len()).all(|to| holds(numbers, at, to)));
        let good: Vec<Vec<u16>> = numberings(rules.len(), rules.len() as u16).into_iter().filter(all).collect();
        let lowest = (0..rules.len()).find(|at| walks_round(&rules, *at));
        match strata(&rules) {
            Err(rule) => {
                assert!(good.is_empty());
                assert_eq!(Some(rule - 1), lowest);
                circled += 1;
            }
            Ok(least) => {
                assert!(good.contains(&least));
                assert!(good.iter().all(|numbers| numbers.iter().zip(&least).all(|(number, least)| number >= least)));
                assert_eq!(lowest, None);
                layered += 1;
            }
        }
    }
    assert!(layered > 200 && circled > 50, "{layered} {circled}");
}

#[test]
fn orders_and_sets_of_fired_rules_have_the_same_ends() {
    for seed in 1..300 {
        let mut rng = Rng::new(seed);
        let sketch = sketch(&mut rng, &SMALL);
        let (card, slip) = (card_values(&mut rng, &sketch), slip_changes(&mut rng, &sketch));
        let orders = complete_orders(&sketch.rules, &card, &slip, 100_000).unwrap();
        let sets = complete_sets(&sketch.rules, &card, &slip, 100_000).unwrap();
        let ends = |moments| consistent_ends(&sketch.rules, &card, moments);
        assert_eq!(ends(&orders), ends(&sets));
    }
}

#[test]
fn firing_orders_agree_with_the_response() {
    let mut counts = Counts::default();
    (1..=8_000).for_each(|seed| check_small(&mut Second, seed, &mut counts).unwrap());
    assert!(counts.answered > 1_000 && counts.conflicts > 100 && counts.inconsistent > 0);
}

/// Whether some small file shows that an engine's response is not what the firing orders come to, or that rearranged files differ.
fn fails_demand_3(engine: &mut dyn Engine) -> bool {
    (1..1_000).any(|seed| check_small(engine, seed, &mut Counts::default()).is_err())
}

#[test]
fn broken_responses_are_not_what_the_firing_orders_come_to() {
    assert!(!fails_demand_3(&mut Second));
    let faults = [
        Fault::NothingFires,
        Fault::NumberOrder,
        Fault::OnePass,
        Fault::OwnCause,
        Fault::SharedCause,
        Fault::NothingNew,
        Fault::ConflictByOrder,
        Fault::StopsAtConflict,
        Fault::HadBecomes,
        Fault::EmptyNeverBecomes,
        Fault::EmptyWithdrawn,
        Fault::NoneNeverBecomes,
        Fault::EmptyNeverNone,
        Fault::FirstFalseIgnored,
        Fault::WithdrawalOverruled,
        Fault::WithdrawalOverrules,
        Fault::RecordReversed,
        Fault::RepeatsLeftOut,
        Fault::WithdrawalsLeftOut,
        Fault::EmptyWithdrawalsLeftOut,
        Fault::FirstOfDay,
    ];
    for fault in faults {
        assert!(fails_demand_3(&mut Broken::new(fault)), "{fault:?}");
    }
}

#[test]
fn the_first_file_that_cannot_be_opened_or_read_is_named() {
    let program = env!("CARGO_BIN_EXE_second");
    let printed =
        |names: [&str; 4]| String::from_utf8(Command::new(program).args(names).output().unwrap().stdout).unwrap();
    let null = "/dev/null";
    assert_eq!(printed(["/nowhere/r", "/nowhere/c", "/nowhere/s", "/nowhere/e"]), "unread /nowhere/r\n");
    assert_eq!(printed([null, "/nowhere/c", "/nowhere/s", "/nowhere/e"]), "unread /nowhere/c\n");
    assert_eq!(printed([null, null, "/nowhere/s", "/nowhere/e"]), "unread /nowhere/s\n");
    assert_eq!(printed([null, null, null, "/nowhere/e"]), "unread /nowhere/e\n");
    assert_eq!(printed([null, null, null, null]), "refused 44 0\n");
    assert_eq!(printed(["/", null, "/", null]), "unread /\n");
    assert_eq!(printed([null, "/dev", "/", null]), "unread /dev\n");
    assert_eq!(printed([null, null, null, "/dev"]), "unread /dev\n");
    assert_eq!(printed(["/", "/", "/nowhere/s", null]), "unread /nowhere/s\n");
    assert_eq!(printed(["/", "/", "/", "/nowhere/e"]), "unread /nowhere/e\n");
}
