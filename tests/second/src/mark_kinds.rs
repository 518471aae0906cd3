//! The kinds of a response by marks and of the tables it is asked with.

use crate::broken_firing;
use crate::cards::{unpack_card, unpack_slip};
use crate::fault::Fault;
use crate::kinds::{holding, Kind};
use crate::marks::{decided, is_true, open_pairs, selection, Mark, Moment};
use crate::none_kinds::mark_withdrawal_kinds;
use crate::response::{conflict, enabled, fire};
use crate::strata::{least, on_circle, waits};
use crate::table::{Pair, Program, Table};
use crate::table31::{tested_for_marks, unlayered};

/// How many passes over the pairs rule one out, where every rule that may be fired is fired before each; and whether a pass after the first does so for the sake of a rule that fired since.
fn passes(program: &Program, card: &[u8], slip: &[Pair]) -> (usize, bool) {
    let rules = &program.rules;
    let mut moment = Moment::start(program, slip);
    let (mut passes, mut by_firing) = (0, false);
    loop {
        let before = moment.marks.clone();
        for at in 0..rules.len() {
            if moment.may_fire(rules, card, at) && is_true(card, &before, &rules[at]) {
                moment.fire(rules, at);
            }
        }
        let open = open_pairs(rules, card, &moment.marks);
        let without_firing = open_pairs(rules, card, &before);
        by_firing |= open.iter().any(|pair| !without_firing.contains(pair));
        if moment.clash || open.is_empty() && moment.marks == before {
            return (passes, by_firing);
        }
        passes += usize::from(!open.is_empty());
        open.into_iter().for_each(|pair| moment.rule_out(pair));
    }
}

/// The kinds of a response by marks, where it comes to marks.
pub fn mark_kinds(table: &Table, card: &[u8], slip: &[u8]) -> Vec<Kind> {
    let unpacked = tested_for_marks(table).and_then(|program| {
        let (card, slip) = (unpack_card(&program, card)?, unpack_slip(&program, slip)?);
        Ok((program, card, slip))
    });
    let (program, card, slip) = match unpacked {
        Ok(unpacked) => unpacked,
        Err(_) => return Vec::new(),
    };
    let end = selection(&program, &card, &slip);
    let number = decided(&end).map_or_else(|why| why.number, |_| 0);
    let unknown = end.marks.with(Mark::Unknown);
    let waits = waits(&program.rules);
    let circle = on_circle(&waits);
    let circled = !circle.is_empty();
    let unordered = broken_firing::fire(Fault::NumberOrder, &program, &card, &slip);
    let by_strata = least(&waits).map(|strata| {
        let layered = Program { strata, ..program.clone() };
        conflict(&fire(&layered, &slip, |changes, rule| enabled(&card, changes, rule)).changes).is_some()
    });
    let (passes, by_firing) = passes(&program, &card, &slip);
    let by_circles = holding(&[
        (Kind::CircleAnswered, number == 0 && circled),
        (Kind::CircleFired, number == 0 && end.fired.iter().any(|at| circle.contains(at))),
        (Kind::OrderConflicts, number == 0 && conflict(&unordered.changes).is_some()),
        (Kind::CircleClashes, number == 41 && circled),
        (Kind::LayeredClashes, number == 41 && !circled),
        (Kind::ClashWithUnknown, number == 41 && !unknown.is_empty()),
        (Kind::CircleUnknown, number == 42 && circled),
        (Kind::UnknownAnswered, number == 42 && by_strata == Some(false)),
        (Kind::UnknownConflict, number == 42 && by_strata == Some(true)),
        (Kind::OutByFiring, by_firing),
        (Kind::OutLate, passes >= 4),
        (Kind::OutVeryLate, passes >= 30),
    ]);
    [by_circles, mark_withdrawal_kinds(&program, &card, &slip, &end, number)].concat()
}

/// The kinds of a table by its strata, where nothing else is 31.
pub fn mark_table_kinds(table: &Table) -> Vec<Kind> {
    let program = match unlayered(table) {
        Ok(program) => program,
        Err(_) => return Vec::new(),
    };
    let least = least(&waits(&program.rules));
    let zeros = program.strata.iter().filter(|number| **number == 0).count();
    let is_least = |(number, least): (&u16, &u16)| *number == 0 || number == least;
    let fits = least.as_ref().map_or(false, |least| program.strata.iter().zip(least).all(is_least));
    let rules = program.rules.len();
    holding(&[
        (Kind::NoRules, rules == 0),
        (Kind::ZeroLayered, rules > 0 && zeros == rules && least.is_some()),
        (Kind::ZeroCircled, rules > 0 && zeros == rules && least.is_none()),
        (Kind::Least, rules > 0 && zeros == 0 && fits),
        (Kind::ZeroMixed, zeros > 0 && zeros < rules && fits),
        (Kind::OtherNumbers, zeros < rules && !fits),
    ])
}
