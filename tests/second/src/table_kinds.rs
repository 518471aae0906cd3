//! The kinds of a table by its strata.

use crate::kinds::{holding, is_chained, rounds, size, without_none, Kind};
use crate::other_strata::{each_number, falling};
use crate::strata::{least, waits};
use crate::table::Table;
use crate::table31::unlayered;

/// The kinds of a table by its strata, where nothing else is 31.
pub fn table_kinds(table: &Table) -> Vec<Kind> {
    let program = match unlayered(table) {
        Ok(program) => program,
        Err(_) => return Vec::new(),
    };
    let (waits, given) = (waits(&program.rules), &program.strata);
    let rounds = rounds(&waits);
    let zero = given.contains(&0);
    let wanted = match least(&waits) {
        Some(numbers) => numbers,
        None => return holding(&[(Kind::Zero, zero), (Kind::Circled, !zero)]),
    };
    let (right, chained) = (*given == wanted, is_chained(&waits));
    let strata = each_number(&program, |number, asked| number >= asked);
    let exact = each_number(&program, |number, asked| number == asked);
    let wrong: Vec<usize> = (0..given.len()).filter(|at| given[*at] != wanted[*at]).collect();
    let one_lower = |at: &usize| given[*at] > 0 && wanted[*at].checked_sub(given[*at]) == Some(1);
    let both_two = |at: &usize| size(&rounds[*at]) == 2 && (wanted[*at], given[*at]) == (1, 2);
    holding(&[
        (Kind::ChainLeast, right && chained),
        (Kind::ChainHigher, strata && !right && chained),
        (Kind::BothTwo, strata && wrong.len() == 2 && wrong.iter().all(both_two)),
        (Kind::CircleLifted, exact && !right),
        (Kind::CircleLiftedAbove, exact && wrong.iter().any(|at| wanted[*at] > 1)),
        (Kind::Gap, strata && !exact),
        (Kind::Falling, !right && least(&falling(&waits)).as_ref() == Some(given)),
        (Kind::NoneUnbound, !right && without_none(&program.rules).as_ref() == Ok(given)),
        (Kind::LastBytesAlike, !right && given.iter().zip(&wanted).all(|(given, wanted)| given % 256 == wanted % 256)),
        (Kind::GreatestNumber, given.contains(&u16::MAX)),
        (Kind::OneTooLow, wrong.len() == 1 && wrong.iter().all(one_lower)),
        (Kind::Zero, zero),
    ])
}
