//! Strata and circles by other conditions than the papers': what faults go by, and what tells kinds and changed tables apart.

use crate::rule_set::RuleSet;
use crate::strata::{asked, on_circle, waits, Waits};
use crate::table::Program;

/// The most steps of a search for circles that meet no rule twice.
const STEPS: usize = 5_000;

/// The waits in which every test is as one under NOT.
pub fn falling(waits: &[Waits]) -> Vec<Waits> {
    waits.iter().map(|waits| Waits { plain: RuleSet::default(), negated: waits.all() }).collect()
}

/// The positions of the rules on a circle of any kind, rising.
pub fn on_any_circle(waits: &[Waits]) -> Vec<usize> {
    on_circle(&falling(waits))
}

/// Searches on from the end of a path for the rules that lead to a last one without meeting a rule twice; false where the steps run out.
fn search(waits: &[Waits], path: &mut Vec<usize>, last: usize, found: &mut RuleSet, steps: &mut usize) -> bool {
    let at = path[path.len() - 1];
    if at == last {
        path.iter().for_each(|on| found.put(*on));
        return true;
    }
    for next in waits[at].all().positions() {
        if path.contains(&next) {
            continue;
        }
        if *steps == 0 {
            return false;
        }
        *steps -= 1;
        path.push(next);
        let whole = search(waits, path, last, found, steps);
        path.pop();
        if !whole {
            return false;
        }
    }
    true
}

/// The positions of the rules on a circle through a NOT that meets no rule twice, rising; where there are too many walks to try, of those that may meet one twice.
pub fn on_simple_circle(waits: &[Waits]) -> Vec<usize> {
    let (mut found, mut steps) = (RuleSet::default(), STEPS);
    for (at, from) in waits.iter().enumerate() {
        for next in from.negated.positions() {
            if !search(waits, &mut vec![next], at, &mut found, &mut steps) {
                return on_circle(waits);
            }
        }
    }
    found.positions().collect()
}

/// Whether each number of a program compares so with the one that its rule needs by the others.
pub fn each_number(program: &Program, compares: impl Fn(usize, usize) -> bool) -> bool {
    let numbers: Vec<usize> = program.strata.iter().map(|number| usize::from(*number)).collect();
    waits(&program.rules).iter().zip(&numbers).all(|(waits, number)| compares(*number, asked(waits, &numbers)))
}
