//! Preconditions and firing with one fault.

use std::collections::BTreeSet;

use crate::fault::Fault;
use crate::response::{self, conflict, Changes, Firing};
use crate::table::{Literal, Pair, Program, Rule, NONE};

/// Whether a rule is enabled by the fault.
fn enabled(fault: Fault, card: &[u8], changes: &Changes, rule: &Rule) -> bool {
    let had = |pair: &Pair| card[pair.0 as usize] == pair.1;
    let empty = |pair: &Pair| card[pair.0 as usize] == NONE;
    let trigger = Literal { becomes: true, negated: false, pair: rule.trigger };
    let holds = |literal: &Literal| match fault {
        Fault::HadBecomes if literal.becomes && had(&literal.pair) => {
            changes.contains(&literal.pair) != literal.negated
        }
        Fault::EmptyNeverBecomes if literal.becomes && empty(&literal.pair) => literal.negated,
        Fault::EmptyNeverNegated if !literal.becomes && literal.negated && empty(&literal.pair) => false,
        Fault::EmptyWithdrawn if literal.becomes && literal.pair.1 == NONE && empty(&literal.pair) => {
            changes.contains(&literal.pair) != literal.negated
        }
        Fault::NoneNeverBecomes if literal.becomes && literal.pair.1 == NONE => literal.negated,
        Fault::EmptyNeverNone if !literal.becomes && literal.pair.1 == NONE => literal.negated,
        _ => response::holds(card, changes, literal),
    };
    match fault {
        Fault::NothingFires => false,
        Fault::NothingNew if rule.assignments.iter().all(|pair| changes.contains(pair)) => false,
        Fault::FirstFalseIgnored => {
            holds(&trigger) && rule.literals.iter().filter(|literal| !holds(literal)).count() <= 1
        }
        Fault::StopsAtConflict if conflict(changes).is_some() => false,
        Fault::OwnCause => {
            let own: Changes = changes.iter().chain(&rule.assignments).copied().collect();
            response::enabled(card, &own, rule)
        }
        _ => holds(&trigger) && rule.literals.iter().all(holds),
    }
}

/// Fires rules one after another, stratum by stratum and in each by number, where they are enabled when their turn comes.
pub fn one_pass(program: &Program, card: &[u8], slip: &[Pair]) -> Firing {
    let mut order: Vec<usize> = (0..program.rules.len()).collect();
    order.sort_by_key(|at| program.strata[*at]);
    let mut firing = Firing { changes: slip.iter().copied().collect(), fired: Vec::new() };
    for at in order {
        if response::enabled(card, &firing.changes, &program.rules[at]) {
            firing.changes.extend(&program.rules[at].assignments);
            firing.fired.push(at);
        }
    }
    firing
}

/// Fires in each stratum the most rules that are all enabled once they have fired.
pub fn together(program: &Program, card: &[u8], slip: &[Pair]) -> Firing {
    let mut firing = Firing { changes: slip.iter().copied().collect(), fired: Vec::new() };
    for stratum in program.strata.iter().copied().collect::<BTreeSet<u16>>() {
        let mut kept: Vec<usize> = (0..program.rules.len()).filter(|at| program.strata[*at] == stratum).collect();
        let mut before = kept.len() + 1;
        let mut after = firing.changes.clone();
        while kept.len() < before {
            before = kept.len();
            after = firing.changes.clone();
            kept.iter().for_each(|at| after.extend(&program.rules[*at].assignments));
            kept.retain(|at| response::enabled(card, &after, &program.rules[*at]));
        }
        firing.changes = after;
        firing.fired.extend(kept);
    }
    firing
}

/// Fires the rules of a program by the fault.
pub fn fire(fault: Fault, program: &Program, card: &[u8], slip: &[Pair]) -> Firing {
    let level = Program { strata: vec![1; program.rules.len()], ..program.clone() };
    match fault {
        Fault::OnePass => one_pass(program, card, slip),
        Fault::HighRulesIdle => {
            let low = Program { rules: program.rules.iter().take(255).cloned().collect(), ..program.clone() };
            response::fire(&low, slip, |changes, rule| response::enabled(card, changes, rule))
        }
        Fault::SharedCause => together(program, card, slip),
        Fault::NumberOrder => response::fire(&level, slip, |changes, rule| response::enabled(card, changes, rule)),
        _ => response::fire(program, slip, |changes, rule| enabled(fault, card, changes, rule)),
    }
}
