//! Strata, the rule that 18 names and the test 31 with one fault.

use crate::fault::Fault;
use crate::other_strata::{each_number, falling, on_any_circle, on_simple_circle};
use crate::rule_set::RuleSet;
use crate::strata::{least, on_circle, reached, waits, Waits};
use crate::table::{Literal, LiteralPlace, Program, Rule, Table, NONE, RULES, VALUES};
use crate::table31::{named_pairs, tested, tested_for_marks, unlayered};
use crate::{refusal, Refusal};

/// The rules as the fault's strata see them.
fn bent_rules(fault: Fault, rules: &[Rule]) -> Vec<Rule> {
    let mut bent = rules.to_vec();
    if fault == Fault::WasBinds {
        bent.iter_mut().flat_map(|rule| rule.literals.iter_mut()).for_each(|literal| literal.becomes = true);
    }
    for rule in &mut bent {
        match fault {
            Fault::TriggerFree => rule.trigger = (u8::MAX, 0),
            Fault::TriggerFalls => {
                rule.literals.push(Literal { becomes: true, negated: true, pair: rule.trigger });
            }
            Fault::NoneFree => {
                rule.literals.retain(|literal| literal.pair.1 != NONE);
                if rule.trigger.1 == NONE {
                    rule.trigger.0 = u8::MAX;
                }
            }
            Fault::SlotsBind => {
                rule.trigger.1 = 1;
                rule.literals.iter_mut().for_each(|literal| literal.pair.1 = 1);
                rule.assignments.iter_mut().for_each(|pair| pair.1 = 1);
            }
            _ => {}
        }
    }
    bent
}

/// The rules that each rule waits for by the fault.
fn bent_waits(fault: Fault, rules: &[Rule]) -> Vec<Waits> {
    let mut waits = waits(&bent_rules(fault, rules));
    match fault {
        Fault::PlainFalls => waits = falling(&waits),
        Fault::NegatedLevel => {
            waits.iter_mut().for_each(|waits| *waits = Waits { plain: waits.all(), negated: RuleSet::default() })
        }
        Fault::OwnNotFree => {
            for (at, waits) in waits.iter_mut().enumerate() {
                waits.negated = waits.negated.positions().filter(|other| *other != at).collect();
            }
        }
        _ => {}
    }
    waits
}

/// The lowest of the rules that a circle through a NOT comes to, or of those that come to one, by their positions.
fn beside_circle(waits: &[Waits], before: bool) -> usize {
    let (reached, circle) = (reached(waits), on_circle(waits));
    let beside =
        |at: &usize| circle.iter().any(|on| if before { reached[*on].has(*at) } else { reached[*at].has(*on) });
    (0..waits.len()).find(beside).expect("rules on a circle are beside it")
}

/// The rule that 18 names, from 1.
fn circle_rule(fault: Fault, waits: &[Waits]) -> usize {
    let circle = on_circle(waits);
    let reached = reached(waits);
    let own_not = |at: &usize| waits[*at].negated.positions().any(|other| reached[other].has(*at));
    let at = match fault {
        Fault::HighestOnCircle => circle[circle.len() - 1],
        Fault::BehindCircle => beside_circle(waits, false),
        Fault::BeforeCircle => beside_circle(waits, true),
        Fault::LowestOnAnyCircle => on_any_circle(waits)[0],
        Fault::SimpleCircles => on_simple_circle(waits)[0],
        Fault::OwnNotOnly => (0..waits.len()).find(own_not).expect("a circle through a NOT has a rule with that NOT"),
        _ => circle[0],
    };
    if fault == Fault::CircleRuleCut {
        (at + 1) % 256
    } else {
        at + 1
    }
}

/// The stratum that the fault has for a right one.
fn bent_number(fault: Fault, number: u16) -> u16 {
    match fault {
        Fault::StrataTooHigh => number + 1,
        Fault::StrataCut => number % 256,
        Fault::StrataHeld => number.min(255),
        _ => number,
    }
}

/// The strata by the fault, or the rule that 18 names.
pub fn strata(fault: Fault, rules: &[Rule]) -> Result<Vec<u16>, usize> {
    let waits = bent_waits(fault, rules);
    let refused = match fault {
        Fault::NoStrata => (!rules.is_empty()).then_some(0),
        Fault::PlainCircleRefused => on_any_circle(&waits).first().copied(),
        Fault::OwnTestRefused => (0..rules.len()).find(|at| waits[*at].plain.has(*at)),
        _ => None,
    };
    match (refused, least(&waits)) {
        (Some(at), _) => Err(at + 1),
        (None, None) => Err(circle_rule(fault, &waits)),
        (None, Some(numbers)) => Ok(numbers.into_iter().map(|number| bent_number(fault, number)).collect()),
    }
}

/// Whether some used rule has an unused literal place that is not zero.
fn unused_literals(table: &Table) -> bool {
    let zero = LiteralPlace::default();
    let used = table.rules.iter().take(table.count.into());
    used.flat_map(|rule| rule.literals.iter().skip(rule.tested.into())).any(|place| *place != zero)
}

/// Whether a program names NONE where the fault does not take it.
fn none_refused(fault: Fault, program: &Program) -> bool {
    let mut rules = program.rules.iter();
    match fault {
        Fault::NoneTriggerLacking => rules.any(|rule| rule.trigger.1 == NONE),
        Fault::NoneTestLacking => rules.any(|rule| rule.literals.iter().any(|literal| literal.pair.1 == NONE)),
        Fault::NoneAssignmentLacking => rules.any(|rule| rule.assignments.iter().any(|pair| pair.1 == NONE)),
        _ => named_pairs(&program.rules)
            .any(|(slot, value)| value == NONE && usize::from(program.lasts[usize::from(slot)]) == VALUES),
    }
}

/// The program of a table, or 31, its strata not looked at, with a fault.
fn bent_program(fault: Fault, table: &Table) -> Result<Program, Refusal> {
    let most = RULES as u16;
    if fault == Fault::CountHeld && table.count > most {
        return unlayered(&Table { count: most, ..*table });
    }
    unlayered(table)
}

/// The test 31 with a fault.
pub fn program(fault: Fault, table: &Table) -> Result<Program, Refusal> {
    let program = bent_program(fault, table)?;
    let passes = match fault {
        Fault::StrataUntested => true,
        Fault::AnyStrata => each_number(&program, |number, asked| number >= asked),
        Fault::EachAsAsked => each_number(&program, |number, asked| number == asked),
        Fault::FallingStrata => {
            let falling = least(&falling(&waits(&program.rules)));
            tested(table).is_ok() || falling.as_ref() == Some(&program.strata)
        }
        Fault::ZeroStratum => {
            let ones: Vec<u16> = program.strata.iter().map(|number| *number.max(&1)).collect();
            strata(fault, &program.rules) == Ok(ones)
        }
        Fault::StrataByLastByte => {
            let numbers = least(&waits(&program.rules)).unwrap_or_default();
            let alike = |(number, given): (&u16, &u16)| number % 256 == given % 256;
            numbers.len() == program.strata.len() && numbers.iter().zip(&program.strata).all(alike)
        }
        Fault::ZeroTaken => tested_for_marks(table).is_ok(),
        Fault::UnusedTested => tested(table).is_ok() && !unused_literals(table),
        Fault::NoAssignments => tested(table).is_ok() && program.rules.iter().all(|rule| !rule.assignments.is_empty()),
        Fault::NoneTriggerLacking | Fault::NoneTestLacking | Fault::NoneAssignmentLacking | Fault::NoneCounted => {
            tested(table).is_ok() && !none_refused(fault, &program)
        }
        _ => strata(fault, &program.rules).as_ref() == Ok(&program.strata),
    };
    if passes {
        Ok(program)
    } else {
        Err(refusal(31, 0))
    }
}
