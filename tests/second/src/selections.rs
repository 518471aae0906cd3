//! All orders of selection of a small file: at each moment a rule that may be fired is fired, or a pair that may be ruled out is; a clash ends an order.

use std::collections::BTreeSet;

use crate::gen::Rng;
use crate::marks::{may_rule_out, Mark, Marks, Moment};
use crate::rule_set::RuleSet;
use crate::table::{Pair, Program};

/// One choice of an order of selection: a rule is fired, by its position, or a pair is ruled out.
#[derive(Clone, Copy, PartialEq, Eq, Debug)]
enum Choice {
    Fires(usize),
    RulesOut(Pair),
}

/// The choices at a moment, none after a clash.
fn choices(program: &Program, card: &[u8], moment: &Moment) -> Vec<Choice> {
    if moment.clash {
        return Vec::new();
    }
    let rules = &program.rules;
    let fires = (0..rules.len()).filter(|at| moment.may_fire(rules, card, *at)).map(Choice::Fires);
    let unknown = moment.marks.with(Mark::Unknown).into_iter();
    let out = unknown.filter(|pair| may_rule_out(rules, card, &moment.marks, *pair)).map(Choice::RulesOut);
    fires.chain(out).collect()
}

/// The moment after a choice.
fn after(program: &Program, moment: &Moment, choice: Choice) -> Moment {
    let mut after = moment.clone();
    match choice {
        Choice::Fires(at) => after.fire(&program.rules, at),
        Choice::RulesOut(pair) => after.rule_out(pair),
    }
    after
}

/// What an order ends in: a clash, or marks and fired rules.
#[derive(Clone, PartialEq, Eq, PartialOrd, Ord, Debug)]
pub enum End {
    Clash,
    Marks(Marks, RuleSet),
}

/// What a moment ends in, where it has no choices.
pub fn end(moment: &Moment) -> End {
    if moment.clash {
        End::Clash
    } else {
        End::Marks(moment.marks.clone(), moment.fired.iter().copied().collect())
    }
}

/// The ends of all complete orders of selection; None where there are more moments than the bound.
/// Moments alike in marks and fired rules have the same choices, so they are followed once.
pub fn complete_selections(program: &Program, card: &[u8], slip: &[Pair], bound: usize) -> Option<Vec<Moment>> {
    let mut waiting = vec![Moment::start(program, slip)];
    let mut seen = BTreeSet::from([end(&waiting[0])]);
    let mut ends = Vec::new();
    while let Some(moment) = waiting.pop() {
        let choices = choices(program, card, &moment);
        for choice in &choices {
            let next = after(program, &moment, *choice);
            if next.clash {
                ends.push(next);
            } else if seen.insert(end(&next)) {
                waiting.push(next);
            }
        }
        if choices.is_empty() {
            ends.push(moment);
        }
        if seen.len() > bound {
            return None;
        }
    }
    Some(ends)
}

/// The end of an order of selection whose choices are made by chance.
pub fn chance_selection(rng: &mut Rng, program: &Program, card: &[u8], slip: &[Pair]) -> Moment {
    let mut moment = Moment::start(program, slip);
    loop {
        let choices = choices(program, card, &moment);
        if choices.is_empty() {
            return moment;
        }
        moment = after(program, &moment, *rng.pick(&choices));
    }
}
