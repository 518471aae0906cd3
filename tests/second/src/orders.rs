//! All firing orders of a small file, and what demand 3 says of them.

use std::collections::BTreeSet;

use crate::response::{conflict, enabled, Changes};
use crate::rule_set::RuleSet;
use crate::table::{Pair, Rule};

/// A moment of a firing order: C, and the list of the rules fired so far, by their positions.
#[derive(Clone, PartialEq, Eq, Debug)]
pub struct Moment {
    pub changes: Changes,
    pub order: Vec<usize>,
}

/// The start of every firing order: the slip, nothing fired.
pub fn start(slip: &[Pair]) -> Moment {
    Moment { changes: slip.iter().copied().collect(), order: Vec::new() }
}

/// The rules that may be fired next.
fn open(rules: &[Rule], card: &[u8], moment: &Moment) -> Vec<usize> {
    let may = |at: &usize| !moment.order.contains(at) && enabled(card, &moment.changes, &rules[*at]);
    (0..rules.len()).filter(may).collect()
}

/// The moment after one more rule.
fn next(rules: &[Rule], moment: &Moment, at: usize) -> Moment {
    let mut after = moment.clone();
    after.changes.extend(&rules[at].assignments);
    after.order.push(at);
    after
}

/// Whether every fired rule is still enabled.
pub fn consistent(rules: &[Rule], card: &[u8], moment: &Moment) -> bool {
    moment.order.iter().all(|at| enabled(card, &moment.changes, &rules[*at]))
}

/// The ends of all complete firing orders, each order by itself; None where there are more moments than the bound.
pub fn complete_orders(rules: &[Rule], card: &[u8], slip: &[Pair], bound: usize) -> Option<Vec<Moment>> {
    let mut waiting = vec![start(slip)];
    let mut ends = Vec::new();
    let mut seen = 0;
    while let Some(moment) = waiting.pop() {
        seen += 1;
        if seen > bound {
            return None;
        }
        let open = open(rules, card, &moment);
        waiting.extend(open.iter().map(|at| next(rules, &moment, *at)));
        if open.is_empty() {
            ends.push(moment);
        }
    }
    Some(ends)
}

/// The ends of all complete firing orders, one order for each set of fired rules, since C depends on that set alone; None beyond the bound.
pub fn complete_sets(rules: &[Rule], card: &[u8], slip: &[Pair], bound: usize) -> Option<Vec<Moment>> {
    let mut waiting = vec![start(slip)];
    let mut seen = BTreeSet::from([RuleSet::default()]);
    let mut ends = Vec::new();
    while let Some(moment) = waiting.pop() {
        let open = open(rules, card, &moment);
        for at in &open {
            let after = next(rules, &moment, *at);
            if seen.insert(after.order.iter().copied().collect()) {
                waiting.push(after);
            }
        }
        if open.is_empty() {
            ends.push(moment);
        }
        if seen.len() > bound {
            return None;
        }
    }
    Some(ends)
}

/// What an order comes to: C, the fired rules, the lowest slot in conflict.
#[derive(Clone, PartialEq, Eq, PartialOrd, Ord, Debug)]
pub struct End {
    pub changes: Changes,
    pub fired: BTreeSet<usize>,
    pub conflict: Option<u8>,
}

/// What a moment comes to.
pub fn end(moment: &Moment) -> End {
    End {
        changes: moment.changes.clone(),
        fired: moment.order.iter().copied().collect(),
        conflict: conflict(&moment.changes),
    }
}

/// The ends, each once, of those complete orders that are consistent.
pub fn consistent_ends(rules: &[Rule], card: &[u8], complete: &[Moment]) -> BTreeSet<End> {
    complete.iter().filter(|moment| consistent(rules, card, moment)).map(end).collect()
}
